#!/usr/bin/env python3
"""Tests of what xdp.py --hits writes, and of the page of `xdpvm_survey log --html`: their counts, what lcov's genhtml reads of
them, and whether HTML Tidy has anything against the pages. In the gate; `python3 checks/test_hits.py` runs them.

Where genhtml or tidy is not installed (Debian: lcov, tidy), what they say is left out, and a line says so.
"""
import glob
import html
import os
import re
import shutil
import subprocess
import sys
import tempfile
import unittest

from common import PYTHON, TOP, built, text_of, there, write

sys.dont_write_bytecode = True
import hits
import hits_page
from hits import Hits, Instruction
from sources import Failed, Source

EXAMPLES = os.path.join(TOP, "examples")
XDP = [PYTHON, os.path.join(TOP, "tools/xdp.py")]
TEXT = """# UDP passes
r0 = 1
r2 = *(u32 *)(r1 + 12); if r2 != 17 goto out
r0 = 2
out:
exit
"""
COUNTED = [
    Instruction(0, "r0 = 1", 7),
    Instruction(1, "r2 = *(u32 *)(r1 + 12)", 7),
    Instruction(2, "if r2 != 17 goto +1", 7, 7, 0),
    Instruction(3, "r0 = 2", 0),
    Instruction(4, "exit", 7),
]
# What geninfo(1) says of its lines: the line and its count; the line, block, branch and how often it was taken.
LCOV = """TN:
SF:{path}
BRDA:3,0,0,7
BRDA:3,0,1,0
BRF:2
BRH:1
DA:2,7
DA:3,7
DA:4,0
DA:6,7
LF:4
LH:3
end_of_record
"""


def ran(words: list[str]) -> "subprocess.CompletedProcess[str]":
    return subprocess.run(words, capture_output=True, text=True, check=False)


def tidied(path: str) -> str:
    """What HTML Tidy has against a page."""
    if not shutil.which("tidy"):
        print("test_hits.py: there is no tidy, so the pages are not tried by it", file=sys.stderr)
        return ""
    return ran(["tidy", "-e", "-q", path]).stderr


# ---- what is known of registers


Registers = dict[str, str]
NUMBER = re.compile(r"number (-?\d+)(?: to (-?\d+))?(?:, low half .*)?$")
PACKET = re.compile(r"packet pointer at (-?\d+)(?: to (-?\d+))?(?:, (\d+) bytes proved)?$")


def of_page(page: str) -> dict[int, Registers]:
    """What a page says of the registers at each slot that was explored."""
    rows = re.findall(r'<td class="count">(\d+)</td><td class="count">([1-9]\d*)</td>.*?</tr>', page, re.DOTALL)
    texts = re.split(r"<tr[^>]*><td", page)[1:]
    found = {}
    for text in texts:
        row = re.match(r' class="count">(\d+)</td><td class="count">([1-9]\d*)<', text)
        if row:
            lines = html.unescape(text).splitlines()
            lines[0] = lines[0].rpartition("<pre>")[2]
            found[int(row[1])] = dict(it.split(": ", 1) for it in lines if re.match(r"r\d: ", it))
    assert len(rows) == len(found)
    return found


def of_log(log: str) -> dict[int, list[Registers]]:
    """The registers of each state of a log, of its last search."""
    log = log.rpartition("searched again, exactly\n")[2]
    found: dict[int, list[Registers]] = {}
    for line in log.splitlines():
        state = re.match(r"#\d+ slot (\d+)", line)
        if state:
            found.setdefault(int(state[1]), []).append({})
            last = found[int(state[1])][-1]
        elif line.startswith("    r"):
            name, _, words = line.strip().partition(": ")
            last[name] = words
    return found


def limits(words: str) -> tuple[int, int] | None:
    """The numbers that words allow, as 64 bits without a sign; none of values of other kinds."""
    if words.startswith("any number"):
        return 0, 2**64 - 1
    its = NUMBER.match(words)
    if not its:
        return None
    least, greatest = int(its[1]), int(its[2] or its[1])
    return (0, 2**64 - 1) if least < 0 <= greatest else (least % 2**64, greatest % 2**64)


def holds(words: str | None, kinds: list[str | None]) -> bool:
    """Whether words hold of a register that the states have of these kinds."""
    if words is None:
        return None in kinds
    if words == "differs":
        return len(set(kinds)) > 1
    if None in kinds:
        return False
    if limits(words) is not None:
        least, greatest = limits(words) or (0, 0)
        return all((its := limits(it or "")) is not None and least <= its[0] and its[1] <= greatest for it in kinds)
    packet = PACKET.match(words)
    if packet and packet[2]:
        each = [
            re.match(r"packet pointer at (-?\d+)(?: after part \d+ of (-?\d+) to (-?\d+))?, (\d+) bytes", it or "") for it in kinds
        ]
        return all(
            it
            and int(packet[1]) <= int(it[1]) + int(it[2] or 0)
            and int(it[1]) + int(it[3] or 0) <= int(packet[2])
            and int(packet[3] or 0) <= int(it[4])
            for it in each
        )
    return set(kinds) == {words} or words.startswith("value of map")


class Counts(unittest.TestCase):
    """Counts of a text, given by hand."""

    def setUp(self) -> None:
        self.folder = tempfile.mkdtemp()
        self.addCleanup(shutil.rmtree, self.folder)
        self.text = os.path.join(self.folder, "udp.text")
        write(self.text, TEXT)
        self.source = Source.of_text(self.text)
        self.hits = Hits(COUNTED, 7, 5, (4, 4, 4), verdict="ok bound 5", told=["7 frames: 7 DROP"])
        self.files = hits.files_of(self.hits, self.source)

    def test_lcov(self) -> None:
        """Each line that became code, and each way of the jump."""
        self.assertEqual(hits.lcov(self.files), LCOV.format(path=self.text))

    def test_genhtml_reads_it(self) -> None:
        """genhtml counts the same lines and branches."""
        if not shutil.which("genhtml"):
            print("test_hits.py: there is no genhtml, so lcov's file is not read by it", file=sys.stderr)
            return
        path, made = os.path.join(self.folder, "udp.info"), os.path.join(self.folder, "made")
        hits.write_lcov(path, self.files, [])
        its = ran(["genhtml", "--branch-coverage", path, "-o", made])
        self.assertEqual(its.returncode, 0, its.stderr)
        self.assertRegex(its.stdout, r"lines\.*: 75\.0% \(3 of 4 lines\)")
        self.assertRegex(its.stdout, r"branches\.*: 50\.0% \(1 of 2 branches\)")

    def test_a_line_that_was_never_run_is_marked(self) -> None:
        """And the jump that went one way only; lines without code have no count."""
        page = hits_page.page(self.hits, self.files, self.source, "udp.text on <a capture>")
        rows = [it for it in page.splitlines() if it.startswith("<tr")]
        self.assertEqual([it.split('"')[1] for it in rows[:6] if it.startswith("<tr class=")], ["half", "never"])
        self.assertIn("udp.text on &lt;a capture&gt;", page)
        self.assertIn("jumped 7, never fell through", page)
        self.assertIn("4 of 5 were run", page)
        self.assertIn("least 4, median 4, greatest 4; the bound is 5", page)

    def test_the_page_is_tidy(self) -> None:
        path = os.path.join(self.folder, "udp.html")
        hits_page.write_page(path, self.hits, self.files, self.source, "udp.text", [])
        self.assertEqual(tidied(path), "")

    def test_a_source_that_changed(self) -> None:
        """Only the lines that became code are shown, as they were."""
        write(self.text, "# another text\n")
        files = hits.files_of(self.hits, self.source)
        self.assertEqual([it.number for it in files[0].lines], [2, 3, 4, 6])
        self.assertFalse(files[0].is_whole)
        self.assertIn("not here as it was", hits_page.page(self.hits, files, self.source, "udp.text"))

    def test_code_of_no_line(self) -> None:
        """A compiler gives it the line 0, which no file has."""
        self.source.slots[0] = ("udp.c:0", "")
        its = hits.lines_of(self.hits, self.source)
        self.assertEqual({path: sorted(known) for path, known in its.items()}, {self.text: [3, 4, 6]})

    def test_no_lines(self) -> None:
        """An image has none: a page has its instructions, and lcov's file is refused."""
        source = Source("udp.image")
        files = hits.files_of(self.hits, source)
        self.assertEqual(files, [])
        self.assertIn("<h2>Instructions</h2>", hits_page.page(self.hits, files, source, "udp.image"))
        with self.assertRaises(Failed):
            hits.write_lcov(os.path.join(self.folder, "udp.info"), files, [])


class Examples(unittest.TestCase):
    """Pages of the examples, by the programs."""

    def setUp(self) -> None:
        self.folder = tempfile.mkdtemp()
        self.addCleanup(shutil.rmtree, self.folder)

    def test_xdp(self) -> None:
        """As many lines were run as the page says, and the counts of the exits are the frames."""
        for name in ("firewall", "allow", "limit"):  # without functions, whose exits end no run
            path = os.path.join(self.folder, f"{name}.html")
            its = ran([*XDP, f"{EXAMPLES}/{name}.text", f"{EXAMPLES}/{name}.frames", "--hits", path])
            self.assertEqual((its.returncode, its.stderr), (0, ""))
            self.assertEqual(tidied(path), "")
            info = os.path.join(self.folder, f"{name}.info")
            self.assertEqual(ran([*XDP, f"{EXAMPLES}/{name}.text", f"{EXAMPLES}/{name}.frames", "--hits", info]).returncode, 0)
            lines = text_of(f"{EXAMPLES}/{name}.text").splitlines()
            exits = [it.split(",") for it in text_of(info).splitlines() if it.startswith("DA:")]
            ends = sum(int(count) for line, count in exits if lines[int(line[3:]) - 1].split("#")[0].strip() == "exit")
            frames = sum(
                line.split()[1:2] != ["SKIP"] for line in text_of(f"{EXAMPLES}/{name}.report").splitlines() if line[:1].isdigit()
            )
            self.assertEqual(ends, frames, name)

    def test_log(self) -> None:
        """The page of each image: an instruction's row each, and of a refused one the slot and what is said of it."""
        for image in sorted(glob.glob(f"{EXAMPLES}/*.image")):
            if os.path.basename(image) == "damaged.image":
                continue
            its = ran([built("xdpvm_survey"), "log", image, "--html"])
            path = os.path.join(self.folder, "log.html")
            write(path, its.stdout)
            self.assertEqual(tidied(path), "", image)
            listed = ran([built("xdpvm_survey"), "dis", image]).stdout.splitlines()
            slots = [it for it in listed if it[:6].strip().rstrip(":").isdigit() and len(it) > 32]
            self.assertEqual(its.stdout.count("<tr"), 1 + len(slots), image)
            said = ran([built("xdpvm"), "verify", image])
            self.assertEqual(its.returncode, said.returncode, image)
            self.assertIn(there(said.stdout.splitlines()[:1])[0], its.stdout)
            self.assertEqual(its.stdout.count("refused here"), int(said.returncode == 2), image)

    def test_what_a_page_says_is_known_holds_in_each_state(self) -> None:
        """The registers of each state of the log, beside those of the page."""
        compared = 0
        for image in [*sorted(glob.glob(f"{EXAMPLES}/*.image")), *sorted(glob.glob(f"{EXAMPLES}/compiled/*v3-O2.image"))]:
            if os.path.basename(image) == "damaged.image":
                continue
            page = ran([built("xdpvm_survey"), "log", image, "--html"]).stdout
            log = ran([built("xdpvm_survey"), "log", image, "--states", "1000000"]).stdout
            known, states = of_page(page), of_log(log)
            self.assertEqual(set(known), set(states), image)
            for slot, registers in known.items():
                for name in {*registers, *(it for state in states[slot] for it in state)}:
                    kinds = [it.get(name) for it in states[slot]]
                    self.assertTrue(
                        holds(registers.get(name), kinds), f"{image} slot {slot} {name}: {registers.get(name)} of {kinds}"
                    )
                    compared += len(kinds)
        self.assertGreater(compared, 10000)


if __name__ == "__main__":
    unittest.main()
