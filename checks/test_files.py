#!/usr/bin/env python3
"""Tests that the tools lose nothing: outputs that are inputs, outputs that fail, inputs without an end, pipes, order of words.

usage: python3 checks/test_files.py [PROGRAM]

PROGRAM is the xdpvm that is used (the default: crates/xdpvm/out/xdpvm). In the gate.
"""
import gzip
import os
import resource
import shutil
import stat
import struct
import subprocess
import sys
import tempfile
import threading
import time
import unittest
from functools import partial

from common import PYTHON, TOP, built, bytes_of, write

TOOLS, EXAMPLES = os.path.join(TOP, "tools"), os.path.join(TOP, "examples")
PROGRAM = [built()]
SECONDS, MOST = 1.0, 64 << 20  # for an answer on an endless input, without the start of Python; and bytes of memory


class InFolder(unittest.TestCase):
    """A folder with a capture, its frames, a text of frames, a filter in each form, and a proof table."""

    def setUp(self) -> None:
        self.folder = tempfile.mkdtemp()
        self.addCleanup(shutil.rmtree, self.folder)
        for name in ("firewall.pcapng", "firewall.frames", "firewall.text", "firewall.image", "pass.table", "talkers.bpf.c"):
            shutil.copy(os.path.join(EXAMPLES, name), self.folder)
        shutil.copy(os.path.join(EXAMPLES, "filters/mix.txt"), self.folder)
        shutil.copy(os.path.join(TOP, "tests/objects/made/globals.clang14.o"), os.path.join(self.folder, "filter.o"))
        with open(os.path.join(self.folder, "pass.txt"), "w", encoding="utf-8") as file:
            subprocess.run([PYTHON, f"{TOOLS}/table.py", "show", f"{self.folder}/pass.table"], stdout=file, check=True)

    def words(self, tool: str, *words: str) -> list[str]:
        """A command; `run.sh` and `compile.sh` are scripts of the shell."""
        if tool.endswith(".sh"):
            return ["bash", os.path.join(EXAMPLES if tool == "run.sh" else TOOLS, tool), *words]
        more = ["--xdpvm", PROGRAM[0]] if tool in ("xdp.py", "kernel.py") else []
        return [PYTHON, os.path.join(TOOLS, tool), *more, *words]

    def ran(self, tool: str, *words: str, **how: object) -> "subprocess.CompletedProcess[bytes]":
        given = {"cwd": self.folder, "capture_output": True, "timeout": 120, **how}
        return subprocess.run(self.words(tool, *words), check=False, **given)  # type: ignore[call-overload, no-any-return]

    def all(self) -> dict[str, bytes]:
        found = {}
        for name in sorted(os.listdir(self.folder)):
            path = os.path.join(self.folder, name)
            if os.path.isfile(path):
                found[name] = bytes_of(path)
        return found


class Inputs(InFolder):
    COMMANDS = (
        ("xdp.py", "firewall.text", "firewall.pcapng", "{firewall.pcapng}"),
        ("xdp.py", "firewall.text", "firewall.pcapng", "{firewall.text}", "--to", "frames"),
        ("xdp.py", "firewall.text", "firewall.frames", "{firewall.frames}"),
        ("xdp.py", "talkers.bpf.c", "firewall.frames", "{talkers.bpf.c}", "--to", "txt"),
        ("frames.py", "mix.txt", "{mix.txt}"),
        ("image.py", "filter.o", "{filter.o}"),
        ("image.py", "--source", "talkers.bpf.c", "filter.o", "{talkers.bpf.c}"),
        ("compile.sh", "talkers.bpf.c", "{talkers.bpf.c}"),
        ("table.py", "make", "pass.txt", "{pass.txt}"),
        ("run.sh", "run", "firewall.text", "firewall.pcapng", "{firewall.pcapng}"),
        ("run.sh", "trace", "firewall.text", "firewall.frames", "{firewall.text}"),
        ("run.sh", "asm", "firewall.text", "{firewall.text}"),
    )

    def test_an_output_that_is_an_input_is_refused(self) -> None:
        """By its name, by a hard link, and by a symbolic one: nothing changes, and the status is not 0."""
        for command in self.COMMANDS:
            read = next(word[1:-1] for word in command if word.startswith("{"))
            ending = os.path.splitext(read)[1]
            os.link(f"{self.folder}/{read}", f"{self.folder}/hard{ending}")
            os.symlink(read, f"{self.folder}/soft{ending}")
            before = self.all()
            for name in (read, f"hard{ending}", f"soft{ending}"):
                with self.subTest(command=command, name=name):
                    ran = self.ran(*(name if word.startswith("{") else word for word in command))
                    self.assertNotEqual(ran.returncode, 0)
                    self.assertIn(b"it is one of the files that are read", ran.stderr)
                    self.assertEqual(self.all(), before)
            os.remove(f"{self.folder}/hard{ending}")
            os.remove(f"{self.folder}/soft{ending}")

    def test_an_old_output_stays_where_anything_fails(self) -> None:
        write(f"{self.folder}/bad.pcap", struct.pack("<IHHiIII", 0xA1B2C3D4, 2, 4, 0, 0, 65535, 105))
        write(f"{self.folder}/bad.c", "nothing\n")
        for name in ("old.pcap", "old.image", "old.table", "old.frames"):
            write(f"{self.folder}/{name}", b"old")
            os.chmod(f"{self.folder}/{name}", 0o640)
        before = self.all()
        for command in (
            ("frames.py", "firewall.pcapng", "old.frames"),
            ("frames.py", "pass.txt", "old.frames"),
            ("xdp.py", "firewall.text", "bad.pcap", "old.pcap"),
            ("xdp.py", "pass.txt", "firewall.pcapng", "old.pcap"),
            ("image.py", "firewall.image", "old.image"),
            ("compile.sh", "bad.c", "old.image"),
            ("table.py", "make", "firewall.text", "old.table"),
            ("run.sh", "run", "pass.txt", "firewall.pcapng", "old.frames"),
        ):
            with self.subTest(command=command):
                self.assertNotEqual(self.ran(*command).returncode, 0)
                self.assertEqual(self.all(), before)
        self.assertEqual(self.ran("frames.py", "mix.txt", "old.frames").returncode, 0)
        self.assertEqual(bytes_of(f"{self.folder}/old.frames")[:4], b"XPF1")
        self.assertEqual(stat.S_IMODE(os.stat(f"{self.folder}/old.frames").st_mode), 0o640)

    def test_options_stand_anywhere(self) -> None:
        wanted = self.ran("xdp.py", "firewall.text", "firewall.pcapng", "sent.pcapng", "--trace").stdout
        for words in (
            ("firewall.text", "--trace", "firewall.pcapng", "sent.pcapng"),
            ("--trace", "firewall.text", "firewall.pcapng", "sent.pcapng"),
            ("firewall.text", "firewall.pcapng", "--trace", "sent.pcapng"),
        ):
            self.assertEqual(self.ran("xdp.py", *words).stdout, wanted)
        self.assertEqual(self.ran("frames.py", "mix.txt", "--reasons", "two.frames").returncode, 0)
        self.assertEqual(bytes_of(f"{self.folder}/two.frames")[:4], b"XPF2")
        self.assertEqual(self.ran("image.py", "filter.o", "--section", "xdp", "made.image").returncode, 0)


class Surveys(InFolder):
    """survey.py, over the programs of this repository or those beside PROGRAM."""

    def rows(self, *words: str) -> list[list[str]]:
        survey = os.path.join(os.path.dirname(PROGRAM[0]), "xdpvm_survey")
        beside = survey if os.path.exists(survey) else os.path.join(TOP, "crates/xdpvm_survey/out/xdpvm_survey")
        ran = self.ran("survey.py", "--survey", beside, "--xdpvm", PROGRAM[0], "--format", "csv", *words)
        self.assertIn(ran.returncode, (0, 2), ran.stderr)
        return [line.split(",") for line in ran.stdout.decode().splitlines()]

    def test_a_row_for_each_program_with_its_line(self) -> None:
        for source in ("globals.clang14.o", "sections.clang14.o", "headers.gcc12.o"):
            shutil.copy(os.path.join(TOP, "tests/objects/made", source), self.folder)
        write(f"{self.folder}/wrong.text", "r0 = 2\nr0 = *(u8 *)(r2 + 0)\nexit\n")
        names = ("globals.clang14.o", "sections.clang14.o", "headers.gcc12.o", "wrong.text")
        header, *rows = self.rows(*names)
        verdicts = [("globals.clang14.o", "ok"), ("sections.clang14.o:other", "ok"), ("sections.clang14.o:program", "ok")]
        self.assertEqual([tuple(row[:2]) for row in rows], verdicts + [("headers.gcc12.o", "none"), ("wrong.text", "V1")])
        self.assertEqual(rows[4][header.index("line")], "wrong.text:2: r0 = *(u8 *)(r2 + 0)")
        self.assertIn("CO-RE", ",".join(rows[3]))

    def test_a_damaged_object_has_a_row(self) -> None:
        whole = bytes_of(os.path.join(TOP, "tests/objects/made/sections.clang14.o"))
        for count in (10, 18, 200, len(whole) - 5):
            write(f"{self.folder}/cut{count}.o", whole[:count])
        rows = self.rows(*(f"cut{count}.o" for count in (10, 18, 200, len(whole) - 5)))[1:]
        self.assertEqual([row[1] for row in rows], ["none"] * 4)
        self.assertTrue(all("the object file is damaged" in ",".join(row) for row in rows), rows)

    def test_two_folders_are_compared_by_names(self) -> None:
        for folder, compiler in (("one", "clang14"), ("other", "gcc12")):
            os.mkdir(f"{self.folder}/{folder}")
            shutil.copy(os.path.join(TOP, f"tests/objects/made/globals.{compiler}.o"), f"{self.folder}/{folder}/globals.o")
        write(f"{self.folder}/one.csv", "\n".join(",".join(row) for row in self.rows("one")) + "\n")
        changed = {row[1] for row in self.rows("other", "--compare", "one.csv")[1:] if row[0] == "globals.o"}
        self.assertLessEqual({"slots", "bound"}, changed)
        self.assertNotIn("verdict", changed)
        self.assertEqual(self.rows("one", "--compare", "one.csv")[1:], [])


class Endless(InFolder):
    """What is refused at its first bytes is refused when they are read."""

    def answered(self, tool: str, *words: str) -> bytes:
        """The message, within a second of processor time and 64 MB."""
        before = resource.getrusage(resource.RUSAGE_CHILDREN)
        ran = self.ran(tool, *words, preexec_fn=partial(resource.setrlimit, resource.RLIMIT_AS, (1 << 30, 1 << 30)), timeout=30)
        after = resource.getrusage(resource.RUSAGE_CHILDREN)
        self.assertLess(after.ru_utime + after.ru_stime - before.ru_utime - before.ru_stime, SECONDS + 1, words)
        self.assertLess(after.ru_maxrss * 1024, MOST)
        self.assertEqual(ran.returncode, 1, ran.stderr)
        self.assertNotIn(b"Traceback", ran.stderr)
        return ran.stderr

    def test_inputs_without_an_end(self) -> None:
        with open(f"{self.folder}/open", "w", encoding="utf-8") as file:
            for _ in range(100):
                file.write("(" * 1_000_000)
        with open(f"{self.folder}/zeros.table", "wb") as table:
            table.write(bytes_of(f"{self.folder}/pass.table"))
            table.truncate(1 << 40)
        for path in ("/dev/zero", "/dev/urandom", "open"):
            for command in (
                ("frames.py", path, "x.frames"),
                ("table.py", "show", path),
                ("table.py", "make", path, "x.table"),
                ("image.py", path, "x.image"),
            ):
                with self.subTest(command=command):
                    self.assertTrue(self.answered(*command))
        self.assertEqual(self.answered("table.py", "show", "zeros.table"), b"table.py: P3\n")
        self.assertEqual(
            self.answered("frames.py", "/dev/null", "x.frames"),
            b"/dev/null: it is empty, and a text has a frame at least\n",
        )


class Pipes(InFolder):
    def test_a_capture_through_pipes_is_the_capture(self) -> None:
        self.assertEqual(self.ran("xdp.py", "firewall.text", "firewall.pcapng", "sent.pcapng").returncode, 0)
        for name in ("firewall.pcapng", "firewall.frames"):
            piped = self.ran("xdp.py", "firewall.text", "-", "-", "--to", "pcapng", input=bytes_of(f"{self.folder}/{name}"))
            self.assertEqual((piped.returncode, piped.stdout), (0, bytes_of(f"{self.folder}/sent.pcapng")))
            self.assertIn(b"8 frames: 4 PASS, 4 DROP", piped.stderr)

    def test_a_packed_capture_is_unpacked(self) -> None:
        packed = gzip.compress(bytes_of(f"{self.folder}/firewall.pcapng"))
        write(f"{self.folder}/packed.gz", packed)
        write(f"{self.folder}/cut.gz", packed[:-4])
        whole = self.ran("xdp.py", "firewall.text", "packed.gz", "sent.pcapng")
        piped = self.ran("xdp.py", "firewall.text", "-", "-", "--to", "pcapng", input=packed)
        for ran in (whole, piped):
            self.assertEqual(ran.returncode, 0, ran.stderr)
            self.assertIn(b"8 frames: 4 PASS, 4 DROP", ran.stdout + ran.stderr)
        self.assertEqual(piped.stdout, bytes_of(f"{self.folder}/sent.pcapng"))
        cut = self.ran("xdp.py", "firewall.text", "cut.gz")
        self.assertIn(b"8 frames: 4 PASS, 4 DROP", cut.stdout)
        self.assertIn(b"cut.gz: what gzip packed ends early", cut.stderr)

    def test_frames_pass_as_they_come(self) -> None:
        """A writer that waits for each frame to come out before it writes the next one."""
        head = struct.pack("<IHHiIII", 0xA1B2C3D4, 2, 4, 0, 0, 65535, 1)
        words = self.words("xdp.py", os.path.join(EXAMPLES, "pass.text"), "-", "-", "--to", "frames")
        with subprocess.Popen(words, stdin=subprocess.PIPE, stdout=subprocess.PIPE, stderr=subprocess.DEVNULL) as child:
            assert child.stdin and child.stdout
            watchdog = threading.Timer(30, child.kill)
            watchdog.start()
            self.addCleanup(watchdog.cancel)
            child.stdin.write(head)
            child.stdin.flush()
            waited = []
            for number in range(5):
                begun = time.monotonic()
                child.stdin.write(struct.pack("<IIII", number, 0, 60, 60) + bytes([number]) * 60)
                child.stdin.flush()
                taken = child.stdout.read(80 if number else 84)
                waited.append(time.monotonic() - begun)
                self.assertEqual(taken[-60:], bytes([number]) * 60)
            child.stdin.close()
            self.assertEqual(child.wait(), 0)
        self.assertLess(max(waited[1:]), 1.0)


if __name__ == "__main__":
    if len(sys.argv) > 1 and not sys.argv[1].startswith("-"):
        PROGRAM[0] = os.path.abspath(sys.argv.pop(1))
    unittest.main()
