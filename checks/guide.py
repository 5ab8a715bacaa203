#!/usr/bin/env python3
"""Runs every example of README.md and docs/*.md, and prints each whose result is not what the page
says.

usage: python3 checks/guide.py [PROGRAM [SURVEY [FILTER]]]

PROGRAM is the program that `rt run` leaves in crates/xdpvm (the default: crates/xdpvm/out/xdpvm), SURVEY the one that it
leaves in crates/xdpvm_survey (crates/xdpvm_survey/out/xdpvm_survey), FILTER that in crates/xdpvm_filter. Without one of
these two the blocks that call it are not tried.

The first word after the backquotes of a code block says how the block is tried:

    console     commands after `$`, each followed by its standard output
    tcpdump     the same, where tcpdump 4.99 with libpcap 1.10 is installed
    NAME.text   a program text; it is written to that file, for the commands that follow it on the page
    NAME.maps   the same of a text of maps, NAME.case of cases for tests/cases.py
    program     a program text; `asm` assembles it, and `verify` answers what the comment says
    trace       a program text; the first frame of examples/two.frames, traced, has the lines that the comment says
    image       an image in hexadecimal; `verify` answers what the comment says
    stream      a frame stream in hexadecimal; the report of examples/pass.image ends in what the comment says
    table       a proof table of examples/pass.image in hexadecimal; `recheck` answers what the comment says
    entries     the same as a text for tools/table.py

The last six begin with a comment: the line of standard output, and after it what standard error gets. A refusal of
`asm` counts as the answer. In hexadecimal `#` begins a comment. A block that begins with a crate's name is tried by
tour.py; blocks with any other word, or with none, are not tried. Each examples/NAME.text has to make NAME.image, each
NAME.bpf.c too where clang 14 is installed, each NAME.table is what `prove` writes for NAME.image, and each NAME.report
is what `run` prints for NAME.image and NAME.frames, into a pipe and into a file. The last rows read crates.txt, the
crates and the pages: what `run` and `recheck` depend on, that each crate has its row, and that each link leads somewhere.
Each NAME.frames is what `xdpvm_filter convert` makes from NAME.pcapng, if there is one; frame streams of XPF1 and XPF2 become texts
and captures, and those the same streams again. Each filter of examples/filters is answered as it says (filters.py). The
exit status is 0 if every result is the one wanted, else 1.
"""
import argparse
import contextlib
import glob
import os
import re
import subprocess
import sys
import tempfile
from collections.abc import Callable, Iterable, Iterator
from concurrent.futures import ProcessPoolExecutor
from dataclasses import dataclass
from functools import partial
from pathlib import Path

import common
from common import TOP, text_of, write
import cases
import filters

PROGRAM, SURVEY, FILTER = common.program(), common.program("xdpvm_survey", 2), common.program("xdpvm_filter", 3)
Example = tuple[str, str, str]  # what is tried, what is wanted, and the result
BLOCK = re.compile(r"^```(\S+)\n(.*?)^```$", re.M | re.S)
COMMENT = re.compile(r"(?:# .*\n)*")
COMMAND = re.compile(r"^\$ (.*)\n((?:(?!\$ ).*\n)*)", re.M)


def run(*words: str) -> tuple[int, str, str]:
    """The status, the standard output and the standard error of the program."""
    ran = subprocess.run([PROGRAM, *words], stdout=subprocess.PIPE, stderr=subprocess.PIPE, text=True, timeout=600, check=False)
    return ran.returncode, ran.stdout, ran.stderr


def shell(command: str) -> str:
    """The standard output of a command line."""
    ran = subprocess.run(
        ["bash", "-c", command], stdout=subprocess.PIPE, stderr=subprocess.DEVNULL, text=True, timeout=600, check=False
    )
    return ran.stdout


def hex_of(path: str) -> str:
    """A line with the bytes of a file, or with none where it is not there."""
    return (common.bytes_of(path).hex() if os.path.exists(path) else "") + "\n"


def write_hex(name: str, text: str) -> None:
    write(name, bytes_of_hex(text))


def bytes_of_hex(text: str) -> bytes:
    return bytes.fromhex(re.sub(r"#.*", "", text))


def has_tcpdump() -> bool:
    """Whether the tcpdump of the pages is installed: others compile some expressions otherwise."""
    return re.search(r"tcpdump version 4\.99\..*libpcap version 1\.10\.", shell("tcpdump --version 2>&1"), re.S) is not None


def first_record() -> bytes:
    """A stream of the first frame of examples/two.frames."""
    stream = common.bytes_of("examples/two.frames")
    return stream[: 4 + 20 + int.from_bytes(stream[20:24], "little")]


def asked(kind: str, body: str, is_assembled: bool) -> Iterator[tuple[str, str]]:
    """The lines of a case that makes the files of a block, and ends in the command that answers."""
    if kind in ("program", "trace") and not is_assembled:
        yield "file", f"text {body.encode().hex()}"
        yield "$", "xdpvm asm text image"
    elif kind in ("program", "trace"):
        yield "text", body
        yield "frames", first_record().hex()
        yield "$", "xdpvm verify image" if kind == "program" else "xdpvm trace image frames sent"
    elif kind == "entries":
        yield "file", f"text {body.encode().hex()}"
        yield "$", "table.py make text table"
        yield "status", "0"
        yield "$", "xdpvm recheck examples/pass.image table"
    else:
        of = {"image": ("image", "verify image"), "table": ("table", "recheck examples/pass.image table")}
        name, command = of.get(kind, ("frames", "run examples/pass.image frames sent"))
        yield name, bytes_of_hex(body).hex()
        yield "$", f"xdpvm {command}"


def block_case(kind: str, body: str) -> list[tuple[str, str]]:
    """A block whose first comment says what is wanted, as the lines of a case (tests/README.md)."""
    first, *rest = [line[2:] for line in common.there(COMMENT.match(body))[0].splitlines()]
    out = {"trace": [first, "..."], "stream": ["...", first]}.get(kind, [first])
    answer = [*(("1>", it) for it in out), *(("2>", it) for it in rest)]
    status = {"refused": 2, "fault": 3}.get(first.split(" ")[0], 0)
    return [*asked(kind, body, not first.startswith("refused A")), *answer, ("status", str(status))]


def differences(lines: Iterable[tuple[str, str]], folder: str) -> str:
    """What differs in a case whose files are in this folder."""
    programs = {"xdpvm": PROGRAM, "xdpvm_survey": SURVEY, "xdpvm_filter": FILTER}
    case = cases.Case({}, [cases.Line("", word, rest) for word, rest in lines])
    return "".join(f"{it}\n" for it in cases.Trial(programs, Path(folder), case).differences())


def has_programs(body: str) -> bool:
    """Whether the programs that a block calls are there."""
    fills = re.search(r"xdpvm_filter|xdp\.py .*(--maps|quota)", body)
    return ("survey" not in body or os.path.exists(SURVEY)) and (not fills or os.path.exists(FILTER))


def tries(kind: str, body: str) -> Iterator[Example]:
    """The examples of a block: what is tried, what is wanted, and the result."""
    if kind.endswith((".text", ".maps", ".case")):
        write(kind, body)
    elif kind == "console" and has_programs(body) or kind == "tcpdump" and has_tcpdump():
        for command, wanted in COMMAND.findall(body):
            yield command, "", differences([("sh", command), *(("1>", it) for it in wanted.splitlines())], ".")
    elif kind in ("program", "trace", "image", "stream", "table", "entries"):
        with tempfile.TemporaryDirectory() as folder:
            os.symlink(os.path.join(TOP, "examples"), f"{folder}/examples")
            yield body, "", differences(block_case(kind, body), folder)


def stored() -> Iterator[Example]:
    """Each stored image is made by the text beside it."""
    for text in sorted(glob.glob("examples/*.text")):
        run("asm", text, "example.image")
        yield text, hex_of(text.removesuffix(".text") + ".image"), hex_of("example.image")


def proved() -> Iterator[Example]:
    """Each stored proof table is the one that `prove` writes for the image beside it, and `recheck` accepts it."""
    for table in sorted(glob.glob("examples/*.table")):
        image = table.removesuffix(".table") + ".image"
        run("prove", image, "example.table")
        yield table, hex_of(table), hex_of("example.table")
        yield f"{table} by recheck", run("verify", image)[1], run("recheck", image, table)[1]


def compiled() -> Iterator[Example]:
    """Each stored image of a source in C is what the clang that made it makes from it, if that is
    installed."""
    if "clang version 14." in shell("clang --version") and os.path.exists("/usr/include/linux/bpf.h"):
        for source in sorted(glob.glob("examples/*.bpf.c")):
            shell(f"bash tools/compile.sh {source} example.image")
            for ending in (".image", ".image.maps"):
                kept = source.removesuffix(".bpf.c") + ending
                yield source, hex_of(kept), hex_of(f"example{ending}")


def captured() -> Iterator[Example]:
    """Each stored frame stream is made from the capture beside it."""
    for capture in sorted(glob.glob("examples/*.pcapng")):
        kept = hex_of(capture.removesuffix(".pcapng") + ".frames")
        flags = "--reasons" if kept[:8] == b"XPF2".hex() else ""
        yield capture, kept, converted(flags, capture, "example.frames")


FRAMES = """\
frame 1000 interface 1 queue 0 reason 7
  0000: ca fe                                           |..|
frame 18446744073709551615 interface 2 queue 0
frame 2000 interface 0 queue 0 reason 4294967295
  0000: 61                                              |a|
"""
RECORDS = (
    "58504632"  # XPF2
    "e803000000000000"
    "01000000"
    "00000000"
    "02000000"
    "07000000"
    "cafe"  # time, interface, queue, length, reason
    "ffffffffffffffff"
    "02000000"
    "00000000"
    "00000000"
    "00000000"
    "d007000000000000"
    "00000000"
    "00000000"
    "01000000"
    "ffffffff"
    "61"
)

CAPTURE = (
    "0a0d0d0a 1c000000 4d3c2b1a 01000000 ffffffff ffffffff 1c000000"  # a pcapng: its section,
    "01000000 14000000 01000000 00000000 14000000"  # Ethernet, times in microseconds,
    "06000000 34000000 00000000 00000000 01000000 02000000 02000000 cafe0000"  # a packet of two bytes,
    "01000800 726561736f6e2037 00000000 34000000"  # and its comment `reason 7`
)
CAPTURED = "58504632e8030000000000000000000000000000" + "0200000007000000cafe"


def made_stream(flags: str, text: str, name: str) -> str:
    """The bytes of the stream that frames.py makes of a text."""
    shell(f"python3 tools/frames.py {flags} {text} {name}")
    return hex_of(name)


def converted(flags: str, given: str, *names: str) -> str:
    """The bytes of the last file, each of them made by `xdpvm_filter convert` of the one before."""
    for name in names:
        shell(f"xdpvm_filter convert {flags} {given} {name}")
        given = name
    return hex_of(given)


def returned() -> Iterator[Example]:
    """Frame streams go through texts and captures unchanged, with their reasons; of a frame that is
    too long its reason is left."""
    write("example.text", FRAMES)
    yield "a text with reasons", RECORDS + "\n", made_stream("--reasons", "example.text", "example.frames")
    yield "a capture with reasons", RECORDS + "\n", converted("--reasons", "example.frames", "example.pcapng", "again.frames")
    yield "a stream with reasons as a text", FRAMES, shell("xdpvm_filter show again.frames")
    write_hex("other.pcapng", CAPTURE)
    yield "a capture of another tool", CAPTURED + "\n", converted("--reasons", "other.pcapng", "example.frames")
    for flags, most in ("", 4096), ("--reasons", 9216):
        write("example.text", "".join(f"frame {size}\n{bytes(size).hex()}\n" for size in (most, most + 1)))
        made_stream(flags, "example.text", "example.frames")
        shown = shell("xdpvm_filter show example.frames | grep frame")
        kept = f"frame {most + 1} interface 0 queue 0 reason 4294967295\n" if flags else ""
        yield f"frames of {most} bytes {flags}", f"frame {most} interface 0 queue 0\n{kept}", shown
    for stream in sorted(set(glob.glob("examples/*.frames")) - {"examples/cut.frames"}):
        kept = hex_of(stream)
        write("example.text", shell(f"xdpvm_filter show {stream}"))
        flags = "--reasons" if kept[:8] == b"XPF2".hex() else ""
        yield f"{stream} as a text", kept, made_stream(flags, "example.text", "example.frames")


def reported() -> Iterator[Example]:
    """Each stored report is what `run` prints for the program and the frames beside it, into a pipe and into a file."""
    for report in sorted(glob.glob("examples/*.report")):
        name = report.removesuffix(".report")
        kept = text_of(report)
        yield report, kept, run("run", name + ".image", name + ".frames", "sent")[1]
        shell(f"xdpvm run {name}.image {name}.frames sent > report")
        yield f"{report} into a file", kept, text_of("report")


def below(name: str) -> set[str]:
    """The crates that this one depends on."""
    stands_on, left = common.crates(), [name]
    found: set[str] = set()
    while left:
        new = [it for it in stands_on.get(left.pop(), []) if it not in found]
        found.update(new)
        left += new
    return found


def depends() -> Iterator[Example]:
    """`run` executes on words, with no test of an access: its machine depends on flatmem, and not on the checked one.
    `recheck` depends on the step and the test of covering, and on nothing of the search for a bound."""
    found = below("machine")
    told = f"flatmem: {'flatmem' in found}, checked_vm: {'checked_vm' in found}\n"
    yield "crates below machine", "flatmem: True, checked_vm: False\n", told
    search = {"explorer", "walks", "state_index", "explanations", "proof_table"}
    wanted = {"transfer", "state_cover"}
    found = below("rechecking") & (search | wanted)
    yield "crates below rechecking", f"{sorted(wanted)}\n", f"{sorted(found)}\n"


def crates_on_pages() -> Iterator[Example]:
    """Each crate of crates.txt has a row in ARCHITECTURE.md, and no other one has."""
    crates = set(common.crates())
    table = text_of(os.path.join(TOP, "docs/ARCHITECTURE.md")).split("\n## Crates\n")[1].split("\n## ")[0]
    named = {name for row in re.findall(r"^\| (\[?`[^|]*) \|", table, re.M) for name in re.findall(r"`(\w+)`", row)}
    yield "crates that differ in docs/ARCHITECTURE.md", "[]\n", f"{sorted(crates ^ named)}\n"


def anchors(page: str) -> tuple[str, set[str]]:
    """The anchors of a page's headings."""
    text = re.sub(r"^```.*?^```$", "", text_of(page), flags=re.M | re.S)
    heads = [re.sub(r"[^\w\- ]", "", head.strip().lower()) for head in re.findall(r"^#+ (.*)$", text, re.M)]
    return text, {head.replace(" ", "-") for head in heads}


def links(pages: list[str]) -> Iterator[Example]:
    """Each link of a page leads to a file that is there, and to a heading."""
    for page in pages:
        wrong = []
        for link in re.findall(r"\]\(([^)\s]+)\)", anchors(page)[0]):
            file, _, anchor = link.partition("#")
            there = os.path.join(os.path.dirname(page), file) if file else page
            if ":" not in link and (not os.path.exists(there) or anchor and anchor not in anchors(there)[1]):
                wrong.append(link)
        yield f"links of {os.path.relpath(page, TOP)}", "[]\n", f"{wrong}\n"


def filters_named() -> Iterator[Example]:
    """Each filter that the page on C names is there."""
    named = set(re.findall(r"`(\w+\.c)`", text_of(os.path.join(TOP, "docs/COMPILED.md"))))
    yield "filters that COMPILED.md names", "[]\n", f"{sorted(named - set(os.listdir(filters.FOLDER)))}\n"


def filters_asked() -> argparse.Namespace:
    """Those in C are tried where clang is installed."""
    has_headers = os.path.exists("/usr/include/linux/bpf.h")
    return argparse.Namespace(program=PROGRAM, clang="clang" if has_headers else "no compiler", cpu=None, only=None)


def filter_answers(path: str) -> Iterator[Example]:
    """A filter of examples/filters has the result that its first line says."""
    yield os.path.relpath(path, TOP), "", filters.wrong(path, filters_asked()) or ""


def blocks(page: str) -> Iterator[Example]:
    for kind, body in BLOCK.findall(text_of(page)):
        yield from tries(kind, body)


@dataclass(frozen=True)
class Part:
    """What is tried in a folder of its own, and where its examples are."""

    where: str
    examples: Callable[[], Iterable[Example]]

    def tried(self) -> list[Example]:
        """The examples."""
        with tempfile.TemporaryDirectory() as folder, contextlib.chdir(folder):
            for name in ("examples", "tools", "tests"):
                os.symlink(os.path.join(TOP, name), name)
            return list(self.examples())


def parts() -> Iterator[Part]:
    pages = [os.path.join(TOP, "README.md"), *sorted(glob.glob(os.path.join(TOP, "docs/*.md")))]
    readmes = sorted(glob.glob(os.path.join(TOP, "crates/*/README.md")))
    others = [os.path.join(TOP, it) for it in ("examples/README.md", "assurance/LOG.md", "bench/LOG.md")]
    yield Part("streams and texts", returned)
    yield from (Part(os.path.relpath(page, TOP), partial(blocks, page)) for page in pages)
    yield from (Part("filters", partial(filter_answers, path)) for path in filters.paths(filters_asked()))
    yield Part("filters", filters_named)
    yield from (Part("examples", it) for it in (stored, proved, compiled, captured, reported))
    yield from (Part("crates.txt", it) for it in (depends, crates_on_pages))
    yield Part("pages", partial(links, pages + readmes + others))


def main() -> None:
    if not os.access(PROGRAM, os.X_OK):
        sys.exit(f"there is no program {PROGRAM}: give one, or build it as README.md says")
    runs = failures = 0
    with tempfile.TemporaryDirectory() as folder:
        for program, name in ((PROGRAM, "xdpvm"), (SURVEY, "xdpvm_survey"), (FILTER, "xdpvm_filter")):
            os.symlink(program, os.path.join(folder, name))
        os.environ.update(XDPVM=PROGRAM, XDPVM_FILTER=FILTER, PATH=folder + os.pathsep + os.environ["PATH"])
        every = list(parts())
        with ProcessPoolExecutor(len(os.sched_getaffinity(0))) as pool:
            for part, examples in zip(every, pool.map(Part.tried, every)):
                for what, wanted, answer in examples:
                    runs += 1
                    if answer != wanted:
                        failures += 1
                        print(f"{part.where}: {what}\nwanted:\n{wanted}answered:\n{answer}")
    for program in (SURVEY, FILTER):
        if not os.path.exists(program):
            print(f"there is no program {program}: what calls it was not tried")
    print(f"{runs} examples, {failures} differ")
    sys.exit(1 if failures else 0)


if __name__ == "__main__":
    main()
