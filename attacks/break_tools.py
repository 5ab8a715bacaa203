#!/usr/bin/env python3
"""Breaks the tools from outside: makes each opening, read, write, renaming and closing of a file fail in turn, and some of
Python's allocations.

usage: python3 attacks/break_tools.py [XDPVM] [--memory N] [--tool NAME ..]

Something stands in each output before a run. After it each output is as it was, or as a run without a failure makes it; no
other file is left; standard error says why, without a traceback; and with status 0 each output, and standard output, is as
without the failure. Only files of the working folder and standard inputs and outputs count, and only what Python itself does,
not the programs that a tool starts. With --memory N allocations of Python, evenly spread over the run, are refused in turn, by
themselves and with all after them: then a traceback is allowed, and a file left beside. XDPVM is the program (the default:
crates/xdpvm/out/xdpvm), with xdpvm_filter and xdpvm_survey beside it or as `rt run` leaves them. It needs a C compiler (CC).
The last line is 'N tried, M wrong'.
"""
from __future__ import annotations

import os
import shutil
import subprocess
import sys
import tempfile
from collections.abc import Iterator, Sequence
from dataclasses import dataclass

sys.path.insert(0, os.path.join(os.path.dirname(os.path.abspath(__file__)), "../checks"))
import common
from common import TOP, write
from damage_tools import CLASSIC
from failing import MARK, STORED, Answer, Told, Tried, prepare
from map_files import MARK as BESIDE

TOOLS = os.path.join(TOP, "tools")
KINDS = ("open", "read", "write", "no-write", "short-read", "short-write", "rename", "close", "flush")
# a tool whose allocations from one on are refused, as many as a number says (0: all)
REFUSING = """\
import _testcapi, os, runpy, sys
begin, count, tool, *words = sys.argv[1:]
sys.argv = [tool, *words]
sys.path[0] = os.path.dirname(tool)
_testcapi.set_nomemory(int(begin), int(begin) + int(count) if int(count) else 0)
runpy.run_path(tool, run_name="__main__")
"""
PROGRAMS = ("xdp.py", "object.py", "kernel.py", "survey.py")


@dataclass(frozen=True)
class Line:
    """A command line of a tool, and the files that it writes."""

    words: tuple[str, ...]
    outputs: tuple[str, ...] = ()

    def called(self, xdpvm: str) -> list[str]:
        """The words after Python's own."""
        tool, *rest = self.words
        return [os.path.join(TOOLS, tool), *(["--xdpvm", xdpvm] if tool in PROGRAMS else []), *rest]


LINES = (
    Line(("image.py", "filter.o", "made", "--source", "filter.c"), ("made", "made.maps")),
    Line(("image.py", "--list", "filter.o")),
    Line(("frames.py", "mix.txt", "made"), ("made",)),
    Line(("frames.py", "--reasons", "mix.txt", "-")),
    Line(("table.py", "make", "pass.txt", "made"), ("made",)),
    Line(("table.py", "show", "pass.table")),
    Line(("filter.py", "--classic", "classic", "made"), ("made",)),
    Line(("object.py", "globals.image", "made"), ("made",)),
    Line(("object.py", "--source", "firewall.text", "firewall.image", "made"), ("made",)),
    Line(("object.py", "--tag", "firewall.image")),
    Line(("xdp.py", "firewall.text", "firewall.pcapng", "made.pcapng"), ("made.pcapng",)),
    Line(("xdp.py", "globals.image", "firewall.frames", "made.frames", "--maps-out", "held"), ("made.frames", "held")),
    Line(("xdp.py", "filter.o", "mix.txt", "made.txt", "--trace"), ("made.txt",)),
    Line(
        ("xdp.py", "allow.text", "allow.pcapng", "made.frames", "--maps", "list", "--maps-out", "held", "--hits", "made.html"),
        ("made.frames", "held", "made.html"),
    ),
    Line(("xdp.py", "firewall.text", "firewall.frames", "made.pcap", "--hits", "made.info"), ("made.pcap", "made.info")),
    Line(("survey.py", "filter.o", "firewall.text", "--format", "csv", "--compare", "old.csv")),
    Line(("kernel.py", "firewall.image", "firewall.frames")),
)


def make_files(xdpvm: str) -> None:
    """What the tools are given."""
    prepare()
    os.mkdir("tmp")
    for name in (
        "firewall.text",
        "firewall.image",
        "firewall.pcapng",
        "firewall.frames",
        "allow.text",
        "allow.pcapng",
        "pass.table",
    ):
        shutil.copy(f"{TOP}/examples/{name}", name)
    shutil.copy(f"{TOP}/examples/filters/mix.txt", "mix.txt")
    shutil.copy(f"{TOP}/tests/objects/made/globals.clang14.o", "filter.o")
    shutil.copy(f"{TOP}/tests/objects/globals.c", "filter.c")
    write("classic", CLASSIC)
    write("list", "# counts\nmap 0 c0000201 0100000000000000\n")
    write("old.csv", "file,verdict,bound\nfirewall.text,ok,9\n")
    subprocess.run([sys.executable, f"{TOOLS}/image.py", "filter.o", "globals.image"], check=True)
    with open("pass.txt", "wb") as file:
        subprocess.run([sys.executable, f"{TOOLS}/table.py", "show", "pass.table"], stdout=file, check=True)
    subprocess.run([xdpvm, "verify", "globals.image"], stdout=subprocess.DEVNULL, check=True)


class Folder:
    """The names in the working folder and its folder for temporary files."""

    def __init__(self) -> None:
        self.names = self.now()

    @staticmethod
    def now() -> set[str]:
        return {*os.listdir("."), *(f"tmp/{name}" for name in os.listdir("tmp"))}

    def left(self, line: Line) -> set[str]:
        """Removes what a run has left beside its outputs, and says what it was."""
        found = self.now() - self.names - {*line.outputs, MARK, STORED}
        for name in found:
            if os.path.isdir(name):
                shutil.rmtree(name)
            else:
                os.remove(name)
        return found


def is_page(kind: str, found: bytes | None) -> bool:
    """Whether it is a page of counts, or a file of lcov, of a source that could not be read: with the lines that became code."""
    return kind in ("open", "read", "close") and found is not None and found.endswith((b"</html>\n", b"end_of_record\n"))


def judged(kind: str, found: Answer, whole: Answer, left: set[str]) -> str | None:
    """What a run under a failure did, if that is allowed."""
    is_memory = kind.startswith("memory")
    # the folder of temporary files is opened, and closed, where it is removed
    is_theirs = kind in ("open", "close") and all(it.startswith("tmp/") for it in left)
    pages = [is_page(kind, it) and it != right for it, right in zip(found.files, whole.files)]
    if any(it not in (None, right) and not page for it, right, page in zip(found.files, whole.files, pages)):
        return None
    if not is_memory and (left and not is_theirs or b"Traceback" in found.err or found.status < 0):
        return None
    beside = ", a file left beside" if left else ""
    if found.status == whole.status and any(pages) and found.out == whole.out:
        return "the lines that became code"
    if found.status == whole.status:
        if not found.has_outputs_of(whole):
            return None
        return f"{'unchanged' if found.err == whole.err else 'unchanged, something else said'}{beside}"
    if not found.err and kind not in ("write", "no-write") and not is_memory:
        return None
    kept = "old outputs stand" if not any(it is not None for it in found.files) else "an output is whole, or all are"
    return f"an error, {kept}{beside}"


def spread(tried: Tried, words: Sequence[str], whole: Answer, count: int) -> Iterator[tuple[str, int, Answer]]:
    """Runs with allocations refused, evenly spread: each by itself, and with all after it."""

    def answer(begin: int, many: int) -> Answer:
        return tried.answer(["-c", REFUSING, str(begin), str(many), *words])

    most = 1 << 12
    while not answer(most, 0).has_outputs_of(whole):
        most *= 2
    for at in range(count):
        for many in (1, 0):
            begin = most * at // count
            yield "memory" if many else "memory from there on", begin, answer(begin, many)


def try_line(line: Line, xdpvm: str, memory: int, told: Told) -> None:
    """Makes each call of a command line fail in turn."""
    room = os.getcwd()
    names = {"PATH": os.environ["PATH"], "TMPDIR": f"{room}/tmp", "PYTHONDONTWRITEBYTECODE": "1"}
    names.update({it.upper(): os.path.abspath(common.built(it)) for it in ("xdpvm_filter", "xdpvm_survey")})
    breaking = {"WITHIN": room, "ONLY": os.path.basename(sys.executable)}
    before = {"made.maps": f"{BESIDE}of another image\n".encode()}
    tried = Tried(sys.executable, line.outputs, environment={**names, **breaking}, before=before)
    words, folder = line.called(xdpvm), Folder()
    whole = tried.answer(words)
    folder.left(line)
    if whole.status not in (0, 2) or any(it is None for it in whole.files):
        sys.exit(f"break_tools.py: {' '.join(words)}: {whole}")
    for kind in KINDS:
        for call, found in tried.failures(words, kind):
            told.count(line.words, kind, call, found, judged(kind, found, whole, folder.left(line)))
    for kind, call, found in spread(tried, words, whole, memory) if memory else ():
        told.count(line.words, kind, call, found, judged(kind, found, whole, folder.left(line)))


def main() -> int:
    parser = common.command_line()
    parser.add_argument("program", nargs="?", type=common.runnable, default=common.built())
    parser.add_argument("--memory", type=int, default=0)
    parser.add_argument("--tool", action="append")
    given = parser.parse_args()
    told = Told()
    with tempfile.TemporaryDirectory() as folder:
        os.chdir(folder)
        make_files(given.program)
        for line in LINES:
            if not given.tool or line.words[0] in given.tool:
                try_line(line, given.program, given.memory, told)
        os.chdir("/")
    told.tell()
    print(f"{told.counts.total()} tried, {told.wrong()} wrong")
    return 1 if told.wrong() or not told.counts.total() else 0


if __name__ == "__main__":
    sys.exit(main())
