#!/usr/bin/env python3
"""Runs the cases of tests/ on the programs, and compares outputs, files and statuses.

usage: python3 tests/cases.py [--xdpvm PROGRAM] [--survey PROGRAM] [--filter PROGRAM] [FILE.case ..]

The programs are those that `rt run` leaves in crates/, if no others are named; without FILE all files in tests/commands and
tests/programs are taken. tests/README.md says what a file has. What differs is printed with its file and line. The last line is
'N cases, M differ', and the status is 0 if none does.
"""
import os
import re
import shlex
import subprocess
import sys
import tempfile
from collections.abc import Iterator
from concurrent.futures import ThreadPoolExecutor
from dataclasses import dataclass
from itertools import takewhile
from pathlib import Path
from typing import IO

sys.path.insert(0, os.path.join(os.path.dirname(os.path.abspath(__file__)), "../checks"))
from common import PYTHON, TOP, built, command_line, need, there
from failures import said

Names = dict[str, int]  # the numbers that `each` gives a case
STREAMED = ("image", "frames", "out")
COMMANDS = {
    "asm": ("text", "image"),
    "dis": ("image",),
    "verify": ("image",),
    "run": STREAMED,
    "trace": STREAMED,
    "prove": ("image", "table"),
    "recheck": ("image", "table"),
}
PROGRAM = ("text", "source", "image")
WRITTEN = {"bytes": "image", "sent": "out", "proof": "table"}
CALLS = ("$", "sh")
ON_ONE_LINE = (*CALLS, "1>", "2>")
ANSWER = ("1>", "2>", "status")
REFUSED, FAULT = 2, 3
READER, UNREAD = os.pipe()
os.close(READER)


class WrongCase(Exception):
    """What a file of cases may not have."""


@dataclass(frozen=True)
class Line:
    """A line of a case: where it stands, its first word and the rest, with the lines that go on with it."""

    where: str
    word: str
    rest: str = ""


@dataclass(frozen=True)
class Case:
    """The lines of a case, and the numbers in its expressions."""

    names: Names
    lines: list[Line]


# ---- what is in a file


def unescaped(text: str) -> bytes:
    return text.encode().decode("unicode_escape").encode("latin-1")


def bytes_of(value: str) -> bytes:
    """The bytes that parts stand for."""
    made, words = bytearray(), iter(re.findall(r"(?:\d+\*)?'[^']*'|\S+", value))
    for word in words:
        if word == "cut":
            del made[int(next(words)) :]
        elif word == "at":
            place, piece = int(next(words)), bytes_of(next(words))
            made[place : place + len(piece)] = piece
        else:
            times, what = there(re.fullmatch(r"(?:(\d+)\*)?(.*)", word)).groups()
            made += (unescaped(what[1:-1]) if what[0] == "'" else bytes.fromhex(what)) * int(times or 1)
    return bytes(made)


def filled(value: str, names: Names) -> str:
    """The rest of a line, with its lines repeated as they say, and expressions replaced where there is a number for them."""
    lines = []
    for line in value.split("\n"):
        times, what = there(re.fullmatch(r"(?:(\d+) x )?(.*)", line)).groups()
        for i in range(int(times or 1)):
            known = {"__builtins__": {}, **names, "i": i}
            has = "{" in what and (names or times)
            lines.append(eval("f" + repr(what), known) if has else what)  # pylint: disable=eval-used
    return "\n".join(lines)


def lines_of(path: Path) -> list[Line]:
    """The lines of a file, each with those that go on with it."""
    found: list[tuple[int, str, list[str]]] = []
    for number, line in enumerate(path.read_text(encoding="utf-8").split("\n"), 1):
        if line.startswith("    "):
            found[-1][2].append(line[4:])
        elif line and line[0] != "#":
            word, _, rest = line.partition(" ")
            found.append((number, word, [rest] if rest else []))
    parts = [(number, word, (" " if word in ON_ONE_LINE else "\n").join(lines)) for number, word, lines in found]
    return [Line(f"{os.path.relpath(path)}:{number}", word, rest) for number, word, rest in parts]


def each_of(rest: str) -> list[Names]:
    """The numbers that a line `each` gives."""
    name, *spans = rest.split()
    ends = [[int(end, 0) for end in span.split("..")] for span in spans]
    return [{name: n} for span in ends for n in range(span[0], span[-1] + 1)]


class Reader:
    """The cases of a file, one after the other."""

    def __init__(self, lines: list[Line]) -> None:
        self.starts = ("==",) if any(it.word == "==" for it in lines) else PROGRAM
        self.first: list[Line] = []  # those before the first case, with which each begins
        self.lets: dict[str, str] = {}
        self.each: list[Names] = [{}]
        self.found: list[tuple[list[Names], list[Line]]] = []
        for line in lines:
            self.take(line)

    def let(self, line: Line, name: str) -> str:
        if name not in self.lets:
            raise WrongCase(f"{line.where}: no line `let` says what ${name} is")
        return self.lets[name]

    def take(self, line: Line) -> None:
        """Takes the next line."""
        line = Line(line.where, line.word, re.sub(r"\$(\w+)", lambda it: self.let(line, it[1]), line.rest))
        if line.word == "let":
            name, what = there(re.fullmatch(r"(\w+)\s?(.*)", line.rest, re.S)).groups()
            self.lets[name] = what
        elif line.word == "each":
            self.each = [{**one, **more} for one in self.each for more in each_of(line.rest)]
            if self.found and self.starts == ("==",):
                self.found[-1], self.each = (self.each, self.found[-1][1]), [{}]
        elif line.word in self.starts:
            self.found.append((self.each, [*self.first, *self.begun(line)]))
            self.each = [{}]
        else:
            (self.found[-1][1] if self.found else self.first).append(line)

    def begun(self, line: Line) -> Iterator[Line]:
        """The first lines of a case, where the line that it begins with has some."""
        if line.word == "text":
            parts = (self.lets.get("front"), line.rest, self.lets.get("back"))
            line = Line(line.where, line.word, "\n".join(filter(None, parts)))
        if line.word != "==":
            yield line
            yield from (Line(line.where, it, self.lets[it]) for it in ("frames", "limit") if it in self.lets)


def cases_of(path: Path) -> list[Case]:
    return [Case(names, lines) for each, lines in Reader(lines_of(path)).found for names in each]


# ---- a case that is tried


def pattern_of(line: bytes) -> bytes:
    """What fits a line that is wanted: `...` is any lines, and `...PIECE` a line that has the piece."""
    if line == b"...\n":
        return b"(?:.*\n)*"
    return b".*" + re.escape(line[3:-1]) + b".*\n" if line.startswith(b"...") else re.escape(line)


def fits(wanted: bytes, found: bytes) -> bool:
    """Whether an output is what is wanted."""
    return wanted == found or re.fullmatch(b"".join(map(pattern_of, wanted.splitlines(keepends=True))), found) is not None


def text_of(answer: list[Line], word: str) -> bytes:
    return "".join(f"{line.rest}\n" for line in answer if line.word == word).encode()


def last_of(answer: list[Line]) -> bytes:
    """The last line of standard error after a refusal, which names the code that an output says."""
    codes = [line.rest.split()[1] for line in answer if line.word in ("1>", "2>") and line.rest.startswith("refused ")]
    return "".join(f"xdpvm explain {code} says more\n" for code in codes).encode()


class Trial:
    """A case in a folder, and what differs in it."""

    def __init__(self, programs: dict[str, str], folder: Path, case: Case) -> None:
        self.programs, self.folder = programs, folder
        self.lines = [Line(it.where, it.word, filled(it.rest, case.names)) for it in case.lines]
        self.names = case.names
        self.room: int | None = None
        self.limit: list[str] = []
        self.said = ""
        self.wrong: list[str] = []

    def differences(self) -> list[str]:
        """Tries one line after the other."""
        left = self.lines
        while left:
            calls = list(takewhile(lambda line: line.word in CALLS, left))
            answer = list(takewhile(lambda line: line.word in ANSWER, left[len(calls) :]))
            if calls:
                self.compare_calls(calls, answer)
            elif left[0].word in COMMANDS or left[0].word in ("report", "says", "same", *WRITTEN):
                self.compare_short(left[0])
            else:
                self.prepare(left[0])
            left = left[len(calls) + len(answer) or 1 :]
        return self.wrong

    def content(self, name: str) -> bytes | None:
        """The bytes of a file, if it is there."""
        path = self.folder / name
        return path.read_bytes() if path.exists() else None

    def compare(self, line: Line, wanted: object, found: object) -> None:
        """Notes a line by which something else is wanted."""
        if wanted != found:
            named = ", ".join(f"{name} {number}" for name, number in self.names.items())
            self.wrong.append(f"{line.where}: {line.word}{named and f', {named}'}\n  wanted {wanted}\n  found  {found}")

    def program(self, name: str) -> list[str]:
        """How a program is called: one of xdpvm's, or a script of tools/."""
        if name.endswith(".py"):
            return [PYTHON, os.path.join(TOP, "tools", name)]
        if name not in self.programs:
            raise WrongCase(f"there is no program {name}: {', '.join(self.programs)} are, and the scripts of tools/")
        return [self.programs[name]]

    def environment(self, name: str) -> dict[str, str] | None:
        """A script finds no other programs than those that the case makes, and xdpvm's own."""
        named = {"XDPVM": self.programs["xdpvm"], "XDPVM_FILTER": self.programs["xdpvm_filter"]}
        return {**named, "PATH": str(self.folder)} if name.endswith(".py") else None

    def run(self, command: str) -> tuple[bytes, bytes, int]:
        """What a command writes to standard output and standard error, and its status."""
        text, sign, name = there(re.fullmatch(r"(.*?)(?: ([|>]) (\S+))?", command, re.S)).groups()
        called, *words = [os.fsdecode(unescaped(word)) for word in shlex.split(text)]
        limits = [] if self.room is None else ["prlimit", f"--fsize={self.room}"]
        with open(self.folder / name, "wb") if sign == ">" else tempfile.TemporaryFile() as file:
            output: int | IO[bytes] = UNREAD if sign == "|" else file
            if sign is None and self.room is None:
                output = subprocess.PIPE
            ran = subprocess.run(
                [*limits, *self.program(called), *words],
                cwd=self.folder,
                env=self.environment(called),
                stdin=subprocess.DEVNULL,
                stdout=output,
                stderr=subprocess.PIPE,
                timeout=300,
                check=False,
                restore_signals=self.room is None,  # a file that takes no more is told to the program, and does not end it
            )
            file.seek(0)
            return ran.stdout or (b"" if sign else file.read()), ran.stderr, ran.returncode

    def compare_calls(self, calls: list[Line], answer: list[Line]) -> None:
        """Compares what each of some commands does with the one answer that stands below them."""
        status = next((int(line.rest) for line in answer if line.word == "status"), 0)
        out, err = text_of(answer, "1>")[: self.room], text_of(answer, "2>")
        err += last_of(answer) if status == REFUSED else b""
        for line in calls:
            if line.word == "sh":
                self.compare(line, out, self.printed(line.rest))
                continue
            found = self.run(line.rest)
            if not (fits(out, found[0]) and fits(err, found[1]) and status == found[2]):
                self.compare(Line(line.where, line.rest), (out, err, status), found)

    def printed(self, command: str) -> bytes:
        """The standard output of a command line for bash."""
        words = ["bash", "-c", command]
        return subprocess.run(words, cwd=self.folder, stdout=subprocess.PIPE, stderr=subprocess.DEVNULL, check=False).stdout

    def compare_short(self, line: Line) -> None:
        """Compares what a command does on the files that have its words, or what it wrote before."""
        if line.word == "report":
            self.answer(Line(line.where, "run", line.rest))
            out = self.content("out")
            self.answer(Line(line.where, "trace", line.rest))
            self.compare(line, out, self.content("out"))
        elif line.word == "says":
            wanted = "".join(f"...\n{it}\n" for it in line.rest.split("\n")) + "...\n"
            self.compare(line, line.rest, line.rest if fits(wanted.encode(), f"{self.said}\n".encode()) else self.said)
        elif line.word == "same":
            found = [self.content(name) for name in line.rest.split()]
            if None in found or len(set(found)) > 1:
                self.compare(line, line.rest, found)
        elif line.word in WRITTEN:
            self.compare(line, bytes_of(line.rest), self.content(WRITTEN[line.word]))
        else:
            self.answer(line)

    def answer(self, line: Line) -> None:
        """Compares the standard output of a command and its status, and keeps its standard error."""
        wanted = (self.folder / "text").read_text(encoding="utf-8") if line.rest == "=" else line.rest
        words = [self.programs["xdpvm"], line.word, *COMMANDS[line.word], *(self.limit if line.word == "trace" else [])]
        ran = subprocess.run(words, cwd=self.folder, capture_output=True, timeout=300, check=False)
        last = wanted.split("\n")[-1].split(" ")[0]
        status, out = {"refused": REFUSED, "fault": FAULT}.get(last, 0), (wanted + "\n" if wanted else "").encode()
        self.compare(line, (status, ran.stdout if wanted == "*" else out), (ran.returncode, ran.stdout))
        self.said = ran.stderr.decode().rstrip("\n")

    def prepare(self, line: Line) -> None:
        """Makes or changes a file."""
        word, rest = line.word, line.rest
        if word in ("folder", "file", "script", "program", "set", "cut"):
            name, *parts = rest.split(None, 1)
            self.prepare_named(word, self.folder / os.fsdecode(unescaped(name)), "".join(parts))
        elif word == "room":
            self.room = int(rest)
        elif word == "limit":
            self.limit = ["--limit", rest]
        elif word in ("image", "frames", "table"):
            (self.folder / word).write_bytes(bytes_of(rest))
        elif word in ("text", "source"):
            (self.folder / "text").write_bytes(rest.encode() if word == "text" else bytes_of(rest))
            if not any(it.word == "asm" for it in self.lines):
                self.answer(Line(line.where, "asm", "*"))
        else:
            raise WrongCase(f"{line.where}: no line of a case begins with {word}")

    def prepare_named(self, word: str, path: Path, rest: str) -> None:
        if word == "folder":
            path.mkdir()
        elif word == "file":
            path.write_bytes(bytes_of(rest))
        elif word == "script":
            path.write_text(f"#!/bin/sh\n{rest}\n", encoding="utf-8")
            path.chmod(0o755)
        elif word == "program":
            Path(f"{path}.text").write_text(rest, encoding="utf-8")
            subprocess.run([self.programs["xdpvm"], "asm", f"{path}.text", path], stdout=subprocess.DEVNULL, check=True)
        elif word == "set":
            place, parts = rest.split(None, 1)
            with open(path, "r+b") as file:
                os.pwrite(file.fileno(), bytes_of(parts), int(place))
        else:
            os.truncate(path, int(rest))


def tried(programs: dict[str, str], cases: list[Case]) -> list[list[str]]:
    """What differs in each case, which has a fresh folder. One command removes all folders: that takes a third of what Python takes
    for each."""
    room = tempfile.mkdtemp()

    def one(at: int) -> list[str]:
        folder = Path(room, str(at))
        folder.mkdir()
        return Trial(programs, folder, cases[at]).differences()

    try:
        with ThreadPoolExecutor() as pool:
            return list(pool.map(one, range(len(cases))))
    finally:
        subprocess.run(["rm", "-rf", room], check=False)


def main() -> None:
    parser = command_line()
    parser.add_argument("--xdpvm", default=built(), metavar="PROGRAM")
    for name in ("survey", "filter"):
        parser.add_argument(f"--{name}", default=built(f"xdpvm_{name}"), metavar="PROGRAM")
    parser.add_argument("files", nargs="*", type=Path, metavar="FILE.case")
    given = parser.parse_args()
    named = {"xdpvm": given.xdpvm, "xdpvm_survey": given.survey, "xdpvm_filter": given.filter}
    programs = {name: os.path.abspath(path) for name, path in named.items()}
    need(programs["xdpvm"], *([] if given.files else programs.values()))
    files = given.files or [path for it in ("commands", "programs") for path in sorted(Path(TOP, "tests", it).glob("*.case"))]
    try:
        cases = [case for path in files for case in cases_of(path)]
        results = tried(programs, cases)
    except WrongCase as why:
        sys.exit(f"cases.py: {why}")
    except OSError as why:
        sys.exit(f"cases.py: {said(why)}")
    wrong = [result for result in results if result]
    print(*[line for result in wrong for line in result], f"{len(cases)} cases, {len(wrong)} differ", sep="\n")
    sys.exit(1 if wrong or not cases else 0)


if __name__ == "__main__":
    main()
