#!/usr/bin/env python3
"""Inputs without an end, or of terabytes, are refused at their first bytes.

usage: python3 attacks/endless.py [PROGRAM [SURVEY [FILTER]]]

Proof tables, program texts and earlier surveys that are devices without an end, or files of terabytes on no disk, or a right one
with such bytes behind it: each has to be refused as the bytes at its beginning are, within a second of the processor and 5 MB, of
which 2 are the program's. So is a text of 10 MB, from a file, a pipe and standard input: its beginning decides it, or bytes that
change nothing are not kept. A longer one would show no more: what is kept of 10 MB is below 3 MB, and to read that again for each
part of 64 KiB that comes would take longer than it may. A word, a number or a comment is kept as a whole: one of 48 MB may take 5
MB more than its size, and 1.5 seconds; to copy it for each part would take more. 10 MB of brackets in place of an image, a table,
frames, an earlier survey or a text of maps are refused at once. A comparison with an earlier survey of 9 MB may take three times
as much. PROGRAM, SURVEY and FILTER are the programs that `rt run` leaves in crates/xdpvm, crates/xdpvm_survey and
crates/xdpvm_filter (the default: those in out/ there). The exit status is 0 if it is so, and 1 if not.
"""
import os
import subprocess
import sys
import tempfile
import threading
from collections.abc import Iterator
from typing import BinaryIO, NamedTuple

sys.path.insert(0, os.path.join(os.path.dirname(os.path.abspath(__file__)), "../checks"))
from common import TOP, Ended, bytes_of, measured, need, program

PROGRAM, SURVEY, FILTER = program(), program("xdpvm_survey", 2), program("xdpvm_filter", 3)
IMAGE = os.path.join(TOP, "examples/filter.image")
FRAMES = os.path.join(TOP, "examples/numbers.frames")
Given = int | BinaryIO  # what a command has as standard input
TERABYTES = 1 << 42
# At most so many KiB of memory, and seconds of the processor. A command that takes far longer is ended.
MEMORY = 5 * 1024
SECONDS = 1
LONGEST = 60
# The bytes of a long text, and its seconds: a third of them on a quiet core, and most where the cores share their caches.
LONG = 10_000_000
BUSY = 0.3
TRIES = 8
# Those of a text that is one word, one number or one comment.
WHOLE = 48_000_000
KEPT = 1.5
# The rows of an earlier survey, and at most so many seconds for a comparison with it.
ROWS = 120_000
COMPARED = 5


def run(words: list[str], given: Given = subprocess.DEVNULL) -> Ended:
    """How a command ended, which is killed if it takes far longer than it may. GNU time tells its memory: what the system tells
    a script counts the script's own too."""
    with tempfile.NamedTemporaryFile() as told:
        ended = measured(["timeout", "-s", "KILL", str(LONGEST), "time", "-o", told.name, "-f", "%M", "--", *words], given)
        kib = told.read().split()
    return ended._replace(kib=int(kib[-1])) if kib else ended


def tell(
    words: list[str], status: int, line: str, most: int = MEMORY, longest: float = SECONDS, given: Given = subprocess.DEVNULL
) -> bool:
    """Whether a command ends with this status, after this line of its output, within the limits."""
    ended = run(words, given)
    said = (ended.out + ended.err).splitlines()
    is_right = ended.status == status and line in said and ended.kib <= most and ended.seconds <= longest
    if not is_right:
        print(f"{' '.join(words[1:])}: status {ended.status}, {said[:9]}, {ended.kib} KiB, {ended.seconds:.2f} s")
    return is_right


def sparse(path: str, beginning: bytes) -> str:
    """A file of terabytes that begins with these bytes and has zeros behind them."""
    with open(path, "wb") as file:
        file.write(beginning)
        file.truncate(TERABYTES)
    return path


def contents(words: list[str], path: str) -> bytes:
    """The bytes that a command writes into a file."""
    subprocess.run([*words, path], check=True, stdout=subprocess.DEVNULL)
    return bytes_of(path)


def tables(folder: str) -> Iterator[tuple[str, str]]:
    """Proof tables, and the line that each is refused with."""
    right = contents([PROGRAM, "prove", IMAGE], os.path.join(folder, "table"))
    yield "/dev/zero", "refused P1"
    yield "/dev/urandom", "refused P1"
    yield sparse(os.path.join(folder, "zeros"), b""), "refused P1"
    yield sparse(os.path.join(folder, "count"), b"XPT1"), "refused P4"
    yield sparse(os.path.join(folder, "entries"), b"XPT1" + (1_000_000).to_bytes(4, "little")), "refused P5 entry 0"
    yield sparse(os.path.join(folder, "right"), right), "refused P3"


def tell_tables(folder: str) -> Iterator[bool]:
    sent = os.path.join(folder, "sent")
    for path, line in tables(folder):
        yield tell([PROGRAM, "recheck", IMAGE, path], 2, line)
        yield tell([PROGRAM, "run", IMAGE, FRAMES, sent, "--table", path], 2, line)


def texts(folder: str) -> Iterator[tuple[str, str]]:
    """Program texts, and the line that each is refused with."""
    yield "/dev/zero", "refused A1 line 1 column 1"
    yield sparse(os.path.join(folder, "no text"), b""), "refused A1 line 1 column 1"
    yield sparse(os.path.join(folder, "program"), b"r0 = 2\nexit\n"), "refused A1 line 3 column 1"
    yield sparse(os.path.join(folder, "comment"), b"# a comment\n\n"), "refused A1 line 3 column 1"
    yield sparse(os.path.join(folder, "no form"), b"r0 = 2\nr1 2\n"), "refused A2 line 2 column 1"
    yield sparse(os.path.join(folder, "twice"), b"a: r0 = 2\na: exit\n"), "refused A4 line 2 column 1"
    yield sparse(os.path.join(folder, "number"), b"r0 = 2\nr1 = 0"), "refused A1 line 2 column 7"
    yield sparse(os.path.join(folder, "slots"), b"exit\n" * 4097), "refused A9 line 4097 column 1"


def tell_texts(folder: str) -> Iterator[bool]:
    """Whether texts are refused that have no end."""
    image = os.path.join(folder, "image")
    for path, line in texts(folder):
        yield tell([PROGRAM, "asm", path, image], 2, line)
    ended = run([PROGRAM, "asm", "/dev/urandom", image])
    is_right = ended.status == 2 and ended.out.startswith("refused A") and ended.kib <= MEMORY and ended.seconds <= SECONDS
    if not is_right:
        print(f"asm /dev/urandom: status {ended.status}, {ended.out}{ended.err}, {ended.kib} KiB, {ended.seconds:.2f} s")
    yield is_right


class Long(NamedTuple):
    """A long text: what it repeats, the line that `asm` prints, what is before and behind it, and whether it is one word, one
    number or one comment."""

    unit: bytes
    line: str
    before: bytes = b""
    behind: bytes = b""
    is_one: bool = False

    def size(self) -> int:
        return WHOLE if self.is_one else LONG

    def parts(self) -> Iterator[bytes]:
        part = self.unit * (1_000_000 // len(self.unit))
        yield self.before
        for _ in range(self.size() // len(part)):
            yield part
        yield self.behind


def long_texts() -> Iterator[Long]:
    yield Long(b"r0 = 1 ; ", "refused A9 line 1 column 36865")
    for unit in b" ", b"\n", b"# a comment\n", b" \t\n;":
        yield Long(unit, "refused A9 line 1 column 1")
    for unit in b" ", b"# a comment\n":
        yield Long(unit, "ok maps 0 slots 2", behind=b"r0 = 2\nexit\n")
    yield Long(b"\n", "ok maps 0 slots 2", b"r0 = 2\nexit\n")
    for unit in b"(", b"- ", b"-", b"a ", b"the next word ", b"( \t":
        yield Long(unit, "refused A2 line 1 column 1")
    for before in b"r0 ", b"a: ", b"map hash ":
        yield Long(b"(", "refused A2 line 1 column 1", before)
    yield Long(b"(", "refused A2 line 3 column 1", b"r0 = 2\nexit\n")
    yield Long(b" ", f"refused A5 line 1 column {LONG + 5}", b"goto", b"nowhere\n")
    yield Long(b"\n", f"refused A2 line {LONG + 1} column 1", behind=b"mov")
    for unit in b"(", b" ":
        yield Long(unit, f"refused A1 line 1 column {LONG + 6}", b"r0 = ", b"@\n")
    yield Long(b"#", "refused A9 line 1 column 1", is_one=True)
    yield Long(b"a", "refused A2 line 1 column 1", is_one=True)
    yield Long(b"7", "refused A2 line 1 column 1", is_one=True)


def send(to: int, text: Long) -> None:
    """Sends a long text, or as much of it as is read."""
    try:
        with os.fdopen(to, "wb", buffering=0) as file:
            for part in text.parts():
                file.write(part)
    except BrokenPipeError:
        pass


def tell_long(text: Long, image: str) -> bool:
    """Whether a long text is read within the limits, from a pipe."""
    limits = (WHOLE // 1024 + MEMORY, KEPT) if text.is_one else (MEMORY, BUSY)
    status = 2 if text.line.startswith("refused") else 0
    read, write = os.pipe()
    sender = threading.Thread(target=send, args=(write, text))
    sender.start()
    with os.fdopen(read, "rb") as given:
        is_right = tell([PROGRAM, "asm", "/dev/stdin", image], status, text.line, *limits, given)
    sender.join()
    return is_right


def tell_long_texts(folder: str) -> Iterator[bool]:
    """Whether long texts are read within the limits, from a pipe and a file; each may be tried again."""
    image = os.path.join(folder, "image")
    path = os.path.join(folder, "long")
    for text in long_texts():
        yield any(tell_long(text, image) for _ in range(TRIES))
    with open(path, "wb") as file:
        file.writelines(Long(b"(", "").parts())
    yield any(tell([PROGRAM, "asm", path, image], 2, "refused A2 line 1 column 1", MEMORY, BUSY) for _ in range(TRIES))
    yield from tell_elsewhere(folder, path)


def tell_elsewhere(folder: str, path: str) -> Iterator[bool]:
    """Whether this text is refused at once in each place where it is none."""
    sent = os.path.join(folder, "sent")
    maps = os.path.join(TOP, "examples/allow.image")
    for words, status, line in (
        ([PROGRAM, "verify", path], 2, "refused I1"),
        ([PROGRAM, "dis", path], 2, "refused I1"),
        ([PROGRAM, "recheck", IMAGE, path], 2, "refused P1"),
        ([PROGRAM, "run", IMAGE, FRAMES, sent, "--table", path], 2, "refused P1"),
        ([PROGRAM, "run", IMAGE, path, sent], 3, "fault F1 at 0"),
        ([PROGRAM, "trace", IMAGE, path, sent], 3, "fault F1 at 0"),
        ([SURVEY, "--compare", path, IMAGE], 4, f"cannot compare with {path}: it is no survey as csv"),
        ([FILTER, path, FRAMES, sent], 2, "refused I1"),
        ([FILTER, IMAGE, path, sent], 3, "fault F1 at 0"),
        ([FILTER, maps, FRAMES, sent, "--maps", path], 2, "refused M6 line 1 column 32"),
    ):
        yield tell(words, status, line)


def tell_comparison(folder: str) -> Iterator[bool]:
    """Whether a comparison keeps little of an earlier survey whose images are gone."""
    path = os.path.join(folder, "gone")
    with open(path, "w", encoding="utf-8") as file:
        file.write("file,verdict,slot,slots,maps,bound,explored,stored,deepest,stored_bytes,milliseconds\n")
        file.writelines(
            f"compiled/payload_{number:07}.image,ok,,49,0,1546,13357,3473,1258,1390896,12.345\n" for number in range(ROWS)
        )
    size = os.path.getsize(path) // 1024
    last = f"compiled/payload_{ROWS - 1:07}.image,verdict,ok,,"
    yield tell([SURVEY, "--format", "csv", "--compare", path, IMAGE], 0, last, 3 * size, COMPARED)


def tell_surveys(folder: str) -> Iterator[bool]:
    """Whether earlier surveys are refused that have no end."""
    survey = subprocess.run([SURVEY, "--format", "csv", IMAGE], check=True, capture_output=True).stdout
    paths = [
        "/dev/zero",
        "/dev/urandom",
        sparse(os.path.join(folder, "no survey"), b""),
        sparse(os.path.join(folder, "survey"), survey),
        sparse(os.path.join(folder, "row"), survey + b"name,"),
    ]
    for path in paths:
        yield tell([SURVEY, "--compare", path, IMAGE], 4, f"cannot compare with {path}: it is no survey as csv")


def main() -> int:
    need(PROGRAM, SURVEY, FILTER)
    with tempfile.TemporaryDirectory() as folder:
        told = [
            *tell_tables(folder),
            *tell_texts(folder),
            *tell_long_texts(folder),
            *tell_surveys(folder),
            *tell_comparison(folder),
        ]
    return 0 if all(told) else 1


if __name__ == "__main__":
    sys.exit(main())
