#!/usr/bin/env python3
"""Tries to break the program from outside: makes each allocation, each opening, each read and each write fail in turn, and each
read and write move only one byte in turn, for every command on the examples.

usage: python3 attacks/break.py [--few] [PROGRAM [FOLDER]]

ASSURANCE.md says which answers are allowed; the last line says how many were tried, in some minutes. PROGRAM is xdpvm (the default:
crates/xdpvm/out/xdpvm). With FOLDER it takes what is there: NAME.image, with NAME.frames and NAME.table if there are some, and
NAME.text. With --few it takes three programs and some proof tables, and each allocation, opening, read and write in turn; that
takes seconds, and the gate does it. It needs a C compiler (CC).
"""

from __future__ import annotations

import itertools
import os
import select
import struct
import subprocess
import sys
import tempfile
from collections.abc import Iterator
from pathlib import Path

sys.path.insert(0, os.path.join(os.path.dirname(os.path.abspath(__file__)), "../checks"))
import common
from common import PYTHON, TOP, bytes_of, there, write
from failing import Answer, Forked, Told, Tried, prepare

KINDS = ("alloc", "allocs", "open", "read", "write", "no-write", "short-read", "short-write", "close", "rename", "flush", "empty")
FEW_KINDS = ("alloc", "open", "read", "write", "empty")


def image(name: str) -> str:
    return f"examples/{name}.image"


def frames(name: str) -> str:
    return f"examples/{name}.frames"


def by_table(name: str) -> list[list[str]]:
    """The commands on a program and its proof table, and a run by that."""
    return [
        ["prove", image(name), "made"],
        ["recheck", image(name), f"{name}.table"],
        ["run", image(name), frames(name), "made", "--table", f"{name}.table"],
    ]


RUNS = [
    ["trace", image("pass"), frames("two"), "made"],
    ["trace", image("guarded"), frames("cut"), "made"],
    ["trace", image("counter"), frames("numbers"), "made"],
    ["trace", image("unguarded"), frames("two"), "made", "--limit", "100"],
    ["trace", image("damaged"), frames("two"), "made"],
    ["run", image("pass"), frames("two"), "made"],
    ["run", image("pass"), frames("cut"), "made"],
    ["run", image("endless"), frames("two"), "made"],
    ["trace", image("limit"), frames("limit"), "made"],
    ["run", image("allow"), frames("allow"), "made"],
    ["run", image("checksum"), frames("checksum"), "made"],
    ["run", image("reasons"), frames("reasons"), "made"],
    ["trace", image("reasons"), frames("reasons"), "made"],
    ["run", "invalid.image", frames("two"), "made"],
    ["verify", image("pass")],
    ["verify", image("guarded")],
    ["verify", image("endless")],
    ["verify", image("damaged")],
    ["dis", image("guarded")],
    ["dis", image("counter")],
    ["dis", image("allow")],
    ["asm", "right.text", "made"],
    ["asm", "wrong.text", "made"],
    ["verify", "again.image"],
    ["verify", "falls.image"],
    ["verify", "lost"],
    ["walk"],
    ["explain", "V9"],
    ["--help"],
    ["--version"],
    *by_table("allow"),
    *by_table("reasons"),
    ["prove", image("pass"), "made"],
    ["prove", image("endless"), "made"],
    ["prove", image("damaged"), "made"],
    ["recheck", image("pass"), "step.table"],
    ["recheck", image("pass"), "successor.table"],
    ["recheck", image("pass"), "field.table"],
    ["recheck", image("endless"), "pass.table"],
    ["recheck", image("pass"), "lost"],
    ["run", image("pass"), frames("two"), "made", "--table", "successor.table"],
    ["run", image("pass"), frames("cut"), "made", "--table", "pass.table"],
]

# by both machines: packets that are read after a test, calls of functions, a map that grows
FEW_RUNS = [[by, image(name), frames(name), "made"] for name in ("echo", "checksum", "allow") for by in ("run", "trace")]
FEW_RUNS += by_table("echo") + [["recheck", image("pass"), f"{name}.table"] for name in ("step", "successor")]
FEW_RUNS += [["run", "invalid.image", frames("two"), "made"]]

# tables of `pass` that are refused: r0 is unset at the exit, or another number; the first number is 0
ENTRIES = "entry {} slot 0 to 1\nr1 context\nentry 1 slot 1\nr1 context\nr0 {}\n"
REFUSED = {"step": (2, "unset"), "successor": (2, "number 3"), "field": (0, "number 2")}


def runs_of(folder: str) -> Iterator[list[str]]:
    """The commands on the images of a folder, and on their frames where there are some of the same name."""
    for name in sorted(os.listdir(folder)):
        stem, kind = os.path.splitext(os.path.join(folder, name))
        if kind == ".image":
            yield ["verify", f"{stem}.image"]
            yield ["prove", f"{stem}.image", "made"]
            if os.path.exists(f"{stem}.table"):
                yield ["recheck", f"{stem}.image", f"{stem}.table"]
            if os.path.exists(f"{stem}.frames"):
                yield ["run", f"{stem}.image", f"{stem}.frames", "made"]
                if os.path.exists(f"{stem}.table"):
                    yield ["run", f"{stem}.image", f"{stem}.frames", "made", "--table", f"{stem}.table"]
                yield ["trace", f"{stem}.image", f"{stem}.frames", "made"]
        elif kind == ".text":
            yield ["asm", f"{stem}.text", "made"]


def records(stream: bytes) -> list[bytes]:
    """The records of a frame stream, as bytes."""
    found, at, head = [], 4, 24 if stream[:4] == b"XPF2" else 20
    while at + head <= len(stream):
        size = head + struct.unpack_from("<I", stream, at + 16)[0]
        found.append(stream[at : at + size])
        at += size
    return found


def map_lines(xdpvm: Tried, words: list[str], count: int) -> list[bytes]:
    """The lines of maps after the first frames."""
    stream = bytes_of(words[2])
    write("first.frames", stream[:4] + b"".join(records(stream)[:count]))
    out = xdpvm.answer([*words[:2], "first.frames", *words[3:]]).out
    return [line for line in out.splitlines() if line.startswith(b"map ")]


def message(answer: Answer) -> bytes:
    """The first line of standard error; what follows it may say the cause."""
    return answer.err.partition(b"\n")[0]


def lacks_reason(found: Answer, good: Answer) -> bool:
    """What is known at the refusal of a text, of control flow, of a program or of an entry of a
    table is left out, and standard error has the sentence, the position, for P7 the sentence of its
    V code, and the last line, which names the code."""
    same, lines = found.has_outputs_of(good), good.err.splitlines(keepends=True)
    kept = lines[:2] + (lines[3:4] if good.out.startswith(b"refused P7") else [])
    known = tuple(b"refused " + code for code in (b"A", b"G", b"V", b"P7", b"P8"))
    return same and good.out.startswith(known) and found.err == b"".join(kept + lines[-1:])


def lacks_stops(words: list[str], found: Answer, good: Answer) -> bool:
    """Where the runs of a trace stopped, or which of a run ended with INVALID, is left out, and
    standard error has why the stream ended early."""
    same, lines = found.has_outputs_of(good), good.err.splitlines(keepends=True)
    stops = [k for k, line in enumerate(lines) if line.startswith(b"frame ")]
    return words[0] in ("run", "trace") and same and bool(stops) and found.err == b"".join(lines[: stops[0]])


def of_memory(_: Tried, words: list[str], found: Answer, good: Answer) -> str | None:
    if found.status == 5 and found.err == b"out of memory\n" and found.is_quiet():
        return "status 5"
    if found.is_as(good):
        return "unchanged"
    known = lacks_reason(found, good) or lacks_stops(words, found, good)
    return "unchanged, what is known left away" if known else None


def of_open(_: Tried, words: list[str], found: Answer, __: Answer) -> str | None:
    named = [f"cannot read {name}" for name in words[1:]] + ["cannot write made"]
    is_named = found.err.decode().splitlines() in [[line, "permission denied"] for line in named]
    return "status 4" if found.status == 4 and is_named and found.is_quiet() else None


def of_read(xdpvm: Tried, words: list[str], found: Answer, good: Answer) -> str | None:
    named = [words[1]] + ([words[-1]] if words[0] == "recheck" or "--table" in words else [])
    if found.status == 4 and message(found) in [f"cannot read {name}".encode() for name in named] and found.is_quiet():
        return "status 4"
    if found.status != 3 or message(found) != b"the stream cannot be read":
        return None
    *lines, last = found.out.splitlines()
    of_frames = [line for line in lines if not line.startswith(b"map ")]
    made = found.files[0] or b""
    # if the magic of the frames was not read, the frames out are XPF1
    begun = (good.files[0] or b"").startswith(made) or (last == b"fault F5 at 0" and made == b"XPF1")
    begun = begun and good.out.splitlines()[: len(of_frames)] == of_frames
    whole = lines[len(of_frames) :] == map_lines(xdpvm, words, len(of_frames))
    return "status 3, F5" if last.startswith(b"fault F5 at ") and begun and whole else None


def of_write(_: Tried, __: list[str], found: Answer, good: Answer) -> str | None:
    if found.tried_again:
        return None
    is_named = message(found) in (b"cannot write standard output", b"cannot write made")
    if found.status == 4 and is_named and found.begins(good):
        return "status 4"
    same = found.has_outputs_of(good)
    return "status unchanged, nothing said" if good.err and same else None


def of_short(_: Tried, __: list[str], found: Answer, good: Answer) -> str | None:
    return "unchanged" if found.is_as(good) else None


ALLOWED = dict(
    zip(KINDS, (of_memory, of_memory, of_open, of_read, of_write, of_write, *[of_short] * 3, of_open, of_write, of_write))
)


def takes_memory_late(xdpvm: Tried, words: list[str], good: Answer) -> bool:
    """Whether `run` or `trace` asks for memory once it has written a byte, or has another result if
    all of it is refused then. What is known of a refused program is looked for after the refusal is
    written, so refusals are left out; and where the runs of a trace stopped, and which of a run
    ended with INVALID, is put into words after them."""
    found = xdpvm.answer(words, "late-allocs", 1)
    return not lacks_stops(words, found, good) and (found.reached or not found.is_as(good))


def comes_at_once(xdpvm: Tried) -> bool:
    """Whether the magic of the frames out and the line of the first frame, in a pipe, come before the second frame."""
    stream = bytes_of(frames("two"))
    front = stream[:4] + records(stream)[0]
    words = [xdpvm.program, "run", image("pass"), "/dev/stdin", "made"]
    with subprocess.Popen(words, stdin=subprocess.PIPE, stdout=subprocess.PIPE, bufsize=0) as running:
        given, said = there(running.stdin), there(running.stdout)
        given.write(front)
        first = b""
        while not first.endswith(b"\n") and select.select([said], [], [], 20)[0]:
            first += os.read(said.fileno(), 4096) or b"\n"
        magic = bytes_of("made")[:4]
        given.write(stream[len(front) :])
        given.close()
        rest = said.read()
    made = bytes_of("made")
    good = xdpvm.answer(words[1:3] + [frames("two"), "made"])
    begun = first == good.out.splitlines(keepends=True)[0] and magic == stream[:4]
    return begun and first + rest == good.out and (made,) == good.files


def make_files(xdpvm: Tried) -> None:
    """Texts, the proof tables of some programs, and tables that are refused."""
    write("right.text", "  r0 = 2 # passes\nagain: r1 = 5; if r1 > 7 goto again\nexit\n")
    write("wrong.text", "exit\ngoto nowhere\n")
    write("again.text", "again: r6 = *(u32 *)(r1 + 12)\nif r6 != 0 goto again\nr0 = 2\nexit\n")
    write("falls.text", "r0 = 2\n")
    write("invalid.text", "r0 = 77\nexit\n")
    for name in ("again", "falls", "invalid"):
        subprocess.run([xdpvm.program, "asm", f"{name}.text", f"{name}.image"], stdout=subprocess.DEVNULL, check=True)
    for name in ("pass", "echo", "allow", "reasons"):
        xdpvm.answer(["prove", image(name), "made"])
        os.rename("made", f"{name}.table")
    for name, fields in REFUSED.items():
        write("table.text", ENTRIES.format(*fields))
        subprocess.run([PYTHON, f"{TOP}/tools/table.py", "make", "table.text", f"{name}.table"], check=True)


def tried(xdpvm: Tried, runs: list[list[str]], kinds: tuple[str, ...]) -> int:
    """Tries each failure of each run, and tells of them. The exit status."""
    told, others = Told(), []
    if not comes_at_once(xdpvm):
        others.append("the first line or the magic did not come before the second frame")
    for words in runs:
        good = xdpvm.answer(words)
        if words[0] in ("run", "trace") and good.status != 2 and takes_memory_late(xdpvm, words, good):
            others.append(f"memory was asked for after the first byte: {words}")
    for words, stored in itertools.product(runs, (False, True)):
        good = xdpvm.answer(words, stored=stored)
        for kind in kinds:
            for call, found in xdpvm.failures(words, kind, stored):
                told.count(words, kind, call, found, ALLOWED[kind](xdpvm, words, found, good))
    told.tell()
    wrong, memory = told.wrong() + len(others), sum(count for (kind, _), count in told.counts.items() if kind.startswith("alloc"))
    print(*(f"WRONG {it}" for it in others), sep="\n", end="\n" if others else "")
    print(f"{told.counts.total()} refusals tried on {2 * len(runs)} runs, {memory} of memory: {wrong} wrong answers")
    return 1 if wrong or not memory else 0


def main() -> int:
    parser = common.command_line()
    parser.add_argument("--few", action="store_true")
    parser.add_argument("program", nargs="?", type=common.runnable, default=common.built())
    parser.add_argument("folder", nargs="?", type=Path)
    given = parser.parse_args()
    runs = list(runs_of(str(given.folder.resolve()))) if given.folder else FEW_RUNS if given.few else RUNS
    with tempfile.TemporaryDirectory() as folder:
        os.chdir(folder)
        prepare()
        with Forked(given.program, ("made",)) as xdpvm:
            make_files(xdpvm)
            status = tried(xdpvm, runs, FEW_KINDS if given.few else KINDS)
        os.chdir("/")
    return status


if __name__ == "__main__":
    sys.exit(main())
