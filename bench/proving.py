#!/usr/bin/env python3
"""Measures proof tables: `recheck` beside `verify` in turn, and how long `prove` takes.

usage: python3 bench/proving.py [PROGRAM [LIBRARY]]

PROGRAM is the program that `rt run` leaves in crates/xdpvm (the default: crates/xdpvm/out/xdpvm), and LIBRARY the
archive that `rt lib` leaves in crates/xdpvm_c (the default: crates/xdpvm_c/out/libxdpvm_c.a). An entry is an
instruction that `verify` explores. All seconds are processor seconds, and each figure is the least of TIMES runs (the
default is 5), which take turns. Those of the commands are of one process, start and the reading of files included;
*a call* is of the library, with the table in memory (bench/rechecks.c), in milliseconds; short ones have more runs.
Without LIBRARY, a C compiler or rt it is left out. Files are made in a folder of its own, which is removed at the end.
"""
import os
import shutil
import subprocess
import sys
import tempfile

sys.path.insert(0, os.path.join(os.path.dirname(os.path.abspath(__file__)), "../checks"))
import common
from common import TOP, branches, bytes_of, counted_loop, peak, stack_loop, straight, write

PROGRAM = common.program()
LIBRARY = os.path.abspath(sys.argv[2] if len(sys.argv) > 2 else f"{TOP}/crates/xdpvm_c/out/libxdpvm_c.a")
COMPILER = shutil.which(os.environ.get("CC", "cc"))
TIMES = int(os.environ.get("TIMES", "5"))


def text_of(name: str) -> str:
    return common.text_of(f"{TOP}/bench/{name}.text")


def call_loop(turns: int) -> str:
    return (
        f"r6 = 0\nr7 = 5\nloop: r1 = r6\ncall f\nr6 += 1\nif r6 < {turns} goto loop\nr0 = 2\nexit\n" "f: r0 = r1\nr0 += r1\nexit\n"
    )


def nested_calls(turns: int) -> str:
    """Each of six functions calls the next; the seventh calls one in a loop."""
    lines = []
    for number in range(6):
        lines.append(f"f{number}: r6 = {number + 1}\nr7 = {number + 2}\ncall f{number + 1}\nr0 = 2\nexit")
    lines.append(f"f6: r6 = 0\nr7 = 9\nloop: call g\nr6 += 1\nif r6 < {turns} goto loop\nr0 = 2\nexit")
    return "\n".join(lines + ["g: r0 = 0\nexit"]) + "\n"


def seven_frames(first: list[str], body: str, turns: int, start: str = "r6 = r1", given: str = "r6") -> str:
    """Each of seven functions calls the next, which gets a pointer; the last one has a loop."""
    lines = [*first, start]
    for number in range(6):
        lines.append(f"r7 = 7\nr9 = 9\nr1 = r6\ncall f{number}\nr0 = 2\nexit\nf{number}: r6 = r1")
    loop = f"r8 = 0\nloop: r8 += 1\n{body}\nif r8 < {turns} goto loop\nout: r0 = 2\nexit"
    return "\n".join([*lines, f"r7 = 7\nr9 = 9\nr1 = {given}\ncall g\nr0 = 2\nexit\ng: r6 = r1", loop]) + "\n"


ARRAY, HASH = "map array 4 8 1", "map hash 4 8 1"
KEY = "*(u32 *)(r10 - 4) = 0\nr2 = r10\nr2 += -4\nr1 = map_by_idx(0)\n"
LOOK_UP = KEY + "call 1\nif r0 == 0 goto out"
ADD = "r1 = map_val(map_by_idx(0)) + 0\nr2 = 1\nlock *(u64 *)(r1 + 0) += r2"
TEST = "r2 = *(u32 *)(r6 + 0)\nr3 = *(u32 *)(r6 + 4)\nr4 = r2\nr4 += 4\nif r4 > r3 goto out"
STORE = "r2 = 1\n*(u64 *)(r6 - 8) = r2"


ROWS = [
    ("straight code of 3,000 slots", straight(3_000)),
    ("loop of 50,000 turns", counted_loop(50_000)),
    ("loop of 300,000 turns", counted_loop(300_000)),
    ("loop of 100,000 turns, counted on the stack", stack_loop(100_000)),
    ("loop of 50,000 turns, six values on the stack", text_of("spills")),
    ("15 branches on unknown bits in a row", branches(15)),
    ("17 branches on unknown bits in a row", branches(17)),
    ("a call in each turn, 50,000 turns", call_loop(50_000)),
    ("calls from the seventh frame, 15,500 turns", nested_calls(15_500)),
    ("a look-up and a null test in the eighth frame", seven_frames([HASH], LOOK_UP, 10_000)),
    ("a delete in the eighth frame", seven_frames([HASH], KEY + "call 3", 10_000)),
    ("the clock asked in the eighth frame", seven_frames([], "call 5", 20_000)),
    ("atomic adds to a map value in the eighth frame", seven_frames([ARRAY], ADD, 15_000)),
    ("packet tests in the eighth frame", seven_frames([], TEST, 10_000)),
    ("stores into the seventh frame from the eighth", seven_frames([], STORE, 20_000, given="r10")),
    ("stores into the first frame from the eighth", seven_frames([], STORE, 20_000, "r6 = r10")),
    ("bench/parser.text", text_of("parser")),
    ("bench/headers.text", text_of("headers")),
    ("bench/options.text", text_of("options")),
]


def measured(words: list[str]) -> tuple[str, float]:
    """Runs a command that is to succeed: its standard output, and its processor seconds."""
    ran = common.measured(words)
    if ran.status:
        sys.exit(f"{' '.join(words)}: status {ran.status}, {ran.out!r}\n{ran.err}")
    return ran.out, ran.seconds


def build_calls() -> str | None:
    """Builds bench/rechecks.c in the current folder, if there is a library and a compiler; the command, or None."""
    rt = shutil.which("rt")
    if not rt or not COMPILER or not os.path.isfile(LIBRARY):
        return None
    heap = os.path.join(os.path.dirname(os.path.dirname(os.path.realpath(rt))), "c", "liblibc_c.a")
    subprocess.run([COMPILER, "-std=gnu11", "-O2", "-o", "rechecks", f"{TOP}/bench/rechecks.c", LIBRARY, heap], check=True)
    return os.path.abspath("rechecks")


def main() -> None:
    common.need(PROGRAM)
    with tempfile.TemporaryDirectory() as folder:
        os.chdir(folder)
        calls = build_calls()
        head = f"{'program':<46}{'entries':>9}{'MB':>7}{'an entry':>9}"
        head += "".join(f"{name:>9}{'MB':>5}" for name in ("verify", "prove", "recheck")) + f"{'ratio':>7}"
        print(head + (f"{'a call':>10}{'recheck':>9}{'ratio':>7}" if calls else ""))
        for name, text in ROWS:
            measured([PROGRAM, "asm", write("p.text", text), "p.image"])
            measured([PROGRAM, "prove", "p.image", "p.table"])
            data = bytes_of("p.table")
            size, entries = len(data), int.from_bytes(data[4:8], "little")
            commands = [
                [PROGRAM, *words.split()] for words in ("verify p.image", "prove p.image q.table", "recheck p.image p.table")
            ]
            taken = [[measured(words) for words in commands] for _ in range(TIMES)]
            if len({said for runs in taken for said, _ in runs}) > 1:
                sys.exit(f"{name}: other bounds")
            least = [min(runs[place][1] for runs in taken) for place in range(3)]
            line = f"{name:<46}{entries:>9}{size / 1e6:>7.{1 if size > 100_000 else 2}f}{size / entries:>9.0f}"
            line += "".join(f"{seconds:>9.3f}{peak(words):>5.0f}" for seconds, words in zip(least, commands))
            line += f"{least[2] / least[0]:>7.2f}"
            if calls:
                runs = max(TIMES, 1_000_000 // entries)
                verify, recheck = map(float, measured([calls, str(runs), "p.image", "p.table"])[0].split())
                line += f"{1e3 * verify:>10.2f}{1e3 * recheck:>9.2f}{recheck / verify:>7.2f}"
            print(line, flush=True)
        os.chdir("/")


main()
