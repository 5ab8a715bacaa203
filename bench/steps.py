#!/usr/bin/env python3
"""Measures xdpvm: steps a second of `trace` and `run`, explored instructions a second and peak memory of `verify`,
and, for scale, a plain interpreter in C (bench/switch.c, gcc -O2) on the same programs.

usage: python3 bench/steps.py [PROGRAM ..]

PROGRAM is the program that `rt run` leaves in crates/xdpvm (the default: crates/xdpvm/out/xdpvm); several can be
compared. All seconds are processor seconds of one process, and each figure is the least of TIMES runs (the default is
5), which take turns: a program on its frames, on none, and the next program. The start is
subtracted only if each run on the frames took longer than each run on none; else there is no
figure. Files are made in a folder of its own, which is removed at the end.
"""
import os
import subprocess
import sys
import tempfile
from collections.abc import Sequence

sys.path.insert(0, os.path.join(os.path.dirname(os.path.abspath(__file__)), "../checks"))
from common import TOP, branches, built, bytes_of, counted_loop, measured, need, peak, record, stack_loop, straight, text_of, write

PROGRAMS = [os.path.abspath(path) for path in sys.argv[1:]] or [built()]
TIMES = int(os.environ.get("TIMES", "5"))


def functions() -> str:
    """200 calls of a function of 20 slots, each with the same arguments: by the program, and by six functions that call
    one another, so that 8 call frames are live in the last ones. 20 instructions of each are
    explored, 18 on the longer side of its test."""
    lines = ["r6 = *(u32 *)(r1 + 12)"]
    for depth in range(7):
        if depth > 0:
            lines += [f"f{depth}: r6 = r1"]
        lines += ["r1 = r6", "r2 = 7", "call leaf"] * (32 if depth == 0 else 28)
        if depth < 6:
            lines += ["r1 = r6", f"call f{depth + 1}"]
        lines += ["exit"]
    lines += ["leaf: r0 = r1", "r0 *= 31", "r0 ^= r2", "*(u64 *)(r10 - 8) = r0", "r3 = r0", "r3 >>= 16", "r0 ^= r3"]
    lines += ["if r1 > 7 goto other", "r1 = 0", "r0 ^= 5", "goto both", "other: r1 = 0", "r0 ^= 9"]
    lines += ["both: r0 &= 255", "r4 = *(u64 *)(r10 - 8)", "r4 >>= 3", "r0 ^= r4", "r0 += r2", "r0 &= 3", "exit"]
    return "\n".join(lines) + "\n"


def stored(name: str) -> str:
    return text_of(f"{TOP}/bench/{name}.text")


def sinking() -> str:
    """A loop whose end the verifier cannot see, through states that differ only in a number's
    signed limits."""
    return "r8 = 0\nloop: r5 = *(u32 *)(r1 + 12)\nr8 -= r5\nr8 += 1\nif r8 != 8 goto loop\nr0 = 1\nexit\n"


def frames(count: int, size: int) -> bytes:
    return b"XPF1" + record(1, (0, 1, 0), 0, bytes(range(size))) * count


def frames_with_reasons(count: int, size: int) -> bytes:
    """The same frames in a stream of version 2. No frame has a reason yet, so all are run."""
    return b"XPF2" + record(2, (0, 1, 0), 0, bytes(range(size))) * count


def ended(words: Sequence[str]) -> tuple[int, str, float]:
    """Runs a command: its status, its output's last line, and its processor seconds."""
    ran = measured(words)
    return ran.status, ran.out.strip().splitlines()[-1], ran.seconds


def in_turn(commands: list[tuple[list[str], int, str]]) -> list[list[float]]:
    """The seconds of each run of each command, in turn. A command is its words, and the status and the last line with
    which it must end."""
    taken: list[list[float]] = [[] for _ in commands]
    for _ in range(TIMES):
        for (words, status, last), seconds in zip(commands, taken):
            run = ended(words)
            if run[:2] != (status, last):
                sys.exit(f"{' '.join(words)}: status {run[0]}, {run[1]!r}, in place of {status}, {last!r}")
            seconds.append(run[2])
    return taken


def without_start(starts: list[float], wholes: list[float]) -> float | None:
    """What the frames took, or nothing if it is less than two starts differ."""
    return min(wholes) - min(starts) if min(wholes) > max(starts) else None


def name_of(program: str) -> str:
    """The name of a program, if there are others."""
    return os.path.basename(program) if len(PROGRAMS) > 1 else ""


def assembled(name: str, text: str) -> str:
    ran = measured([PROGRAMS[0], "asm", write(name + ".text", text), name + ".image"])
    if ran.status != 0:
        sys.exit(f"{name}: {ran.out.strip()}")
    return name + ".image"


def plain_c(image: str, stream: str) -> tuple[int, float]:
    """The steps and the seconds of the interpreter in C."""
    words = ["./switch", image, stream, "1"]
    rows = [subprocess.run(words, stdout=subprocess.PIPE, text=True, check=True).stdout.split() for _ in range(TIMES)]
    return int(rows[0][0]), min(float(row[1]) for row in rows)


def rates(
    name: str, command: str, program: str, steps: int | None, count: int, seconds: float | None, c_seconds: float | None
) -> None:
    """A line: the seconds, the steps and the frames a second, if the frames took long enough to
    measure."""
    each = ["too short", "-", "-", "-"]
    if seconds is not None:
        each = [f"{seconds:.3f}", f"{steps / seconds:.3g}" if steps else "-", f"{count / seconds:.3g}"]
        each += [f"{seconds / c_seconds:.1f}" if c_seconds else "-"]
    print(f"{name:<50}{command:<7}{each[0]:>9}{each[1]:>11}{each[2]:>11}{each[3]:>9} {name_of(program)}", flush=True)


def compared(name: str, image: str, stream: str, count: int, steps: int | None, c_seconds: float | None) -> None:
    """`trace` and `run` of each program that reads such streams, without its start."""
    empty = write("none.frames", frames(0, 0))
    able = [program for program in PROGRAMS if ended([program, "run", image, stream, "sent"])[1] != "fault F1 at 0"]
    ways = [(command, program) for command in ["trace", "run"] for program in able]
    commands = []
    for command, program in ways:
        commands.append(([program, command, image, empty, "sent"], 0, "end 0"))
        commands.append(([program, command, image, stream, "sent"], 0, f"end {count}"))
    taken = in_turn(commands)
    for place, (command, program) in enumerate(ways):
        seconds = without_start(taken[2 * place], taken[2 * place + 1])
        rates(name, command, program, steps, count, seconds, c_seconds)


def execution() -> None:
    """Steps and frames a second. The interpreter in C reads no frames and writes no report, so it is compared only where
    the steps outweigh those."""
    print(f"{'program and frames':<50}{'by':<7}{'seconds':>9}{'steps/s':>11}{'frames/s':>11}{'times C':>9}")
    rows = [
        ("loop of 499,998 turns, 400 frames", counted_loop(499_998), 999_999, 400, frames, True),
        ("straight code of 3,000 slots, 40,000 frames", straight(3_000), 3_000, 40_000, frames, True),
        ("two instructions, 1,000,000 frames, XPF1", "r0 = 2\nexit\n", 2, 1_000_000, frames, False),
        ("two instructions, 1,000,000 frames, XPF2", "r0 = 2\nexit\n", 2, 1_000_000, frames_with_reasons, False),
    ]
    for name, text, steps, count, make, by_c in rows:
        image, stream = assembled("p", text), write("f.frames", make(count, 60))
        c_seconds = None
        if by_c:
            c_steps, c_seconds = plain_c(image, stream)
            if c_steps != steps * count:
                sys.exit(f"{name}: {c_steps} steps in C, in place of {steps * count}")
        compared(name, image, stream, count, steps * count, c_seconds)
        if by_c:
            rates(name, "C", "", steps * count, count, c_seconds, c_seconds)


def counting() -> None:
    """Filters of examples/ with maps, on the frames beside them ten thousand times: frames a second."""
    print()
    for name in ["traffic", "limit", "protocols"]:
        path = os.path.join(TOP, "examples", name)
        stream, count = bytes_of(path + ".frames"), 10_000 * int(text_of(path + ".report").split()[-1])
        frames_in = write("f.frames", stream[:4] + stream[4:] * 10_000)
        compared(f"examples/{name}, {count:,} frames", path + ".image", frames_in, count, None, None)


def verification() -> None:
    """Prints the rows of `verify`."""
    print()
    print(f"{'program':<46}{'answer':<24}{'seconds':>9}{'explored':>10}{'explored/s':>12}{'MB':>6}")
    rows = [
        ("straight code of 3,000 slots", straight(3_000), "ok bound 3000", 3_000),
        ("loop of 300,000 turns", counted_loop(300_000), "ok bound 600003", 600_003),
        ("17 branches on unknown bits in a row", branches(17), "ok bound 38", 4 * 2**17),
        ("20 branches on unknown bits in a row", branches(20), None, 1_000_000),
        ("loop without an end, signed limits that sink", sinking(), None, 1_000_000),
        ("loop of 100,000 turns, counted on the stack", stack_loop(100_000), "ok bound 400003", 400_003),
        ("loop of 50,000 turns, six values on the stack", stored("spills"), "ok bound 350018", 350_019),
        ("200 calls of a function of 20 slots", functions(), "ok bound 4226", 200 * 23 + 26),
    ]
    for name, text, answer, explored in rows:
        image = assembled("p", text)
        if answer is None:
            _, answer, _ = ended([PROGRAMS[0], "verify", image])
            if not answer.startswith("refused V19 "):
                sys.exit(f"{name}: {answer}")
        status = 0 if answer.startswith("ok") else 2
        taken = in_turn([([program, "verify", image], status, answer) for program in PROGRAMS])
        for program, runs in zip(PROGRAMS, taken):
            seconds, memory = min(runs), peak([program, "verify", image])
            told = f"{seconds:>9.3f}{explored:>10}{explored / seconds:>12.3g}{memory:>6.0f}"
            print(f"{name:<46}{answer:<24}{told} {name_of(program)}", flush=True)


def parsers() -> None:
    """Programs that read packets; how many instructions are explored is not printed by the program."""
    print()
    for name in ["parser", "headers", "options"]:
        image = assembled(name, stored(name))
        _, answer, _ = ended([PROGRAMS[0], "verify", image])
        taken = in_turn([([program, "verify", image], 0, answer) for program in PROGRAMS])
        for program, runs in zip(PROGRAMS, taken):
            memory = peak([program, "verify", image])
            told = f"{min(runs):>9.4f}{'':>22}{memory:>6.0f}"
            print(f"{name + '.text':<46}{answer:<24}{told} {name_of(program)}", flush=True)


def main() -> None:
    need(*PROGRAMS)
    with tempfile.TemporaryDirectory() as folder:
        os.chdir(folder)
        subprocess.run(["gcc", "-O2", "-o", "switch", f"{TOP}/bench/switch.c"], check=True)
        print(f"{os.cpu_count()} cores; processor seconds, the least of {TIMES} runs; `trace` and `run` without their start")
        execution()
        counting()
        verification()
        parsers()
        os.chdir("/")


main()
