#!/usr/bin/env python3
"""Looks for a program that `verify` accepts and should not: makes random programs over all forms of instruction, with
maps, helpers and functions, and runs those that are accepted on random frames.

usage: python3 attacks/fuzz.py [PROGRAM] [--programs N] [--seed S] [--jobs J] [--keep FOLDER] [--ways] [--seconds N]
       [--filter XDPVM_FILTER] [--library FILE [--explored N]]

Programs and frame streams are of both versions. It reports each accepted program that `trace` ends
with a trap or after more steps than the bound, that `run` and `trace` run differently, whose frames
out have other reasons than the report says, or that names no action though it is of version 2;
each refusal whose way (the jumps on standard error) is not one of the program; and each command
that takes more than a minute. The program and its frames are kept in FOLDER. Most programs are
right by construction except for one or two changes, such as a limit that is off by one, so that
about half are accepted. The last line counts. The exit status is 1 if anything was reported.

With --library no process is started for a program: the library, a shared one or the archive
libxdpvm_c.a, does in this process what it can, and PROGRAM and XDPVM_FILTER do the rest in one
process of a job (served.py). It explores at most N instructions of a program (1,000,000): one for
which that is not enough is counted as undecided. A job that dies is reported with the folder of its
last input. With --filter each accepted program with maps also runs on maps with random contents, by
XDPVM_FILTER with checks, and by it or the library without: both have to write the same, and no run
traps.
"""
import argparse
import os
import random
import re
import shutil
import struct
import subprocess
import sys
import zlib
from collections import Counter
from collections.abc import Callable, Iterable, Iterator

import in_process
import common
from common import bytes_of, record, write
from in_process import Ran, Run, loadable
from jobs import in_jobs
from kernel_calls import parsed
from random_contents import ANY, contents, some_bytes
from random_programs import Maker
from served import Served, server

Tried = Callable[[Run, int, str], tuple[str | None, str]]  # what is wrong with the results for a seed, and the verdict's code
SECONDS = 60
FILTER: list[str] = []  # the program that fills maps, where one is given
REASONS = [0, 0, 0, 0, 1, 7, 2**31, 2**32 - 1]


def frames(chance: random.Random, version: int) -> bytes:
    """Frames of many lengths, whose bytes are extreme, small or any; some have a reason, and are skipped."""
    out = b"XPF%d" % version
    for _ in range(6):
        length = chance.choice(
            [0, 1, 2, 7, 8, 13, 14, 15, 19, 20, 33, 34, 60, 64, 255, 256, 300, 4096] + [4097, 9215, 9216] * (version - 1)
        )
        of = chance.choice((b"\0", b"\xff", b"\0\1\x7f\x80\xff", ANY))
        some = [0, 1, 2, 7, 8, 15, 2**31 - 1, 2**31, 2**32 - 1]
        interface, queue = (chance.choice([*some, chance.randrange(2**32)]) for _ in range(2))
        head, reason = (chance.randrange(2**64), interface, queue), chance.choice(REASONS)
        out += record(version, head, reason, some_bytes(chance, of, length))
    return out


def reasons_of(stream: bytes) -> Iterator[int]:
    """The reason of each record of a stream of version 2."""
    at = 4
    while at < len(stream):
        length, reason = struct.unpack_from("<II", stream, at + 16)
        yield reason
        at += 24 + length


def misreported(image: bytes, rows: list[list[str]], sent: bytes) -> str | None:
    """What is wrong with the reasons and actions of a report and its frames out: None, or a text."""
    exits = [row for row in rows if row[0].isdigit() and row[1] not in ("TRAP", "LIMIT", "SKIP")]
    if image[:4] == b"XBP2" and any(row[1] == "INVALID" for row in exits):
        return "a program of version 2 answers no action"
    if sent[:4] == b"XPF1":
        return None if all(len(row) == 4 for row in exits) else "a stream of version 1 has reasons"
    for _, action, _, _, reason in exits:
        if (reason == "0") != (action in ("PASS", "TX")) or image[:4] == b"XBP1" and reason not in ("0", "1"):
            return f"{action} for the reason {reason}"
    told = [row[4] for row in rows if row[0].isdigit() and row[1] not in ("TRAP", "LIMIT")]
    return None if told == [str(reason) for reason in reasons_of(sent)] else "the frames out have other reasons than the report"


def leaves(opcode: int, _: int, source: int, offset: int, imm: int) -> bool:
    """Whether an instruction never goes on at the slot after it. A jump over nothing does."""
    if opcode == 0x05:
        return offset != 0
    return opcode == 0x95 or (opcode == 0x06 or opcode == 0x85 and source == 1) and imm != 0


def goes(code: list[list[int]], way: list[tuple[int, int]], slot: int) -> bool:
    """Whether the jumps of a refusal lead through the program to the slot: each is one of the program's, and between
    them the way goes from slot to slot."""
    at, whole = 0, len(way) < 8
    returns = [i + 1 for i, row in enumerate(code) if row[0] == 0x85 and row[2] == 1]
    for begin, to in [*way, (slot, None)]:
        if whole:
            if begin < at or any(leaves(*code[i]) for i in range(at, begin)):
                return False
        if to is None:
            return True
        opcode, _, source, offset, imm = code[begin]
        if opcode == 0x95:
            right = to in returns
        elif opcode in (0x85, 0x06):
            right = to == begin + 1 + imm and (opcode == 0x06 or source == 1)
        else:
            right = opcode & 7 in (5, 6) and to == begin + 1 + offset
        if not right:
            return False
        at, whole = to, True
    return True


def misled(code: list[list[int]], verdict: Ran, ways: bool) -> str | None:
    """What is wrong with a refusal's way: None, or a text."""
    if verdict.stdout[:9] != b"refused V" or verdict.stdout[9:11] == b"0 ":
        return None
    known = verdict.stderr.decode()
    way = re.search("^way: (.*)$", known, re.M)
    if not way and not ways:
        return None
    ends = re.findall(r"(\d+) -> (\d+)(?:, (\d+) times)?", way[1]) if way else []
    jumps = [(int(begin), int(to)) for begin, to, times in ends for _ in range(int(times or 1))]
    return None if goes(code, jumps, int(verdict.stdout.split()[3])) else f"no way to the refusal: {known}"


def unbounded(rows: list[list[str]], bound: int) -> str | None:
    """A line of a report for a run that traps or passes the bound: None, or a text."""
    for row in rows:
        if row[0].isdigit() and (row[1] in ("TRAP", "LIMIT") or int(row[3]) > bound):
            return f"accepted with bound {bound}: {' '.join(row)}"
    return None


def differs_filled(paths: list[str], image: bytes, bound: int, run: Run) -> str | None:
    """What is wrong with the runs of an accepted program on maps with random contents: None, or a text."""
    folder = os.path.dirname(paths[0])
    maps, reports = os.path.join(folder, "begin.maps"), [os.path.join(folder, f"sent.{at}") for at in (0, 1)]
    write(maps, contents(random.Random(zlib.crc32(image)), parsed(image)[0]))
    found = []
    for which, sent, report in zip(("checked", "filled"), paths[2:], reports):
        ran = run(which, paths[0], paths[1], sent, maps, report)
        if ran.returncode != 0:
            return f"{which}: {ran}"
        rows = [line.split() for line in bytes_of(report).decode().splitlines()]
        if wrong := unbounded(rows, bound) or misreported(image, rows, bytes_of(sent)):
            return f"on maps that are filled, {which}: {wrong}"
        found.append((rows, bytes_of(sent)))
    return None if found[0] == found[1] else f"on maps that are filled, with checks {found[0]}, and without {found[1]}"


def differs(paths: list[str], bound: int, run: Run) -> str | None:
    """What is wrong with the runs of an accepted program: None, or a text. A program with maps also runs on starting maps
    by the library, if it answers. A program whose trace is wrong is not run: that might not end, or end this process."""
    image = bytes_of(paths[0])
    has_maps = image[4:6] != b"\0\0"
    if FILTER and has_maps and (wrong := differs_filled(paths, image, bound, run)):
        return wrong
    if isinstance(run, in_process.Runner) and has_maps:
        if wrong := in_process.differs_alone(run.library, image, bytes_of(paths[1]), bound):
            return wrong
    traced = run("trace", paths[0], paths[1], paths[2])
    rows = [line.split() for line in traced.stdout.decode().splitlines()]
    if wrong := unbounded(rows, bound):
        return wrong
    ran = run("run", paths[0], paths[1], paths[3])
    sent = [bytes_of(path) for path in paths[2:]]
    if (traced.returncode, traced.stdout, sent[0]) != (ran.returncode, ran.stdout, sent[1]) or traced.returncode != 0:
        return f"run and trace differ: {ran.stdout!r} {traced.stdout!r}"
    return misreported(image, rows, sent[0])


def built(path: str) -> str:
    """The program at a path, for a command line."""
    if not os.access(path, os.X_OK):
        raise argparse.ArgumentTypeError(f"there is no program {path}: give one, or build it as README.md says")
    return os.path.abspath(path)


def wait(seconds: int) -> None:
    """How long a command may take from now on."""
    global SECONDS  # pylint: disable=global-statement
    SECONDS = seconds


def command(program: str, words: tuple[str, ...]) -> list[str]:
    """The command line for these words: of the program, or of the one that fills maps."""
    if words[0] not in ("filled", "checked"):
        return [program, *words]
    _, image, frames_in, sent, maps, report = words
    checked = ["--checked"] * (words[0] == "checked")
    return [*FILTER, image, frames_in, sent, "--maps", maps, "--report", report, *checked]


def runner(program: str, library: str | None = None, explored: int = in_process.MOST) -> Run:
    """Runs the program with these words, for a minute at most; with a library, what it can in this process, and the rest
    in one process that it starts."""

    def process(*words: str) -> Ran:
        called = command(program, words)
        return subprocess.run(called, timeout=SECONDS, stdin=subprocess.DEVNULL, capture_output=True, check=False)

    if library:
        served = Served()
        return in_process.Runner(library, lambda *words: served.ran(command(program, words), SECONDS), explored)
    return process


def tried(run: Run, seed: int, folder: str, ways: bool) -> tuple[str | None, str]:
    """What is wrong with the results for one seed (None: nothing), and the verdict's code."""
    maker = Maker(seed)
    paths = [os.path.join(folder, name) for name in ("image", "frames", "sent", "resent")]
    image = maker.program()
    versions = [maker.random.choice([1, 2]) for _ in range(2)]
    write(paths[0], b"XBP%d" % versions[0] + image[4:])
    verdict = run("verify", paths[0])
    said = verdict.stdout.decode().split()
    if (verdict.returncode, said[:1]) == (2, ["refused"]):
        return misled(maker.code, verdict, ways), said[1]
    if verdict.returncode == in_process.UNDECIDED:
        return None, "undecided"
    if (verdict.returncode, said[:2]) != (0, ["ok", "bound"]):
        return f"verify: {verdict}", "no verdict"
    write(paths[1], frames(maker.random, versions[1]))
    return differs(paths, int(said[2]), run), "accepted"


def worker(asked: argparse.Namespace, name: str, seeds: Iterable[int], one: Tried, folder: str) -> tuple[Counter[str], int]:
    """The verdicts on these seeds, and how many were found; `one` answers for a seed in a folder."""
    counts: Counter[str] = Counter()
    found, run = 0, runner(asked.program, asked.library, asked.explored)
    for seed in seeds:
        try:
            wrong, code = one(run, seed, folder)
        except subprocess.TimeoutExpired as late:
            wrong, code = f"no answer in {late.timeout} seconds: {late.cmd[1]}", "no answer"
        except (MemoryError, ValueError) as error:  # of a library
            wrong, code = str(error), "no answer"
        counts[code] += 1
        if wrong:
            found += 1
            os.makedirs(asked.keep, exist_ok=True)
            for kept in os.listdir(folder):
                if "sent" not in kept:
                    shutil.copy(os.path.join(folder, kept), os.path.join(asked.keep, f"{name}-{seed}.{kept}"))
            print(f"{name} {seed}: {wrong}", flush=True)
    return counts, found


def spread(asked: argparse.Namespace, name: str, one: Tried) -> tuple[Counter[str], int]:
    """The verdicts on all seeds that are asked for, and how many were found, in processes of their own."""

    def work(job: int, folder: str) -> tuple[Counter[str], int]:
        return worker(asked, name, range(asked.seed + job, asked.seed + asked.programs, asked.jobs), one, folder)

    counts: Counter[str] = Counter()
    found = 0
    for told, folder in in_jobs(asked.jobs, work):
        if told is None:
            found += 1
            print(f"{name}: a job died, its last input is in {folder}", flush=True)
            continue
        counts.update(told[0])
        found += told[1]
    return counts, found


def words_of(parser: argparse.ArgumentParser) -> None:
    """The arguments that fuzz.py and attacks.py share."""
    parser.add_argument("program", nargs="?", type=built, default=common.built())
    parser.add_argument("--seed", type=int, default=1)
    parser.add_argument("--jobs", type=int, default=os.cpu_count())
    parser.add_argument("--keep", default="found", help="folder for what is found")
    parser.add_argument("--seconds", type=int, default=SECONDS, help="what a command may take; more on a busy machine")
    parser.add_argument("--library", type=loadable, help="a shared library, or an archive, that answers in this process")
    parser.add_argument("--explored", type=int, default=in_process.MOST, help="instructions that the library explores at most")
    parser.add_argument("--filter", type=built, help="xdpvm_filter: programs with maps run on random contents, too")


def begin(asked: argparse.Namespace) -> None:
    """How long a command may take, what fills maps, and what all jobs share."""
    wait(asked.seconds)
    if asked.library:
        server()
    FILTER[:] = [asked.filter] if asked.filter else []


def main() -> None:
    words = common.command_line()
    words_of(words)
    words.add_argument("--programs", type=int, default=20_000)
    words.add_argument("--ways", action="store_true", help="each refusal must say its way")
    asked = words.parse_args()
    begin(asked)
    counts, found = spread(asked, "seed", lambda run, seed, folder: tried(run, seed, folder, asked.ways))
    print(", ".join(f"{code} {count}" for code, count in counts.most_common()))
    print(f"{asked.programs} programs, {counts['accepted']} accepted, {found} findings")
    sys.exit(1 if found else 0)


if __name__ == "__main__":
    main()
