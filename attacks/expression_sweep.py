#!/usr/bin/env python3
"""Compares filters that filter.py makes of expressions with tcpdump: the frames that pass are those that `tcpdump -r`
keeps.

usage: python3 attacks/expression_sweep.py [--program XDPVM] [--seed S] [--count N] [--frames N] [--kinds K]
                                             [--unoptimized] [--only TEXT]
       python3 attacks/expression_sweep.py --random N [--program XDPVM] [--seed S]

The expressions are the 373 of tests/expressions/man.txt and N composed ones (700); the capture has generated frames, K
kinds (60) cut at each length and N others (3000). Each expression that libpcap compiles, but for those that ask for
the direction, has to be assembled and accepted. With --unoptimized libpcap's optimizer is off. With --random N classic
programs, which are not libpcap's, are compared with libpcap's own machine (bpf_filter of libpcap.so).

What differs is printed; the last lines count, and the status is 1 if anything was wrong. It needs tcpdump.
"""
import argparse
import collections
import concurrent.futures
import ctypes
import os
import random
import struct
import subprocess
import sys
import tempfile
from typing import Counter, NamedTuple

sys.path.insert(0, os.path.join(os.path.dirname(os.path.abspath(__file__)), "../checks"))
from common import built, bytes_of, command_line, runnable, write

sys.dont_write_bytecode = True
import expression_corpus
import expression_frames
from classic import DIV, LSH, MOD, NEG, RSH, Failed, classic_program, compiled
from expressions import OPERATORS, Options, translated

SECONDS = 60
NO_END = "tcpdump does not end"
DIRECTION = ("inbound", "outbound")


class Trial(NamedTuple):
    """What became of a classic program: the slots and the bound of its filter, and the frames that it passes, by
    numbers."""

    slots: int
    bound: int
    passed: set[int]


class Wrong(Exception):
    """A filter that is not assembled, not accepted, or that ends in another action."""


def ran(*words: str) -> "subprocess.CompletedProcess[str]":
    return subprocess.run(words, stdin=subprocess.DEVNULL, capture_output=True, text=True, timeout=600, check=False)


def stream_of(found: list[bytes]) -> bytes:
    return b"XPF1" + b"".join(struct.pack("<QIII", 0, 0, 0, len(it)) + it for it in found)


def tried(program: str, classic: str, stream: str) -> Trial:
    """The filter of a classic program, on a stream."""
    text = translated(classic_program(classic), "", Options())
    with tempfile.TemporaryDirectory() as folder:
        write(f"{folder}/text", text)
        made = ran(program, "asm", f"{folder}/text", f"{folder}/image")
        verdict = ran(program, "verify", f"{folder}/image") if made.returncode == 0 else made
        if verdict.returncode:
            raise Wrong(f"{verdict.stdout}{verdict.stderr}{text}")
        lines = ran(program, "run", f"{folder}/image", stream, f"{folder}/sent").stdout.splitlines()
    rows = [line.split() for line in lines[:-1]]
    odd = {row[1] for row in rows} - {"PASS", "DROP"}
    if odd or not lines or not lines[-1].startswith("end "):
        raise Wrong(f"the report has {odd}, and ends in {lines[-1:]}")
    passed = {int(row[0]) for row in rows if row[1] == "PASS"}
    return Trial(int(made.stdout.split()[-1]), int(verdict.stdout.split()[-1]), passed)


def kept(expression: str, capture: str, optimizes: bool = True) -> set[int]:
    """The frames that tcpdump keeps, by their times."""
    with tempfile.TemporaryDirectory() as folder:
        words = ["tcpdump", "-r", capture, *([] if optimizes else ["-O"]), "-w", f"{folder}/out", "--", expression]
        try:
            done = subprocess.run(words, stdin=subprocess.DEVNULL, capture_output=True, text=True, timeout=SECONDS, check=False)
        except subprocess.TimeoutExpired:
            raise Failed(NO_END) from None
        if done.returncode:
            raise Failed(done.stderr.strip().splitlines()[-1].removeprefix("tcpdump: "))
        data = bytes_of(f"{folder}/out")
    order = "<" if data[:4] in (b"\xd4\xc3\xb2\xa1", b"\x4d\x3c\xb2\xa1") else ">"
    at, found = 24, set()
    while at < len(data):
        seconds, _, length = struct.unpack_from(order + "III", data, at)
        found.add(int(seconds))
        at += 16 + int(length)
    return found


class Sweep:
    """The comparison of a corpus, and its counts."""

    def __init__(self, given: argparse.Namespace, capture: str, stream: str, frames: int) -> None:
        self.given, self.capture, self.stream, self.frames = given, capture, stream, frames
        self.counts: Counter[str] = collections.Counter()

    def one(self, said: str) -> tuple[str, str | None]:
        """What is counted of an expression, and what is wrong."""
        optimizes = not self.given.unoptimized
        try:
            classic = compiled(said, optimizes)
        except Failed:
            return "libpcap refuses", None
        try:
            trial = tried(self.given.program, classic, self.stream)
        except Failed as why:
            return "not translated", None if said in DIRECTION else str(why)
        except Wrong as why:
            return "not accepted", str(why)
        try:
            wanted = kept(said, self.capture, optimizes)
        except Failed as why:
            return f"accepted, not compared ({'tcpdump -r refuses' if str(why) != NO_END else why})", None
        differ = sorted(wanted ^ trial.passed)
        self.counts["frames that match"] += len(wanted)
        return "accepted and compared", f"{len(differ)} frames differ: {differ[:5]}" if differ else None

    def all(self) -> int:
        expressions = expression_corpus.expressions(self.given.seed, self.given.count)
        chosen = [it for it in expressions if self.given.only in it]
        wrong = 0
        with concurrent.futures.ThreadPoolExecutor(os.cpu_count()) as pool:
            for said, (kind, why) in zip(chosen, pool.map(self.one, chosen)):
                self.counts[kind] += 1
                if why:
                    wrong += 1
                    print(f"{said}: {why}", flush=True)
        pairs = self.counts["accepted and compared"] * self.frames
        for name, count in sorted(self.counts.items()):
            print(f"{count:9,} {name}")
        print(f"{len(chosen):,} expressions, {pairs:,} pairs of expression and frame, {wrong} wrong")
        return 1 if wrong or not pairs else 0


# ---- random classic programs


class Row(ctypes.Structure):
    """struct bpf_insn of the classic packet filter."""

    _fields_ = [("code", ctypes.c_ushort), ("jt", ctypes.c_ubyte), ("jf", ctypes.c_ubyte), ("k", ctypes.c_uint)]


Codes = list[tuple[int, int, int, int]]
PLACES = [0, 1, 2, 4, 8, 12, 14, 15, 20, 23, 31, 32, 33]


def random_row(chance: random.Random, left: int) -> tuple[int, int, int, int]:
    """An instruction that has so many after it."""
    small = chance.choice([*PLACES, chance.randrange(100), chance.randrange(300)])
    big = [small, chance.randrange(256), chance.getrandbits(16), chance.getrandbits(32)]
    number = chance.choice([*big, 0x80000000, 0xFFFFFFFF, 0x7FFFFFFF])
    kind = chance.randrange(20) if left else 19
    if kind < 4:
        return chance.choice([0x20, 0x28, 0x30]), 0, 0, small
    if kind < 7:
        return chance.choice([0x40, 0x48, 0x50]), 0, 0, small if chance.random() < 0.95 else number
    if kind == 7:
        loads = [(0x00, number), (0x80, 0), (0xB1, small), (0x01, small), (0x81, 0)]
        code, k = chance.choice(loads)
        return code, 0, 0, k
    if kind < 10:
        return chance.choice([0x60, 0x61] if kind == 8 else [2, 3]), 0, 0, chance.randrange(4)
    if kind < 14:
        operation = chance.choice([*OPERATORS, NEG])
        k = chance.randrange(32) if operation in (LSH, RSH) else number or 1 if operation in (DIV, MOD) else number
        by_x = operation != NEG and chance.random() < 0.4
        return 4 | operation | (8 if by_x else 0), 0, 0, 0 if by_x else k
    if kind < 16:
        return chance.choice([7, 7, 0x87]), 0, 0, 0
    if kind < 19:
        code = 5 | chance.choice([0x10, 0x20, 0x30, 0x40]) | chance.choice([0, 0, 0, 8])
        return code, chance.randrange(min(left, 8)), chance.randrange(min(left, 8)), number
    return chance.choice([(6, 0, 0, 0), (6, 0, 0, 65535), (6, 0, 0, 1), (0x16, 0, 0, 0)])


def random_program(chance: random.Random) -> Codes:
    """A program; libpcap's M is not set at the start, so it begins with that."""
    count = chance.randrange(3, 40)
    rows = [random_row(chance, count - at - 1) for at in range(count)]
    rows[-1] = chance.choice([(6, 0, 0, 65535), (0x16, 0, 0, 0), (6, 0, 0, 0)])
    return [(2, 0, 0, cell) for cell in range(4)] + rows


def randoms(given: argparse.Namespace) -> int:
    """Random classic programs: the exit status."""
    library = ctypes.CDLL("libpcap.so.0.8")
    library.bpf_filter.restype = ctypes.c_uint
    chance, wrong = random.Random(given.seed), 0
    found = expression_frames.frames(given.seed, 400, 3)
    with tempfile.TemporaryDirectory() as folder:
        stream = f"{folder}/frames"
        write(stream, stream_of(found))
        for _ in range(given.random):
            rows = random_program(chance)
            array = (Row * len(rows))(*[Row(*row) for row in rows])
            wanted = {at for at, it in enumerate(found) if library.bpf_filter(array, it, len(it), len(it))}
            text = f"{len(rows)}\n" + "".join(" ".join(map(str, row)) + "\n" for row in rows)
            try:
                differ = sorted(wanted ^ tried(given.program, text, stream).passed)
                why = f"frames differ: {differ[:5]}" if differ else ""
            except (Failed, Wrong) as error:
                why = str(error)
            if why:
                wrong += 1
                print(f"{why}\n{text}", flush=True)
    print(f"{given.random:,} programs, {given.random * len(found):,} pairs of program and frame, {wrong} wrong")
    return 1 if wrong else 0


def main() -> int:
    words = command_line()
    words.add_argument("--program", type=runnable, default=built())
    for name, number in (("seed", 1), ("count", 700), ("frames", 3000), ("kinds", 60), ("random", 0)):
        words.add_argument(f"--{name}", type=int, default=number)
    words.add_argument("--unoptimized", action="store_true")
    words.add_argument("--only", default="")
    given = words.parse_args()
    if given.random:
        return randoms(given)
    found = expression_frames.frames(given.seed, given.frames, given.kinds)
    with tempfile.TemporaryDirectory() as folder:
        capture, stream = f"{folder}/capture.pcap", f"{folder}/frames"
        for path, data in ((capture, expression_frames.pcap_of(found)), (stream, stream_of(found))):
            write(path, data)
        return Sweep(given, capture, stream, len(found)).all()


if __name__ == "__main__":
    sys.exit(main())
