#!/usr/bin/env python3
"""Expressions of tcpdump as filters: the frames that pass are those that tcpdump keeps. In the gate.

usage: python3 tests/tcpdump.py [PROGRAM] [--store]

PROGRAM is what `rt run` leaves in crates/xdpvm (the default: crates/xdpvm/out/xdpvm). tests/expressions/frames.pcap
has the frames: generated ones, and those of examples/*.pcapng; the time of each is its number, in seconds.
tests/expressions/stored.txt has the expressions, those of man.txt and composed ones, and under each what tcpdump made
of it: the classic program, and the numbers of the frames that it keeps, or why it is refused. Its first line has the
versions. Each classic program has to become a filter that is accepted and passes those frames. Where tcpdump is
installed, each expression is compiled and tried anew, against what that tcpdump keeps. --store writes both files, by
tcpdump.

What differs is printed; the last line counts, and the status is 1 if anything differs.
"""
import concurrent.futures
import glob
import os
import shutil
import subprocess
import sys
import tempfile
from collections.abc import Iterable
from typing import NamedTuple

sys.path.insert(0, os.path.join(os.path.dirname(os.path.abspath(__file__)), "../checks"))
from common import TOP, built, command_line, runnable, write

sys.dont_write_bytecode = True
import expression_corpus
import expression_frames
import send
from classic import Failed, compiled
from expression_sweep import Trial, Wrong, kept, stream_of, tried

FOLDER = os.path.join(TOP, "tests/expressions")
CAPTURE, STORED = os.path.join(FOLDER, "frames.pcap"), os.path.join(FOLDER, "stored.txt")
COMPOSED, SEED = 100, 1
FRAMES, KINDS = 300, 3
LONGEST = 4096  # bytes of a frame of the first form of streams
REFUSED_HERE = ("inbound", "outbound")


class Case(NamedTuple):
    """An expression, its classic program, the frames that tcpdump keeps, and why it refuses it, as far as there is
    one."""

    said: str
    classic: str | None
    frames: set[int] | None
    refused: str | None


def spans(numbers: Iterable[int]) -> str:
    """Numbers as they are stored: 1-3 5 7-9."""
    found: list[list[int]] = []
    for number in sorted(numbers):
        if found and found[-1][1] == number - 1:
            found[-1][1] = number
        else:
            found.append([number, number])
    return " ".join(f"{first}-{last}" if first < last else f"{first}" for first, last in found)


def numbers(text: str) -> set[int]:
    ends = [[int(end) for end in span.split("-")] for span in text.split()]
    return {number for span in ends for number in range(span[0], span[-1] + 1)}


def cases() -> list[Case]:
    found: list[Case] = []
    with open(STORED, encoding="utf-8") as file:
        for line in file:
            kind, _, rest = line.rstrip("\n").lstrip(" ").partition(" ")
            if line.startswith("#"):
                continue
            if not line.startswith("  "):
                found.append(Case(line.rstrip("\n"), None, None, None))
            elif kind == "classic":
                found[-1] = found[-1]._replace(classic=rest.replace(", ", "\n") + "\n")
            elif kind == "frames":
                found[-1] = found[-1]._replace(frames=numbers(rest))
            else:
                found[-1] = found[-1]._replace(refused=rest)
    return found


def stored_frames() -> list[bytes]:
    """The frames of the capture."""
    with tempfile.TemporaryDirectory() as folder:
        words = [built("xdpvm_filter"), "convert", CAPTURE, f"{folder}/frames"]
        subprocess.run(words, check=True)
        with open(f"{folder}/frames", "rb") as file:
            return list(send.bodies(file.read()))


class Gate:
    """What is tried of each case."""

    def __init__(self, program: str, stream: str) -> None:
        self.program, self.stream = program, stream
        self.has_tcpdump = shutil.which("tcpdump") is not None
        self.trials: dict[str, Trial] = {}

    def wrong(self, case: Case) -> str | None:
        """What differs of a case."""
        if case.classic is not None:
            why = self.passes(case.said, case.classic, case.frames)
            if why:
                return f"with the stored classic program: {why}"
        return self.again(case) if self.has_tcpdump else None

    def again(self, case: Case) -> str | None:
        """With the tcpdump that is installed."""
        try:
            classic = compiled(case.said)
            wanted = kept(case.said, CAPTURE)
        except Failed:
            return None  # other versions refuse others
        return self.passes(case.said, classic, wanted)

    def passes(self, said: str, classic: str, wanted: set[int] | None) -> str | None:
        try:
            trial = self.trials.get(classic) or tried(self.program, classic, self.stream)
        except Failed as why:
            return None if said in REFUSED_HERE else f"not translated: {why}"
        except Wrong as why:
            return f"not accepted: {why}"
        self.trials[classic] = trial
        if said in REFUSED_HERE:
            return "it is translated, and asks for the direction of a frame"
        differ = sorted(trial.passed ^ wanted) if wanted is not None else []
        return f"{len(differ)} frames differ: {differ[:5]}" if differ else None


def store() -> None:
    """Writes the capture and what tcpdump says of each expression."""
    found = expression_frames.frames(SEED, FRAMES, KINDS)
    for path in sorted(glob.glob(f"{TOP}/examples/*.frames")):
        with open(path, "rb") as file:
            found += [body for body in send.bodies(file.read()) if len(body) <= LONGEST]
    write(CAPTURE, expression_frames.pcap_of(found))
    told = subprocess.run(["tcpdump", "--version"], capture_output=True, text=True, check=False)
    versions = (told.stdout + told.stderr).splitlines()[:2]
    lines = [f"# by {', '.join(versions)}; made by `python3 tests/tcpdump.py --store`"]
    for said in expression_corpus.expressions(SEED, COMPOSED):
        lines.append(said)
        try:
            lines.append("  classic " + compiled(said).strip().replace("\n", ", "))
            lines.append("  frames " + spans(kept(said, CAPTURE)))
        except Failed as why:
            lines.append(f"  refused {str(why).removeprefix(f'{said!r}: ')}")
    write(STORED, "\n".join(lines) + "\n")


def main() -> int:
    parser = command_line()
    parser.add_argument("program", nargs="?", type=runnable, default=built())
    parser.add_argument("--store", action="store_true")
    given = parser.parse_args()
    if given.store:
        store()
    found, frames, differ = cases(), stored_frames(), 0
    with tempfile.TemporaryDirectory() as folder, concurrent.futures.ThreadPoolExecutor(os.cpu_count()) as pool:
        write(f"{folder}/frames", stream_of(frames))
        gate = Gate(given.program, f"{folder}/frames")
        for case, why in zip(found, pool.map(gate.wrong, found)):
            if why:
                differ += 1
                print(f"{case.said}: {why}")
    compared = sum(case.frames is not None for case in found)
    by = "and with the tcpdump of this machine" if gate.has_tcpdump else "by stored results only, since there is no tcpdump"
    print(f"{len(found)} expressions, {compared} compared on {len(frames)} frames {by}, {differ} differ")
    return 1 if differ or not compared else 0


if __name__ == "__main__":
    sys.exit(main())
