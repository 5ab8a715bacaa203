#!/usr/bin/env python3
"""Random programs on maps that are filled: what `xdpvm_filter` does of them, in one run and in two, with checks, and by
Linux.

usage: python3 tests/contents.py [--halves N] [--programs N] [--texts N] [--seed S] [--jobs J] [--filter PROGRAM]
                                 [--keep FOLDER]

Programs are those of attacks/random_programs.py that are accepted; each has random contents of its maps, and a random
stream. Of --halves of them a run over the stream is compared with two runs, the second on what the first one left: as
its --maps-out, or as its report; report, frames out and maps have to be those of the whole. Of --programs of them a run
is compared with one with all checks, and with the kernel's test runs, where bpf(2) can be used and the kernel accepts
the program. For --texts of them the text of the maps is damaged, and its refusal, or what the maps hold after it, has
to be that of a judge in Python (tests/map_lines.py). The programs that differ are kept in FOLDER. PROGRAM is the
default of xdp.py.

In the gate with few of each; by hand with --halves 1000 --programs 20000 --texts 20000. The exit status is 1 if any
differs."""
import collections
import os
import random
import re
import subprocess
import sys
import tempfile
from concurrent.futures import ProcessPoolExecutor
from dataclasses import dataclass, field
from collections.abc import Iterator
from typing import Counter

sys.path.insert(0, os.path.join(os.path.dirname(os.path.abspath(__file__)), "../checks"))
import common  # pylint: disable=unused-import

sys.dont_write_bytecode = True
import fuzz
import kernel
import map_lines
import sources
from kernel_calls import Kernel, NoKernel, parsed
from map_files import Filling
from random_contents import contents
from random_programs import Maker

PRIME = 1_000_003  # between the seeds of programs that come one after the other
LENGTHS = [14, 15, 20, 34, 60, 64, 128, 300, 1500]


@dataclass
class Case:
    """A program, what its maps begin with, and the two halves of a stream without their magic."""

    seed: int
    image: bytes
    maps: str
    magic: bytes
    halves: tuple[bytes, bytes]
    chance: random.Random

    @staticmethod
    def of(seed: int) -> "Case":
        """The case of a seed."""
        chance = random.Random(seed * PRIME)
        image = Maker(seed).program()
        version = chance.choice([1, 2])
        one, two = (fuzz.frames(chance, version) for _ in range(2))
        rows = parsed(image)[0]
        return Case(seed, image, contents(chance, rows), one[:4], (one[4:], two[4:]), chance)


@dataclass
class Ran:
    """A run: the lines of frames, with their numbers, those of maps, the last one, and the records that were
    written."""

    status: int
    frames: list[str] = field(default_factory=list)
    maps: list[str] = field(default_factory=list)
    last: str = ""
    sent: bytes = b""
    said: str = ""


class Folder:
    """A folder with a case in it, and the program that runs it."""

    def __init__(self, path: str, program: str, case: Case) -> None:
        self.path, self.program, self.case = path, program, case
        self.write("image", case.image)
        self.write("begin.maps", case.maps.encode())

    def write(self, name: str, data: bytes) -> str:
        """Writes a file; its path."""
        with open(f"{self.path}/{name}", "wb") as file:
            file.write(data)
        return f"{self.path}/{name}"

    def read(self, name: str) -> bytes:
        """The bytes of a file."""
        with open(f"{self.path}/{name}", "rb") as file:
            return file.read()

    def ran(self, stream: bytes, maps: str, *more: str) -> Ran:
        """A run on a stream."""
        frames = self.write("frames", self.case.magic + stream)
        outs = [f"{self.path}/sent", "--report", f"{self.path}/report", "--maps-out", f"{self.path}/kept.maps"]
        words = [self.program, f"{self.path}/image", frames, *outs, "--maps", f"{self.path}/{maps}", *more]
        done = subprocess.run(words, capture_output=True, text=True, check=False)
        if done.returncode not in (0, 3):
            return Ran(done.returncode, said=f"{done.stdout}{done.stderr}")
        lines = self.read("report").decode().splitlines()
        found = [line for line in lines if line.startswith("map ")]
        if found != self.read("kept.maps").decode().splitlines():
            return Ran(-1, said="--maps-out has other lines than the report")
        return Ran(done.returncode, [it for it in lines if it[0].isdigit()], found, lines[-1], self.read("sent"))


def counted_on(lines: list[str], first: int) -> list[str]:
    """The lines of frames, counted from another number on."""
    return [f"{int(line.split(' ', 1)[0]) + first} {line.split(' ', 1)[1]}" for line in lines]


def halves_differ(folder: Folder) -> str:
    """What differs between a run over a stream and two over its halves, if anything does."""
    case = folder.case
    whole = folder.ran(case.halves[0] + case.halves[1], "begin.maps")
    if whole.status:
        return f"status {whole.status}: {whole.said}"
    one = folder.ran(case.halves[0], "begin.maps")
    left = case.chance.choice(["kept.maps", "report"])
    folder.write("between.maps", folder.read(left))
    two = folder.ran(case.halves[1], "between.maps")
    for name, wanted, found in (
        ("lines", whole.frames, one.frames + counted_on(two.frames, len(one.frames))),
        ("maps", whole.maps, two.maps),
        ("frames out", whole.sent, one.sent + two.sent[4:]),
        ("ends", whole.last, f"end {len(one.frames) + len(two.frames)}"),
    ):
        if wanted != found:
            return f"in two runs, by {left}, other {name}: {found!r}, and in one {wanted!r}"
    return ""


def checked_differs(folder: Folder) -> str:
    """What differs between a run and one with all checks, if anything does."""
    stream = b"".join(folder.case.halves)
    plain, checked = folder.ran(stream, "begin.maps"), folder.ran(stream, "begin.maps", "--checked")
    if plain.status:
        return f"status {plain.status}: {plain.said}"
    return "" if plain == checked else f"with --checked {checked}, and without {plain}"


def kernel_differs(folder: Folder, xdpvm: str, counts: Counter[str]) -> str:
    """What differs in the kernel's runs on the same maps, if anything does."""
    case = folder.case
    frames = [(kernel.TIME, case.chance.randbytes(length)) for length in LENGTHS]
    with Kernel(kernel.with_time(case.image)) as there:
        if there.refusal is not None:
            counts["refused by the kernel"] += 1
            return ""
        filled = kernel.Filled(folder.program, Filling(f"{folder.path}/begin.maps"))
        there.fill(filled.entries())
        ran = kernel.Ran(xdpvm, f"{folder.path}/image", frames, filled)
        found, both = kernel.differences(there, ran.report, frames)
    counts["frames by the kernel"] += both
    counts["run by the kernel"] += 1
    return "; ".join(found)


def text_differs(folder: Folder, counts: Counter[str]) -> str:
    """What differs from the judge's answer to a damaged text, if anything does."""
    case = folder.case
    text = map_lines.damaged(case.chance, case.maps.encode())
    folder.write("begin.maps", text)
    wanted = map_lines.judged(text, parsed(case.image)[0])
    none = folder.write("frames", case.magic)
    words = [folder.program, f"{folder.path}/image", none, f"{folder.path}/sent", "--checked"]
    words += ["--maps", f"{folder.path}/begin.maps", "--maps-out", f"{folder.path}/kept.maps"]
    ran = subprocess.run(words, capture_output=True, text=True, check=False)
    found = folder.read("kept.maps").decode() if ran.returncode == 0 else ran.stdout
    if found.startswith("refused I"):
        counts["no images"] += 1
        return ""
    counts[wanted[:10] if wanted.startswith("refused") else "texts accepted"] += 1
    return "" if found == wanted else f"the text is answered by {found!r}, and by the judge {wanted!r}"


@dataclass(frozen=True)
class Job:
    """What is tried of a number of programs, from a seed on."""

    kind: str
    first: int
    step: int
    count: int
    filter: str
    xdpvm: str
    keep: str | None


def accepted(job: Job) -> Iterator[Case]:
    """Cases whose programs are accepted."""
    seed, left = job.first, job.count
    with tempfile.TemporaryDirectory() as work:
        while left:
            case = Case.of(seed)
            seed += job.step
            with open(f"{work}/image", "wb") as file:
                file.write(case.image)
            words = [job.xdpvm, "verify", f"{work}/image"]
            if job.kind == "texts" or subprocess.run(words, capture_output=True, check=False).returncode == 0:
                left -= 1
                yield case


def tried(job: Job) -> tuple[Counter[str], list[str]]:
    """The counts, and what differs."""
    counts: Counter[str] = collections.Counter()
    wrong: list[str] = []
    is_kernel = True
    for case in accepted(job):
        with tempfile.TemporaryDirectory() as work:
            folder = Folder(work, job.filter, case)
            if job.kind == "texts":
                why = text_differs(folder, counts)
            else:
                why = halves_differ(folder) if job.kind == "halves" else checked_differs(folder)
            if not why and job.kind == "programs" and is_kernel:
                try:
                    why = kernel_differs(folder, job.xdpvm, counts)
                except NoKernel:
                    is_kernel = False
            counts[job.kind] += 1
            if why:
                wrong.append(f"seed {case.seed}: {why}")
                if job.keep:
                    os.makedirs(job.keep, exist_ok=True)
                    for name in ("image", "begin.maps", "frames"):
                        with open(f"{job.keep}/{case.seed}.{name}", "wb") as file:
                            file.write(folder.read(name))
    return counts, wrong


def main() -> int:
    """Tries all, and prints what differs."""
    parser = common.command_line()
    parser.add_argument("--halves", type=int, default=60)
    parser.add_argument("--programs", type=int, default=120)
    parser.add_argument("--texts", type=int, default=200)
    parser.add_argument("--seed", type=int, default=1)
    parser.add_argument("--jobs", type=int, default=2)
    parser.add_argument("--filter")
    parser.add_argument("--keep")
    given = parser.parse_args()
    xdpvm = sources.the_xdpvm()
    try:
        program = given.filter or sources.the_filter(xdpvm)
    except sources.Failed as why:
        sys.exit(f"contents.py: {why}")
    jobs = [
        Job(kind, given.seed + at, given.jobs, (count + at) // given.jobs, os.path.abspath(program), xdpvm, given.keep)
        for kind, count in (("halves", given.halves), ("programs", given.programs), ("texts", given.texts))
        for at in range(given.jobs)
    ]
    counts: Counter[str] = collections.Counter()
    wrong: list[str] = []
    with ProcessPoolExecutor(given.jobs) as pool:
        for found, differing in pool.map(tried, jobs):
            counts.update(found)
            wrong += differing
    print(*(re.sub(r"\s+", " ", line)[:2000] for line in wrong), sep="\n", end="\n" if wrong else "")
    print(", ".join(f"{count:,} {name}" for name, count in counts.items()) + f"; {len(wrong)} differ")
    return 1 if wrong or not counts else 0


if __name__ == "__main__":
    sys.exit(main())
