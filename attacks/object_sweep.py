#!/usr/bin/env python3
"""Makes objects of many images, reads them back, and loads them: what is wrong is printed.

usage: python3 attacks/object_sweep.py SET [--program XDPVM] [--count N] [--seed S] [--every N] [--load]

SET is one of
  stored    the images of examples/ and examples/compiled, and those of the cases in tests/programs, of every Nth
  random    programs of attacks/random_programs.py, N of them that `verify` accepts
  attacks   programs of attacks/attack_programs.py, N of each family

Each accepted image has to become an object from which image.py makes the same image, but for images whose functions
are not in the order of their calls, of which `object.py` says so. With --load, as root, libbpf loads each object, and
the program is loaded by bpf(2) without it: both have the same verdict, and a refusal has to be one that a row of
DECISIONS.md is about. The last lines count; the status is 1 if anything was wrong. """
import argparse
import collections
import glob
import os
import pathlib
import re
import subprocess
import sys
import tempfile
from collections.abc import Callable, Iterator
from typing import Counter

sys.path.insert(0, os.path.join(os.path.dirname(os.path.abspath(__file__)), "../checks"))
from common import TOP, built, bytes_of, command_line, runnable

sys.dont_write_bytecode = True
import image
import libbpf
import object_check
import object_link
from fuzz import runner
from kernel_programs import attacks
from object_image import Program, Refused, map_names
from objects import Refused as Unreadable
from random_programs import Maker


def object_of(data: bytes) -> bytes:
    """The object that object.py makes of an image, with lines that name slots."""
    program = Program(data)
    wanted = object_link.Wanted("xdpvm_prog", map_names(program, None, "xdpvm_prog"), False, None)
    return object_link.Maker(program, wanted, object_link.lines_of_listing("an.image", program, "")).object()


def of_cases(program: str, every: int = 1) -> Iterator[tuple[str, bytes]]:
    """The images of the cases in tests/programs: those that are given, and those that texts are assembled to."""
    import cases

    paths = sorted(glob.glob(f"{TOP}/tests/programs/*.case"))
    for case in [case for path in paths for case in cases.cases_of(pathlib.Path(path))][::every]:
        first = case.lines[0]
        made = case_image(program, first.word, cases.filled(first.rest, case.names), cases.bytes_of)
        if made:
            yield f"{first.where}{case.names or ''}", made


def case_image(program: str, kind: str, value: str, spelled: Callable[[str], bytes]) -> bytes | None:
    """The image of a case, if it has one."""
    if kind == "image":
        return spelled(value)
    with tempfile.TemporaryDirectory() as folder:
        with open(f"{folder}/text", "wb") as file:
            file.write(value.encode() if kind == "text" else spelled(value))
        ran = subprocess.run([program, "asm", f"{folder}/text", f"{folder}/image"], capture_output=True, check=False)
        return bytes_of(f"{folder}/image") if ran.returncode == 0 else None


def stored(program: str, every: int) -> Iterator[tuple[str, bytes]]:
    for path in sorted(glob.glob(f"{TOP}/examples/*.image") + glob.glob(f"{TOP}/examples/compiled/*.image")):
        yield os.path.relpath(path, TOP), bytes_of(path)
    yield from of_cases(program, every)


def randoms(seed: int) -> Iterator[tuple[str, bytes]]:
    while True:
        yield f"random {seed}", Maker(seed).program()
        seed += 1


def is_accepted(program: str, data: bytes, folder: str) -> bool:
    with open(f"{folder}/an.image", "wb") as file:
        file.write(data)
    return subprocess.run([program, "verify", f"{folder}/an.image"], capture_output=True, check=False).returncode == 0


class Sweep:
    """What is tried of each image, and the counts."""

    def __init__(self, loads: bool) -> None:
        self.library = libbpf.Library() if loads else None
        self.counts: Counter[str] = collections.Counter()
        self.rows: Counter[str] = collections.Counter()
        self.wrong = 0

    def say(self, name: str, why: str) -> None:
        self.wrong += 1
        print(f"{name}: {why}", flush=True)

    def one(self, name: str, data: bytes) -> None:
        self.counts["accepted"] += 1
        try:
            made = object_of(data)
        except Refused as why:
            self.counts[f"no object: {re.sub(r'[0-9]+', 'N', str(why))}"] += 1
            return
        self.read_back(name, data, made)
        if self.library:
            self.load(name, data, made, self.library)

    def read_back(self, name: str, data: bytes, made: bytes) -> None:
        try:
            again = image.bytes_of(image.made(made))
        except Unreadable as why:
            self.say(name, f"image.py refuses the object: {why}")
            return
        is_same, is_in_order = again == data, Program(data).is_in_order_of_calls()
        self.counts["the same image again" if is_same else "functions in another order"] += 1
        if is_same != is_in_order:
            self.say(name, f"the image again is {'the same' if is_same else 'another'}, and object.py says otherwise")

    def load(self, name: str, data: bytes, made: bytes, library: libbpf.Library) -> None:
        by_libbpf, asked = library.loads(made), object_check.asked(data)
        self.counts["loaded by libbpf" if by_libbpf else "refused by the kernel"] += 1
        if not asked.is_asked or by_libbpf != asked.is_loaded:
            self.say(name, f"libbpf {'loads' if by_libbpf else 'does not load'} it, bpf(2): {asked.words}")
        found = object_check.findings(Program(data), None)
        if asked.is_loaded and any(it.is_sure for it in found):
            self.counts["loaded, though a rule of --check is met in code that the kernel does not reach"] += 1
        if asked.is_asked and not asked.is_loaded:
            row = object_check.row_of(asked.words)
            self.rows[row.linux if row else "no row"] += 1
            if row is None:
                self.say(name, f"no row is about this refusal: {asked.words}")


def images(given: argparse.Namespace) -> Iterator[tuple[str, bytes]]:
    if given.set == "stored":
        yield from stored(given.program, given.every)
    elif given.set == "random":
        yield from randoms(given.seed)
    else:
        with tempfile.TemporaryDirectory() as folder:
            made = (making() for making in attacks(given.count, given.seed, runner(given.program), folder))
            yield from (item[:2] for item in made if item)


def most_of(given: argparse.Namespace) -> int:
    return int(given.count) if given.set == "random" else 1 << 30


def main() -> int:
    words = command_line()
    words.add_argument("set", choices=["stored", "random", "attacks"])
    words.add_argument("--program", type=runnable, default=built())
    words.add_argument("--count", type=int, default=100)
    words.add_argument("--seed", type=int, default=1)
    words.add_argument("--every", type=int, default=1)
    words.add_argument("--load", action="store_true")
    given = words.parse_args()
    sweep = Sweep(given.load)
    with tempfile.TemporaryDirectory() as folder:
        for name, data in images(given):
            sweep.counts["images"] += 1
            if is_accepted(given.program, data, folder):
                sweep.one(name, data)
            if sweep.counts["accepted"] >= most_of(given):
                break
    for it, count in sweep.counts.items():
        print(f"{count:6,} {it}")
    for it, count in sweep.rows.most_common():
        print(f"{count:6,} refused: {it}")
    print(f"{sweep.counts['accepted']:,} accepted images, {sweep.wrong} wrong")
    return 1 if sweep.wrong or not sweep.counts["accepted"] else 0


if __name__ == "__main__":
    sys.exit(main())
