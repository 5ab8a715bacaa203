#!/usr/bin/env python3
"""Gives each reader of the library inputs that are made to break it: program texts, images, frame streams, proof tables and texts
of maps.

usage: python3 attacks/readers.py [READER ..] [--seconds N] [--seed S] [--jobs J] [--program XDPVM] [--archive FILE]
                                  [--object OBJECT] [--keep FOLDER]

READER is text, image, stream, table or maps; where none is named all are tried, each for N seconds (10), J at a time (1). An input
is one of examples/ or of tests/programs that was changed: bytes, pieces that are gone or there many times, pieces of another one,
up to a megabyte. attacks/readers.c says what the library has to answer; each input may take a second and 300 MB. One that is
answered otherwise is kept in FOLDER. By default inputs are mutated blindly, over the library crates/xdpvm_c/out/libxdpvm_c.a or
ARCHIVE; with OBJECT, which examples/embed/coverage.py makes, libFuzzer makes them, guided by its counters (clang), and keeps those
that reach something new in FOLDER. It needs a C compiler (CC). The exit status is 1 if anything was wrong.
"""
import argparse
import functools
import glob
import os
import random
import re
import subprocess
import sys
import tempfile
from collections.abc import Iterator
from concurrent.futures import ThreadPoolExecutor

sys.path.insert(0, os.path.join(os.path.dirname(os.path.abspath(__file__)), "../checks"))
from common import TOP, absolute, built, bytes_of, command_line, compiler, runnable, text_of, write
import unproved
from damage import TWO
from kernel_calls import parsed
from random_contents import contents

READERS = ("text", "image", "stream", "table", "maps")
# the accepted images of examples/, for which streams, tables and texts of maps are
NAMES = "allow checksum echo filter firewall ipv6 limit pass protocols quota reasons services tagged talkers traffic".split()
IMAGES = [os.path.join(TOP, f"examples/{name}.image") for name in NAMES]
MOST = 1_000_000  # bytes of an input


def those(pattern: str) -> list[bytes]:
    """The files of a pattern."""
    return [bytes_of(path) for path in sorted(glob.glob(os.path.join(TOP, pattern)))]


def texts() -> Iterator[bytes]:
    """Program texts, of examples/ and of cases."""
    yield from those("examples/*.text")
    for path in sorted(glob.glob(os.path.join(TOP, "tests/programs/*.case"))):
        yield from (text.encode() for text in re.findall(r"^text (.*)$", text_of(path), re.M))


def tables(program: str) -> Iterator[bytes]:
    """The proof table of each image."""
    with tempfile.TemporaryDirectory() as folder:
        for number, image in enumerate(IMAGES):
            subprocess.run([program, "prove", image, f"{folder}/table"], stdout=subprocess.DEVNULL, check=True)
            yield bytes([number]) + bytes_of(f"{folder}/table")


def fillings() -> Iterator[bytes]:
    """Texts for the maps of each image: random ones, and the reports of examples/."""
    for number, image in enumerate(IMAGES):
        for seed in range(4):
            yield bytes([number]) + contents(random.Random(f"{image} {seed}"), parsed(bytes_of(image))[0]).encode()
        report = image.replace(".image", ".report")
        if os.path.exists(report):
            yield bytes([number]) + bytes_of(report)


def inputs(reader: str, program: str) -> Iterator[bytes]:
    """What a reader reads."""
    if reader == "text":
        yield from texts()
    elif reader == "image":
        yield from those("examples/*.image")
        yield from those("examples/compiled/*.image")
    elif reader == "stream":
        yield from (bytes([at]) + stream for at in range(len(IMAGES)) for stream in [*those("examples/*.frames"), TWO])
    else:
        yield from tables(program) if reader == "table" else fillings()


def driver(folder: str, archive: str, fuzzed: str | None) -> str:
    """The program that gives the readers their inputs."""
    made, source = os.path.join(folder, "readers"), f"{TOP}/attacks/readers.c"
    if fuzzed:
        system = unproved.libraries(unproved.the_kit())[0]
        words = ["clang", "-O1", "-DGUIDED", "-fsanitize=fuzzer", "-o", made, source, fuzzed, system]
    else:
        words = [compiler(), "-std=c11", "-O2", "-o", made, source, archive]
    subprocess.run(words, check=True)
    return made


def tried(given: argparse.Namespace, made: str, folder: str, reader: str) -> bool:
    """Whether a reader answered all its inputs."""
    corpus = os.path.join(folder, f"corpus.{reader}")
    os.mkdir(corpus)
    for number, data in enumerate(inputs(reader, given.program)):
        write(os.path.join(corpus, f"{number:04}"), data)
    words = [made, reader, str(given.seconds), str(given.seed), ":".join(IMAGES)]
    words += [os.path.join(corpus, name) for name in sorted(os.listdir(corpus))]
    if given.object:
        kept = os.path.join(given.keep, f"corpus.{reader}")
        os.makedirs(kept, exist_ok=True)
        limits = [f"-max_len={MOST}", "-timeout=60", "-rss_limit_mb=2000", "-verbosity=0", "-print_final_stats=1"]
        words = [made, f"-max_total_time={given.seconds}", f"-seed={given.seed}", *limits, kept, corpus]
    env = {**os.environ, "READER": reader, "IMAGES": ":".join(IMAGES)}
    return subprocess.run(words, cwd=given.keep, env=env, check=False).returncode == 0


def main() -> int:
    parser = command_line()
    parser.add_argument("readers", nargs="*", metavar="READER", default=READERS)
    parser.add_argument("--seconds", type=int, default=10)
    parser.add_argument("--seed", type=int, default=1)
    parser.add_argument("--jobs", type=int, default=1)
    parser.add_argument("--program", type=runnable, default=built())
    parser.add_argument("--archive", type=absolute, default=f"{TOP}/crates/xdpvm_c/out/libxdpvm_c.a")
    parser.add_argument("--object", type=absolute)
    parser.add_argument("--keep", type=absolute, default="found")
    given = parser.parse_args()
    if not set(given.readers) <= set(READERS):
        parser.error(f"READER is one of {', '.join(READERS)}")
    with tempfile.TemporaryDirectory() as folder, ThreadPoolExecutor(given.jobs) as jobs:
        made = driver(folder, given.archive, given.object)
        os.makedirs(given.keep, exist_ok=True)
        wrong = [*jobs.map(functools.partial(tried, given, made, folder), given.readers)].count(False)
        found = glob.glob(os.path.join(given.keep, "found.*"))
    print(f"{len(given.readers)} readers, {wrong} ended with an error, {len(found)} inputs kept")
    return 1 if wrong or found else 0


if __name__ == "__main__":
    sys.exit(main())
