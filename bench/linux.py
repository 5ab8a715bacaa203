#!/usr/bin/env python3
"""The time of `verify` beside that of Linux's verifier, or of a run beside Linux's, image by image.

usage: python3 bench/linux.py [IMAGE|FOLDER ..] [--library ARCHIVE] [--survey PROGRAM] [--times N] [--csv FILE]
       [--least MICROSECONDS]
       python3 bench/linux.py --runs [IMAGE|FOLDER ..] [--library ARCHIVE] [--times N] [--csv FILE]

Linux's time is its own, "verification time" of the log at level 4; ours is that of xdpvm_verify in this process, by the library
ARCHIVE (the default: crates/xdpvm_c/out/libxdpvm_c.a), so neither has the start of a process in it. Each is the least of N (5).
Beside them: the instructions that Linux processed, and those that our search explored, which PROGRAM says (xdpvm_survey, the
default: crates/xdpvm_survey/out/xdpvm_survey). A row for each image that both accept, and at the end how many are faster here;
images that one of them refuses are counted. --least: only rows of images that take Linux so long. Without images:
examples/compiled and examples.

With --runs: nanoseconds of a call of xdpvm_run on an open session (`embed --run` of bench/embed.c), beside those that Linux
says a run of its compiled code takes (BPF_PROG_TEST_RUN with a repeat; the kernel's own measure, in whole nanoseconds). Both run
one frame up to a million times on maps that are empty at first, and each is the least of N. The frame is the one that takes most
steps, of the image's own (IMAGE's name with .frames, where it is XPF1) and of four with two or three headers. A row for each
image that both accept, where both end with the same action.

examples:
    sudo python3 bench/linux.py --least 100 examples/compiled
    sudo python3 bench/linux.py --runs examples

The exit status is 0; 1 with a message; and 77 where bpf(2) cannot be used.
"""
import argparse
import ctypes
import csv
import os
import re
import shutil
import struct
import subprocess
import sys
import tempfile
import time
from collections.abc import Sequence
from dataclasses import astuple, dataclass, fields
from pathlib import Path

TOP = Path(__file__).resolve().parent.parent
sys.path.insert(0, str(TOP / "tools"))
from kernel_calls import LEAST, MOST as MOST_BYTES, Kernel, NoKernel

CANNOT = 77
MOST = 1_000_000
BATCH = 20_000_000  # nanoseconds that Linux takes for the runs that are timed together
RECORD = struct.Struct("<QIII")  # of XPF1: time, interface, queue, length
ADDRESSES = bytes(range(12))
IPV4 = bytes([0x45, 0, 0, 50, 0, 0, 0, 0, 64])
FRAMES = [
    ADDRESSES + b"\x08\x00" + IPV4 + bytes([17, 0, 0, 10, 0, 0, 1, 10, 0, 0, 2, 0x30, 0x39, 0, 53]) + bytes(26),  # UDP
    ADDRESSES + b"\x08\x00" + IPV4 + bytes([6, 0, 0, 10, 0, 0, 1, 10, 0, 0, 2, 0x30, 0x39, 0, 80]) + bytes(26),  # TCP
    ADDRESSES + b"\x81\x00\x00\x05\x08\x00" + IPV4 + bytes([17, 0, 0, 10, 0, 0, 1, 10, 0, 0, 2, 0x30, 0x39, 0, 53]) + bytes(22),
    ADDRESSES + b"\x86\xdd\x60\x00\x00\x00\x00\x0a\x11\x40" + bytes(32) + bytes([0x30, 0x39, 0, 53]) + bytes(16),  # IPv6
]
TIME = re.compile(rb"verification time (\d+) usec")
PROCESSED = re.compile(rb"processed (\d+) insns")


@dataclass(frozen=True)
class Row:
    """An image that both accept; times are in microseconds."""

    image: str
    linux_instructions: int
    explored: int | None
    linux_microseconds: int
    microseconds: float

    def ratio(self) -> float:
        return self.microseconds / max(self.linux_microseconds, 1)


@dataclass(frozen=True)
class RunRow:
    """An image that both run; times are in nanoseconds a run."""

    image: str
    bytes: int
    steps: int
    linux_nanoseconds: int
    nanoseconds: float

    def ratio(self) -> float:
        return self.nanoseconds / max(self.linux_nanoseconds, 1)


class Head(ctypes.Structure):
    _fields_ = [("time", ctypes.c_uint64), ("interface", ctypes.c_uint32), ("queue", ctypes.c_uint32)]


class Ended(ctypes.Structure):
    _fields_ = [("r0", ctypes.c_uint64), ("steps", ctypes.c_uint32)]


def heap() -> Path:
    """The library that has the memory of ours."""
    rt = shutil.which("rt")
    if rt is None:
        sys.exit("linux.py: rt, the toolchain's command, is not on the path")
    return Path(os.path.realpath(rt)).parent.parent / "c/liblibc_c.a"


def compiled(words: list[str], archive: Path) -> None:
    """What the C compiler makes of these words."""
    ran = subprocess.run(["cc", *words], capture_output=True, text=True, check=False)
    if ran.returncode:
        sys.exit(f"linux.py: {archive}: {ran.stderr.strip()}")


def shared(archive: Path, folder: Path) -> ctypes.CDLL:
    """The library as a shared one."""
    made = folder / "libxdpvm.so"
    compiled(["-shared", "-o", str(made), "-Wl,--whole-archive", str(archive), "-Wl,--no-whole-archive", str(heap())], archive)
    library = ctypes.CDLL(str(made))
    library.xdpvm_verify.restype = ctypes.c_uint32
    return library


def ours(library: ctypes.CDLL, image: bytes, times: int) -> float | None:
    """The least time of xdpvm_verify, in microseconds; None where it refuses."""
    out = ctypes.create_string_buffer(64)
    least = float("inf")
    for _ in range(times):
        begin = time.perf_counter_ns()
        status = library.xdpvm_verify(image, ctypes.c_size_t(len(image)), ctypes.c_uint32(MOST), out, ctypes.c_size_t(0), out)
        took = (time.perf_counter_ns() - begin) / 1000
        if status:
            return None
        least = min(least, took)
    return least


def linux(image: bytes, times: int) -> tuple[int, int] | None:
    """The instructions that Linux processed, and its least time; None where it refuses."""
    least, processed = sys.maxsize, 0
    for _ in range(times):
        with Kernel(image, counts=True) as kernel:
            took, count = TIME.search(kernel.log), PROCESSED.search(kernel.log)
            if kernel.refusal is not None or not took or not count:
                return None
            processed = int(count[1])
            least = min(least, int(took[1]))
    return processed, least


def explored(program: Path, images: list[Path]) -> dict[str, int]:
    """The instructions that our search explored, by image."""
    if not program.is_file():
        return {}
    ran = subprocess.run([str(program), "--format", "csv", *map(str, images)], capture_output=True, text=True, check=False)
    return {row["file"]: int(row["explored"]) for row in csv.DictReader(ran.stdout.splitlines()) if row["verdict"] == "ok"}


def cannot(why: NoKernel) -> int:
    print(f"linux.py: not tried, since the kernel cannot be asked here: {why}")
    return CANNOT


def images_in(paths: list[Path]) -> list[Path]:
    return [it for path in paths for it in (sorted(path.rglob("*.image")) if path.is_dir() else [path])]


def rows_of(library: ctypes.CDLL, images: list[Path], times: int, counts: dict[str, int]) -> tuple[list[Row], int]:
    """The rows, and how many images one of both refuses."""
    rows, refused = [], 0
    for path in images:
        image = path.read_bytes()
        here, there = ours(library, image, times), linux(image, times)
        if here is None or there is None:
            refused += 1
        else:
            rows.append(Row(str(path), there[0], counts.get(str(path)), there[1], round(here, 1)))
    return rows, refused


def frames_of(path: Path) -> list[bytes]:
    """The frames that are tried on an image."""
    own, frames = path.with_suffix(".frames"), []
    stream = own.read_bytes() if own.is_file() else b""
    at = 4
    while stream[:4] == b"XPF1" and at + RECORD.size <= len(stream):
        length = RECORD.unpack_from(stream, at)[3]
        frames.append(stream[at + RECORD.size : at + RECORD.size + length])
        at += RECORD.size + length
    return [it for it in frames if LEAST <= len(it) <= MOST_BYTES] + FRAMES


def most_steps(library: ctypes.CDLL, image: bytes, frames: list[bytes]) -> tuple[int, bytes] | None:
    """The frame that takes most steps, on a session of its own, with their number; None where the image is refused."""
    found: list[tuple[int, bytes]] = []
    for frame in frames:
        session, ended = ctypes.c_void_p(), Ended()
        if library.xdpvm_open(image, ctypes.c_size_t(len(image)), ctypes.byref(session)):
            return None
        packet = ctypes.create_string_buffer(frame, len(frame))
        head = Head(0, 1, 0)
        library.xdpvm_run(ctypes.byref(session), ctypes.byref(head), packet, ctypes.c_size_t(len(frame)), ctypes.byref(ended))
        library.xdpvm_close(ctypes.byref(session))
        found.append((ended.steps, frame))
    return max(found, key=lambda it: it[0])


def timed_run(program: Path, path: Path, frame: Path, times: int, runs: int) -> tuple[float, int]:
    """The least nanoseconds of a call on an open session, and r0."""
    words = [str(program), "--run", str(times), str(runs), str(path), str(frame)]
    ran = subprocess.run(words, capture_output=True, text=True, check=False)
    if ran.returncode:
        sys.exit(f"linux.py: {path}: {ran.stderr.strip()}")
    took, r0 = ran.stdout.split()
    return float(took), int(r0)


def timed_in_linux(image: bytes, frame: bytes, times: int) -> tuple[int, int, int] | None:
    """The least nanoseconds of a run in Linux, its action, and how many runs are timed together; None where it refuses."""
    with Kernel(image) as kernel:
        first = None if kernel.refusal is not None else kernel.run_often(frame, 1000)
    if first is None:
        return None
    count = min(max(BATCH // max(first[2], 1), 1000), 1_000_000)
    with Kernel(image) as kernel:
        found = [it for _ in range(times) if (it := kernel.run_often(frame, count)) is not None]
    return min(it[2] for it in found), found[-1][0], count


def run_rows_of(archive: Path, images: list[Path], times: int, folder: Path) -> tuple[list[RunRow], int, int]:
    """The rows, how many images one of both refuses, and how many end with two actions."""
    library, program, packet = shared(archive, folder), folder / "embed", folder / "packet"
    compiled(["-std=gnu11", "-O2", "-pthread", "-o", str(program), str(TOP / "bench/embed.c"), str(archive), str(heap())], archive)
    rows, refused, apart = [], 0, 0
    for path in images:
        image = path.read_bytes()
        most = most_steps(library, image, frames_of(path))
        there = most and timed_in_linux(image, most[1], times)
        if most is None or there is None:
            refused += 1
            continue
        packet.write_bytes(most[1])
        here = timed_run(program, path, packet, times, there[2])
        if here[1] & 0xFFFFFFFF == there[1]:
            rows.append(RunRow(str(path), len(most[1]), most[0], there[0], here[0]))
        else:
            apart += 1
    return rows, refused, apart


def print_runs(rows: list[RunRow], refused: int, apart: int) -> None:
    print(f"{'image':44} {'bytes':>6} {'steps':>6} {'Linux ns':>9} {'ns':>9} {'ratio':>6}")
    for row in sorted(rows, key=lambda it: -it.ratio()):
        print(
            f"{Path(row.image).name:44} {row.bytes:6,} {row.steps:6,} {row.linux_nanoseconds:9,} {row.nanoseconds:9.1f}"
            f" {row.ratio():6.2f}"
        )
    within = sum(it.ratio() <= 1.5 for it in rows)
    print(
        f"{len(rows)} images that both run, {within} of them within 1.5 times; {refused} refused by one, {apart} with two actions"
    )


def write_csv(path: Path, kind: type, rows: Sequence[Row | RunRow]) -> None:
    with path.open("w", newline="") as file:
        writer = csv.writer(file)
        writer.writerow([it.name for it in fields(kind)])
        writer.writerows(astuple(it) for it in rows)


def compare_runs(archive: Path, images: list[Path], times: int, to: Path | None) -> int:
    with tempfile.TemporaryDirectory() as folder:
        try:
            rows, refused, apart = run_rows_of(archive, images, times, Path(folder))
        except NoKernel as why:
            return cannot(why)
    print_runs(rows, refused, apart)
    if to:
        write_csv(to, RunRow, rows)
    return 0


def main() -> int:
    words = argparse.ArgumentParser(description=__doc__, formatter_class=argparse.RawDescriptionHelpFormatter)
    words.add_argument("images", nargs="*", type=Path, metavar="IMAGE|FOLDER")
    words.add_argument("--library", type=Path, default=TOP / "crates/xdpvm_c/out/libxdpvm_c.a", metavar="ARCHIVE")
    words.add_argument("--survey", type=Path, default=TOP / "crates/xdpvm_survey/out/xdpvm_survey", metavar="PROGRAM")
    words.add_argument("--times", type=int, default=5, metavar="N")
    words.add_argument("--least", type=int, default=0, metavar="MICROSECONDS")
    words.add_argument("--csv", type=Path, metavar="FILE")
    words.add_argument("--runs", action="store_true", help="the time of a run in place of that of verify")
    given = words.parse_intermixed_args()
    images = images_in(given.images or [TOP / "examples/compiled", TOP / "examples"])
    images = list(dict.fromkeys(images))
    if given.runs:
        return compare_runs(given.library, images, max(given.times, 1), given.csv)
    with tempfile.TemporaryDirectory() as folder:
        library = shared(given.library, Path(folder))
        try:
            rows, refused = rows_of(library, images, max(given.times, 1), explored(given.survey, images))
        except NoKernel as why:
            return cannot(why)
    rows = [it for it in rows if it.linux_microseconds >= given.least]
    print(f"{'image':44} {'instructions':>12} {'explored':>9} {'Linux us':>9} {'us':>9} {'ratio':>6}")
    for row in sorted(rows, key=lambda it: -it.ratio()):
        print(
            f"{Path(row.image).name:44} {row.linux_instructions:12,} {row.explored if row.explored is not None else '-':>9}"
            f" {row.linux_microseconds:9,} {row.microseconds:9,.0f} {row.ratio():6.2f}"
        )
    if given.csv:
        write_csv(given.csv, Row, rows)
    faster = sum(it.ratio() < 1 for it in rows)
    print(f"{len(rows)} images that both accept, {faster} of them faster here, {refused} refused by one")
    return 0


if __name__ == "__main__":
    sys.exit(main())
