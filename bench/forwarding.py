#!/usr/bin/env python3
"""The speed of examples/bridge, beside the same bridge without a filter, and beside Linux's own bridge with the filter in XDP.

usage: python3 bench/forwarding.py [--library ARCHIVE] [--program PROGRAM] [--cores N] [--seconds S] [--sizes BYTES,..]

Two pairs of virtual interfaces lead from one network namespace through this one to another. The filter is
examples/bridge/ports.text, and every frame is of UDP to the one port of its list. For each way between the two:

  frames       frames a second that come out while more are sent than can pass, over S seconds (4), the median of three
  processor    processor nanoseconds of the whole machine for each frame that came out at 100,000 frames a second, less those of
               sending alone, and those of the bridge's process; each the least of three
  median, 99%  the delay of one frame of 1,000, a millisecond apart, in microseconds

`xdp, generic` is the filter by tools/object.py, before Linux's bridge; there is no row of it where bpf(2) is forbidden. --cores N
runs all on N processors (the default: all), of which the sender has the first for itself. Last comes the time of the filter alone,
by a bridge that runs it 11 times on each frame.

The exit status is 0; 1 with a message; and 77 where network namespaces cannot be made.
"""
import argparse
import contextlib
import json
import os
import subprocess
import sys
import tempfile
import time
from collections.abc import Iterator
from dataclasses import dataclass
from pathlib import Path

TOP = Path(__file__).resolve().parent.parent
sys.path.insert(0, str(TOP / "checks"))
from common import CANNOT, command_line, need
from bridge import Bridge, Ends, Wrong, can_be_tried, called, image_of

RATE, DELAYS, REPEATS = 100_000, 1000, 11
LIST = "map 0 1b58 0000000000000000\n"  # port 7000


@dataclass(frozen=True)
class Row:
    """What a way between the interfaces does with frames of a size."""

    way: str
    size: int
    rate: float
    processor: float
    own: float
    median: float
    late: float


def output(*words: str) -> str:
    return subprocess.run(words, capture_output=True, text=True, check=True).stdout


def busy() -> float:
    """The processor seconds of the whole machine so far, less idle ones."""
    spent = [int(it) for it in Path("/proc/stat").read_text(encoding="ascii").split("\n", 1)[0].split()[1:9]]
    return (sum(spent) - spent[3] - spent[4]) / os.sysconf("SC_CLK_TCK")


def own_seconds(pid: int) -> float:
    """The processor seconds of a process."""
    return sum(int(it.read_text(encoding="ascii").split()[0]) for it in Path(f"/proc/{pid}/task").glob("*/schedstat")) / 1e9


class Bench:
    """The two namespaces, the programs, and what sends by the left one."""

    def __init__(self, given: argparse.Namespace, work: Path) -> None:
        self.given, self.work = given, work
        self.cores = sorted(os.sched_getaffinity(0))[: given.cores]
        self.traffic = work / "traffic"
        called("cc", "-O2", "-o", str(self.traffic), str(TOP / "bench/traffic.c"))
        self.image = image_of(given.program, (TOP / "examples/bridge/ports.text").read_text(encoding="utf-8"), work / "ports.image")
        self.maps = work / "ports.maps"
        self.maps.write_text(LIST, encoding="ascii")
        self.ends = Ends()

    def left(self, *words: str) -> list[str]:
        return ["taskset", "-c", str(self.cores[0]), "nsenter", "-t", str(self.ends.left), "-n", str(self.traffic), *words]

    def came(self) -> int:
        found = json.loads(output("nsenter", "-t", str(self.ends.right), "-n", "ip", "-j", "-s", "link", "show", "dev", "right0"))
        return int(found[0]["stats64"]["rx"]["packets"])

    def sending(self, size: int, rate: int) -> tuple[int, int, float, float]:
        """How many frames were sent and how many came out, in how many seconds, and the machine's processor seconds meanwhile."""
        before, spent, begin = self.came(), busy(), time.monotonic()
        sent = int(output(*self.left("send", "left0", str(size), str(self.given.seconds), str(rate))))
        seconds, spent = time.monotonic() - begin, busy() - spent
        time.sleep(0.3)
        return sent, self.came() - before, seconds, spent

    def own(self, pid: int, size: int) -> float:
        """The processor seconds of the bridge's process for a frame, the least of three."""
        found: list[float] = []
        for _ in range(3):
            before = own_seconds(pid)
            came = self.sending(size, RATE)[1]
            found.append((own_seconds(pid) - before) / came)
        return min(found)

    def row(self, way: str, size: int, alone: float, pid: int | None) -> Row:
        most = sorted(came / seconds for _, came, seconds, _ in (self.sending(size, 0) for _ in range(3)))[1]
        if not most:
            raise Wrong("no frame came out")
        every: list[float] = []
        for _ in range(3):
            sent, came, _, spent = self.sending(size, RATE)
            if came < sent:
                print(f"{way}, {size} bytes: of {sent} frames {sent - came} were lost", file=sys.stderr)
            every.append(spent / came - alone)
        said = output(*self.left("delay", "left0", f"/proc/{self.ends.right}/ns/net", "right0", str(size), str(DELAYS))).split()
        if int(said[0]) != DELAYS:
            raise Wrong(f"{way}: {said[0]} of {DELAYS} frames came out")
        return Row(
            way, size, most, min(every) * 1e9, self.own(pid, size) * 1e9 if pid else 0.0, int(said[1]) / 1e3, int(said[2]) / 1e3
        )

    @contextlib.contextmanager
    def bridge(self, name: str, flags: str) -> Iterator[int]:
        program = self.work / name
        words = [
            "bash",
            str(TOP / "examples/bridge/build.sh"),
            str(program),
            *([str(self.given.library)] if self.given.library else []),
        ]
        subprocess.run(words, env={**os.environ, "CFLAGS": f"-O2 {flags}"}, check=True)
        os.sched_setaffinity(0, self.cores[1:] or self.cores)
        there = Bridge(program, self.work, str(self.image), "in0", "out0", "--maps", str(self.maps))
        os.sched_setaffinity(0, self.cores)
        try:
            yield there.ran.pid
        finally:
            there.end()

    @contextlib.contextmanager
    def linux(self, filtered: bool) -> Iterator[None]:
        """Linux's bridge between the two, with the filter before it."""
        tool = [sys.executable, str(TOP / "tools/object.py")]
        called("ip", "link", "add", "name", "between0", "type", "bridge", "forward_delay", "0")
        try:
            for name in ("in0", "out0"):
                called("ip", "link", "set", "dev", name, "master", "between0")
            called("ip", "link", "set", "dev", "between0", "up")
            if filtered:
                words = [
                    "--load",
                    "in0",
                    str(self.image),
                    "--fill",
                    str(self.maps),
                    "--mode",
                    "generic",
                    "--xdpvm",
                    str(self.given.program),
                ]
                called(*tool, *words)
            time.sleep(1)
            yield
        finally:
            if filtered:
                subprocess.run([*tool, "--unload", "in0"], capture_output=True, check=False)
            called("ip", "link", "del", "dev", "between0")

    def filter_alone(self, size: int) -> float:
        """The processor seconds that the filter takes for a frame."""
        owns: list[float] = []
        for repeats in (1, REPEATS):
            with self.bridge("repeated", f"-Wl,--wrap=xdpvm_run -DREPEATS={repeats} {TOP}/bench/unfiltered.c") as pid:
                owns.append(self.own(pid, size))
        return (owns[1] - owns[0]) / (REPEATS - 1)

    def rows(self, size: int) -> Iterator[Row]:
        self.sending(size, RATE)
        alone = min(spent / sent for sent, _, _, spent in (self.sending(size, RATE) for _ in range(3)))
        for way, flags in (("bridge", ""), ("bridge without a filter", f"-Wl,--wrap=xdpvm_run {TOP}/bench/unfiltered.c")):
            with self.bridge(way.replace(" ", "_"), flags) as pid:
                yield self.row(way, size, alone, pid)
        for way, filtered in (("Linux's bridge, xdp, generic", True), ("Linux's bridge", False)):
            try:
                with self.linux(filtered):
                    yield self.row(way, size, alone, None)
            except Wrong as why:
                print(f"{way}: {why}", file=sys.stderr)


def main() -> int:
    words = command_line()
    words.add_argument("--library", type=Path)
    words.add_argument("--program", type=Path, default=TOP / "crates/xdpvm/out/xdpvm")
    words.add_argument("--cores", type=int, default=os.cpu_count())
    words.add_argument("--seconds", type=float, default=4)
    words.add_argument("--sizes", default="64,1500")
    words.add_argument("--inside", action="store_true", help=argparse.SUPPRESS)
    given = words.parse_args()
    need(str(given.program))
    if not given.inside:
        if not can_be_tried():
            print("forwarding.py: network namespaces with virtual interfaces cannot be made here", file=sys.stderr)
            return CANNOT
        return subprocess.run(["unshare", "-n", "-m", sys.executable, __file__, "--inside", *sys.argv[1:]], check=False).returncode
    subprocess.run(["mount", "-t", "bpf", "bpf", "/sys/fs/bpf"], capture_output=True, check=False)
    with tempfile.TemporaryDirectory() as work:
        bench = Bench(given, Path(work))
        os.sched_setaffinity(0, bench.cores)
        try:
            print(f"{'way':30} {'bytes':>6} {'frames/s':>10} {'processor':>10} {'of its own':>10} {'median':>8} {'99%':>8}")
            for size in (int(it) for it in given.sizes.split(",")):
                for row in bench.rows(size):
                    print(
                        f"{row.way:30} {row.size:6} {row.rate:10.0f} {row.processor:7.0f} ns {row.own:7.0f} ns"
                        f" {row.median:5.1f} us {row.late:5.1f} us",
                        flush=True,
                    )
                print(f"{size} bytes: the filter takes {bench.filter_alone(size) * 1e9:.0f} ns a frame", flush=True)
        finally:
            bench.ends.end()
    return 0


if __name__ == "__main__":
    sys.exit(main())
