#!/usr/bin/env python3
"""Compares the speed of filters of tcpdump's expressions with tcpdump's own: processor time a frame, on the same
frames.

usage: python3 bench/beside_tcpdump.py [--program XDPVM] [--frames N] [--turns N] [EXPRESSION ..]

N frames (1,000,000) of generated traffic are written to a capture and to a stream, which stay in the page cache. In
each turn (5) `tcpdump -r CAPTURE -w /dev/null EXPRESSION` and `xdpvm run` of the filter run one after the other, the
report into a file and the frames out to /dev/null. A row has the least processor nanoseconds a frame of both, and
their ratio. It needs tcpdump. """
import argparse
import os
import struct
import shutil
import subprocess
import sys
import tempfile

sys.path.insert(0, os.path.join(os.path.dirname(os.path.abspath(__file__)), "../checks"))
import common
from common import write

sys.dont_write_bytecode = True
import expression_frames
from expressions import Options, of_expression

EXPRESSIONS = [
    "udp port 53",
    "ip",
    "tcp",
    "host 10.0.0.1",
    "tcp[tcpflags] & tcp-syn != 0",
    "vlan and host 10.0.0.1",
    "net 10.0.0.0/8 and tcp and (port 80 or port 443)",
    "len > 100",
    "ip[2:2] = len - 14",
    "ip6 protochain 6",
]
KINDS, LONGEST, SEED = 2000, 1500, 7


def written(folder: str, count: int) -> None:
    """The capture and the stream, of the same frames."""
    maker = expression_frames.Maker(SEED)
    kinds = [maker.frame()[:LONGEST] for _ in range(KINDS)]
    with open(f"{folder}/pcap", "wb") as capture, open(f"{folder}/frames", "wb") as stream:
        capture.write(struct.pack("<IHHiIII", 0xA1B2C3D4, 2, 4, 0, 0, 0x40000, 1))
        stream.write(b"XPF1")
        for number in range(count):
            body = kinds[number % KINDS]
            capture.write(struct.pack("<IIII", number // 1000, number % 1000, len(body), len(body)) + body)
            stream.write(struct.pack("<QIII", number * 1000, 0, 0, len(body)) + body)


def taken(report: str, *words: str) -> float:
    """The processor seconds of a command."""
    ran = common.measured(words)
    if ran.status:
        sys.exit(f"{' '.join(words)}: status {ran.status}: {ran.err}")
    common.write(report, ran.out)
    return ran.seconds


def measured(given: argparse.Namespace, expression: str, folder: str) -> None:
    """Prints the row of an expression."""
    image, report = f"{folder}/image", f"{folder}/report"
    write(f"{folder}/text", of_expression(expression, Options()))
    subprocess.run([given.program, "asm", f"{folder}/text", image], stdout=subprocess.DEVNULL, check=True)
    theirs: list[float] = []
    ours: list[float] = []
    for _ in range(given.turns):
        theirs.append(taken(report, "tcpdump", "-r", f"{folder}/pcap", "-w", "/dev/null", "--", expression))
        ours.append(taken(report, given.program, "run", image, f"{folder}/frames", "/dev/null"))
    here, there = (min(it) / given.frames * 1e9 for it in (ours, theirs))
    print(f"{expression:50} tcpdump {there:5.0f} ns   xdpvm {here:5.0f} ns   ratio {here / there:.2f}", flush=True)


def main() -> None:
    words = common.command_line()
    words.add_argument("expressions", nargs="*", default=EXPRESSIONS)
    words.add_argument("--program", type=common.runnable, default=common.built())
    words.add_argument("--frames", type=int, default=1_000_000)
    words.add_argument("--turns", type=int, default=5)
    given = words.parse_args()
    common.need(shutil.which("tcpdump") or "tcpdump")
    with tempfile.TemporaryDirectory() as folder:
        written(folder, given.frames)
        for expression in given.expressions:
            measured(given, expression, folder)


if __name__ == "__main__":
    main()
