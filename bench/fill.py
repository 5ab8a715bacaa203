#!/usr/bin/env python3
"""Measures xdpvm_filter: the filling of a hash map of 8-byte keys from a text of 65,536 lines, the writing of what it
holds, and runs without a report beside `xdpvm run`.

usage: python3 bench/fill.py [--xdpvm PROGRAM] [--filter PROGRAM] [--times N]

All times are processor milliseconds of one process, the least of N runs (5), which take turns. Filling and writing are
the differences from a run on a text with a comment only. Files are made in a folder that is removed at the end."""
import os
import random
import struct
import subprocess
import sys
import tempfile

sys.path.insert(0, os.path.join(os.path.dirname(os.path.abspath(__file__)), "../checks"))
from common import TOP, built, command_line, measured, record, runnable, write

KEYS = 65_536
FRAMES = 200_000
LISTED = f"map hash 8 8 {KEYS}\n        r0 = 2\n        exit\n"
WANTED = 60  # milliseconds for all lines


def seconds_of(words: list[str]) -> float:
    """The processor seconds of a command."""
    ran = measured(words)
    if ran.status:
        sys.exit(f"{' '.join(words)}: status {ran.status}: {ran.err}")
    return ran.seconds


def least(commands: dict[str, list[str]], times: int) -> dict[str, float]:
    """The least milliseconds of each command."""
    found: dict[str, list[float]] = {name: [] for name in commands}
    for _ in range(times):
        for name, words in commands.items():
            found[name].append(1000 * seconds_of(words))
    return {name: min(each) for name, each in found.items()}


def main() -> None:
    """Prints the figures."""
    words = command_line()
    words.add_argument("--xdpvm", type=runnable, default=built())
    words.add_argument("--filter", type=runnable, default=built("xdpvm_filter"))
    words.add_argument("--times", type=int, default=5)
    given = words.parse_args()
    for program in (given.xdpvm, given.filter):
        if not os.access(program, os.X_OK):
            sys.exit(f"fill.py: there is no program {program}")
    with tempfile.TemporaryDirectory() as folder:
        chance = random.Random(1)
        text, image = write(f"{folder}/text", LISTED.encode()), f"{folder}/image"
        subprocess.run([given.xdpvm, "asm", text, image], stdout=subprocess.DEVNULL, check=True)
        keys = [struct.pack("<Q", key).hex() for key in chance.sample(range(1 << 48), KEYS)]
        lines = write(f"{folder}/lines", "".join(f"map 0 {key} 0100000000000000\n" for key in keys).encode())
        empty, none = write(f"{folder}/empty", b"# none\n"), write(f"{folder}/none", b"XPF1")
        run = [given.filter, image, none, f"{folder}/sent", "--maps"]
        found = least(
            {
                "empty": [*run, empty],
                "filled": [*run, lines],
                "kept": [*run, lines, "--maps-out", f"{folder}/kept"],
            },
            given.times,
        )
        filling, writing = found["filled"] - found["empty"], found["kept"] - found["filled"]
        print(f"{KEYS:,} lines into a hash map of 8-byte keys: {filling:.1f} ms ({WANTED} wanted)")
        print(f"{KEYS:,} lines written, in the order of their keys: {writing:.1f} ms")
        frame = record(1, (1, 1, 0), 0, bytes(60))
        many = write(f"{folder}/many", b"XPF1" + frame * FRAMES)
        its = [f"{TOP}/examples/firewall.image", many, "/dev/null"]
        report = ["--report", f"{folder}/report"]
        both = {
            "xdpvm run": [given.xdpvm, "run", *its],
            "xdpvm_filter": [given.filter, *its],
            "xdpvm_filter --report": [given.filter, *its, *report],
        }
        for name, took in least(both, given.times).items():
            print(f"{name}: {FRAMES:,} frames in {took:.0f} ms")


if __name__ == "__main__":
    main()
