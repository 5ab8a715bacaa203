#!/usr/bin/env python3
"""Says which modules of a crate took longest to prove.

usage: cd crates/NAME; rm -rf out/incremental; rt check --jobs 1; python3 ../../bench/modules.py [FOLDER] [COUNT]

The prover saves each module when it has proved it, below out/incremental (the default folder); the
time of a module is the time since the one before it was saved. A function has several: `Lts` is its
body followed step by step, and grows with the values that are alive where it can end early; `Proof`
is what the tactics found for its goals; `Answers` is what its answer file cites. COUNT is how many
lines are wanted, by default 30. A sum for each kind comes last.
"""
import collections
import os
import sys

sys.path.insert(0, os.path.join(os.path.dirname(os.path.abspath(__file__)), "../checks"))
from common import command_line


def main() -> None:
    parser = command_line()
    parser.add_argument("folder", nargs="?", default="out/incremental")
    parser.add_argument("count", nargs="?", type=int, default=30)
    given = parser.parse_args()
    saved = []
    for at, _, names in os.walk(given.folder):
        saved += [(os.stat(os.path.join(at, name)).st_mtime_ns / 1e9, name) for name in names if name.endswith(".oantt")]
    saved.sort()
    if len(saved) < 2:
        sys.exit(f"modules.py: {given.folder} has no saved modules: run rt check --jobs 1 first")
    took: list[tuple[float, str]] = []
    kinds: dict[str, float] = collections.defaultdict(float)
    for (before, _), (after, name) in zip(saved, saved[1:]):
        module = name.removesuffix(".oantt").removesuffix(".decls")
        took.append((after - before, module))
        kinds[module.rpartition(".")[2]] += after - before
    for seconds, module in sorted(took, reverse=True)[: given.count]:
        print(f"{seconds:8.1f} {module}")
    print(", ".join(f"{kind} {seconds:.0f}" for kind, seconds in sorted(kinds.items(), key=lambda it: -it[1])[:6]))


if __name__ == "__main__":
    main()
