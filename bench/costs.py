#!/usr/bin/env python3
"""What a change of a crate costs to prove again: the crate and all that build on it, in processor seconds of the provers.

usage: python3 bench/costs.py [--from FILE] [CRATE ..]      (without a crate: each one, the dearest first)

A row for each crate: how many crates the gate proves again, their processor seconds (code, tests and must-fail edits),
and those of the longest chain among them, which no number of cores can beat. crates.txt says what builds on what. FILE has
the seconds of each crate, as `bench/gate.py --to` writes them (the default: bench/LOG.md); a crate that is not measured there
counts as what its files have, by the seconds a byte of the others. While you write, `rt check` proves only what you changed.
"""
import argparse
import glob
import os
import re
import sys

sys.path.insert(0, os.path.join(os.path.dirname(os.path.abspath(__file__)), "../checks"))
from common import TOP, crates_below, text_of

ROW = re.compile(r"^\| (\w+) \| (\d+) \| (\d+) \| (\d+) \| [\d.]+ \|$", re.M)


def above(graph: dict[str, list[str]], crate: str) -> list[str]:
    """The crate and all that build on it, directly or not."""
    found = [crate]
    for it in found:
        found += [name for name, below in graph.items() if it in below and name not in found]
    return found


def size_of(crate: str) -> int:
    """How many bytes the crate's code and proofs have."""
    files = [it for part in ("src", "specs", "proofs") for it in glob.glob(f"{TOP}/crates/{crate}/{part}/**/*.*", recursive=True)]
    return sum(os.path.getsize(path) for path in files if path.endswith((".rt", ".antt")))


def seconds_of(graph: dict[str, list[str]], path: str) -> tuple[dict[str, tuple[float, float]], list[str]]:
    """The seconds of each crate, with its edits and without, and which crates are estimated."""
    rows = {name: [int(it) for it in numbers] for name, *numbers in ROW.findall(text_of(path)) if name in graph}
    if not rows:
        sys.exit(f"costs.py: {path} has no table of seconds by crate")
    a_byte = sum(sum(row) for row in rows.values()) / sum(map(size_of, rows))
    left = [it for it in graph if it not in rows]
    found = {it: (float(sum(row)), float(row[0] + row[1])) for it, row in rows.items()}
    found.update({it: (size_of(it) * a_byte, size_of(it) * a_byte * 0.75) for it in left})
    return found, left


def longest(graph: dict[str, list[str]], crates: list[str], seconds: dict[str, tuple[float, float]]) -> float:
    """The seconds of the longest chain among these crates, each of which waits for the one before."""
    known: dict[str, float] = {}

    def chain(crate: str) -> float:
        if crate not in known:
            known[crate] = seconds[crate][1] + max((chain(it) for it in graph[crate] if it in crates), default=0)
        return known[crate]

    return max(map(chain, crates))


def main() -> None:
    parser = argparse.ArgumentParser(usage="costs.py [--from FILE] [CRATE ..]", description=(__doc__ or "").partition("\n")[0])
    parser.add_argument("--from", dest="path", default=f"{TOP}/bench/LOG.md", metavar="FILE", help="the seconds of each crate")
    parser.add_argument("crates", nargs="*", metavar="CRATE")
    words = parser.parse_args()
    graph = crates_below()
    for it in words.crates:
        if it not in graph:
            sys.exit(f"costs.py: there is no crate {it} in crates.txt")
    seconds, left = seconds_of(graph, words.path)
    rows = []
    for crate in words.crates or graph:
        again = above(graph, crate)
        rows.append((crate, len(again), sum(seconds[it][0] for it in again), longest(graph, again, seconds)))
    print("| a change in | proves again | processor seconds | longest chain |\n|---|---|---|---|")
    for crate, count, total, chain in rows if words.crates else sorted(rows, key=lambda row: -row[2]):
        print(f"| `{crate}` | {count} of {len(graph)} | {total:,.0f} | {chain:,.0f} |")
    if left:
        print(f"\nestimated by their size: {', '.join(left)}")


if __name__ == "__main__":
    try:
        main()
        sys.stdout.flush()
    except BrokenPipeError:
        os.dup2(os.open(os.devnull, os.O_WRONLY), 1)
