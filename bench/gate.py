#!/usr/bin/env python3
"""Runs a command that proves, such as the gate, and says how many processor seconds each crate took.

usage: python3 bench/gate.py [--most N] [--to FILE] [COMMAND ..]      (the default: rt ci)

The seconds are those of the provers (user and system), by crate: its code, its tests, and its must-fail edits, and the
greatest memory of one of them; what blocks of pages prove, as a reader would, has a line of its own. They are read from /proc
twice a second, so a prover loses half a second at most. The command's output is passed on, and its status is the script's.
--most: only the N crates that took most; --to: the table is written to a file. At the end stands the longest chain: crates of
crates.txt, each of which waits for the one before, whose code and tests take most together, so that no number of cores can be
faster. With `taskset -c 0,1` in front it all runs on two cores. In the gate: `.ci/run` prints the ten crates that took most.
"""
import argparse
import os
import subprocess
import sys
import time
from collections.abc import Iterator

sys.path.insert(0, os.path.join(os.path.dirname(os.path.abspath(__file__)), "../checks"))
from common import bytes_of, crates_below, write

TICKS = os.sysconf("SC_CLK_TCK")
Seen = dict[tuple[str, str, int], tuple[float, int]]  # seconds and megabytes of a prover: its crate, its kind and its number
KINDS = ("code", "tests", "edits")
PAGES = "pages"


def read(path: str) -> bytes:
    try:
        return bytes_of(path)
    except OSError:
        return b""


def prover(pid: int) -> tuple[str, str] | None:
    """The crate and the kind of work of a process that proves, or None."""
    words = read(f"/proc/{pid}/cmdline").decode(errors="replace").split("\0")
    if not words[0].endswith("/rattle") or "--crate-name" not in words:
        return None
    try:
        folder = os.readlink(f"/proc/{pid}/cwd")
    except OSError:
        return None
    # Edits aside only `rt check` begins with what an earlier check kept, and so a page; `rt ci` proves from nothing.
    if "/edits-" in folder or "/rt-edit-" in folder:
        kind = "edits"
    elif "--incremental" in words:
        kind = PAGES
    else:
        kind = "tests" if "--test" in words else "code"
    return words[words.index("--crate-name") + 1], kind


def sample(seen: Seen, root: int) -> None:
    """Notes the processor seconds and the peak memory (MB) of each prover that descends from the process."""
    parents, times = {}, {}
    for pid in map(int, filter(str.isdigit, os.listdir("/proc"))):
        fields = read(f"/proc/{pid}/stat").rpartition(b") ")[2].split()
        if fields:
            parents[pid], times[pid] = int(fields[1]), sum(map(int, fields[11:13])) / TICKS
    for pid, seconds in times.items():
        above = pid
        while above in parents and above != root:
            above = parents[above]
        who = prover(pid) if above == root and pid != root else None
        if who:
            peak = [line.split()[1] for line in read(f"/proc/{pid}/status").splitlines() if line.startswith(b"VmHWM")]
            seen[who + (pid,)] = seconds, int(peak[0]) // 1024 if peak else 0


def longest_chain(costs: dict[str, float]) -> tuple[list[str], float]:
    """The crates of the chain that takes most, the lowest first, and its seconds."""
    graph = crates_below()
    known: dict[str, tuple[float, tuple[str, ...]]] = {}

    def chain(crate: str) -> tuple[float, tuple[str, ...]]:
        if crate not in known:
            before = max((chain(it) for it in graph[crate]), key=lambda it: it[0], default=(0.0, ()))
            known[crate] = (before[0] + costs.get(crate, 0), (*before[1], crate))
        return known[crate]

    seconds, crates = max((chain(crate) for crate in graph), key=lambda it: it[0])
    return [crate for crate in crates if costs.get(crate, 0)], seconds


def table(seen: Seen, seconds: float, most: int | None) -> Iterator[str]:
    """The lines of the table: a row for each crate, the one that took most first, and their sum."""
    crates: dict[str, dict[str, float]] = {}
    peaks: dict[str, int] = {}
    for (crate, kind, _), (spent, peak) in seen.items():
        if kind == PAGES:
            continue
        crates.setdefault(crate, dict.fromkeys(KINDS, 0.0))[kind] += spent
        peaks[crate] = max(peaks.get(crate, 0), peak)
    yield f"{seconds:.0f} s on {len(os.sched_getaffinity(0))} cores; processor seconds of the provers:"
    yield "\n| crate | code | tests | edits | GB |\n|---|---|---|---|---|"
    for crate, row in sorted(crates.items(), key=lambda item: -sum(item[1].values()))[:most]:
        yield f"| {crate} | " + " | ".join(f"{row[kind]:.0f}" for kind in KINDS) + f" | {peaks[crate] / 1024:.1f} |"
    sums = [sum(row[kind] for row in crates.values()) for kind in KINDS]
    yield f"| all {len(crates)} | " + " | ".join(f"{it:.0f}" for it in sums) + " | |"
    by_pages = sum(spent for (_, kind, _), (spent, _) in seen.items() if kind == PAGES)
    yield f"\nblocks of pages: {by_pages:.0f} s"
    chain, longest = longest_chain({crate: row["code"] + row["tests"] for crate, row in crates.items()})
    yield f"\nthe longest chain, {longest:.0f} s of code and tests: {', '.join(chain)}"


def main() -> None:
    parser = argparse.ArgumentParser(usage="gate.py [--most N] [--to FILE] [COMMAND ..]")
    parser.add_argument("--most", type=int, metavar="N", help="only the N dearest crates")
    parser.add_argument("--to", metavar="FILE", help="write the table into a file")
    parser.add_argument("command", nargs=argparse.REMAINDER)
    words = parser.parse_args()
    began = time.time()
    seen: Seen = {}
    running = subprocess.Popen(words.command or ["rt", "ci"])
    while running.poll() is None:
        sample(seen, running.pid)
        time.sleep(0.5)
    lines = "\n".join(table(seen, time.time() - began, words.most)) + "\n"
    if words.to:
        write(words.to, lines)
    else:
        print(f"\n{lines}", end="")
    sys.exit(running.returncode)


if __name__ == "__main__":
    main()
