#!/usr/bin/env python3
"""Says which modules take longest to prove, in each crate with must-fail edits, from a run of
`rt ci` by itself: without a proof of its own.

usage: python3 bench/seeds.py FOLDER [COUNT]

`rt ci` proves such a crate once more for its edits, into a folder /tmp/rt-edits-*/seed that it
removes after them. Beside a run this script notes every five seconds when each module there was
saved, in FOLDER, and ends when there have been no such folders for ten minutes, or by ^C. Then it
tells of each crate the seconds of its proof, how they fall on kinds of modules, the seconds of
impls that derives wrote, and the COUNT dearest modules, by default 6. With FOLDER from an earlier
run and no run beside it, ^C tells of that at once. As in bench/modules.py the time of a module is
the time since the one before it was saved, so other work on the machine makes it longer.
"""
import collections
import glob
import os
import re
import sys
import time
from collections.abc import Iterable

sys.path.insert(0, os.path.join(os.path.dirname(os.path.abspath(__file__)), "../checks"))
from common import command_line

DERIVED = re.compile(r"(Debug\.fmt|PartialEq\.eq|Clone\.clone|Default\.default)\b")


def saved_in(seed: str) -> list[tuple[float, str]]:
    """When the modules of a seed were saved, and their names."""
    found = []
    for at, _, names in os.walk(seed):
        for name in names:
            if name.endswith(".oantt"):
                try:
                    found.append((os.stat(f"{at}/{name}").st_mtime_ns / 1e9, name))
                except OSError:
                    pass
    return sorted(found)


def watch(folder: str) -> None:
    """Notes in the folder what the seeds of a run have, as long as there are some."""
    noted: dict[str, int] = {}
    last = time.time()
    while time.time() - last < 600:
        for room in glob.glob("/tmp/rt-edits-*"):
            last, found = time.time(), saved_in(f"{room}/seed")
            if len(found) > noted.get(room, 0):
                noted[room] = len(found)
                with open(f"{folder}/{os.path.basename(room)}.times", "w", encoding="utf-8") as out:
                    out.writelines(f"{when:.3f} {name}\n" for when, name in found)
        time.sleep(5)


def crate_of(names: Iterable[str]) -> list[tuple[str, int]]:
    found = (re.match(r"Rattle-([a-z0-9_]+)-(?:specs|proofs)", name) for name in names)
    return collections.Counter(it[1] for it in found if it).most_common(1)


def tell(folder: str, count: int) -> None:
    """Prints what was noted of each crate."""
    crates: dict[str, list[list[str]]] = {}
    for path in glob.glob(f"{folder}/*.times"):
        with open(path, encoding="utf-8") as lines:
            rows = [line.split() for line in lines]
        for crate, _ in crate_of(name for _, name in rows):
            if len(rows) > len(crates.get(crate, [])):
                crates[crate] = rows
    told = []
    for crate, rows in crates.items():
        took, derived = [], 0.0
        kinds: dict[str, float] = collections.defaultdict(float)
        for (before, _), (after, name) in zip(rows, rows[1:]):
            module = name.removesuffix(".oantt").removesuffix(".decls").removeprefix("Rattle-")
            seconds = float(after) - float(before)
            took.append((seconds, module.removeprefix(f"{crate}-proofs.")))
            kinds[module.rpartition(".")[2].partition("-")[0]] += seconds
            derived += seconds if DERIVED.search(module) else 0
        told.append((float(rows[-1][0]) - float(rows[0][0]), crate, kinds, derived, sorted(took)))
    for seconds, crate, kinds, derived, took in sorted(told, reverse=True):
        shown = ("Lts", "Proof", "Answers", "Tie")
        by_kind = ", ".join(f"{kind} {kinds[kind]:.0f}" for kind in shown)
        print(f"{crate:16} {seconds:5.0f}  {by_kind}, derived {derived:.0f}")
        for seconds, module in took[::-1][:count]:
            print(f"{seconds:24.1f} {module}")


def main() -> None:
    parser = command_line()
    parser.add_argument("folder")
    parser.add_argument("count", nargs="?", type=int, default=6)
    given = parser.parse_args()
    os.makedirs(given.folder, exist_ok=True)
    try:
        watch(given.folder)
    except KeyboardInterrupt:
        pass
    tell(given.folder, given.count)


if __name__ == "__main__":
    main()
