"""Proves the functions that were changed, and what in their crates rests on their contracts, and tries the edits of them.

usage: python3 -m checks near [--since COMMIT] [--jobs N] [CRATE::FUNCTION ..]

Without a function these are all in which a line of crates/*/src differs from COMMIT (the default: HEAD), or whose answers do. A
function is named as its proof's folder is: `ranges::range::Range::alu`. Where its contract changed, each function of the crate that
calls it is proved too, and the crates above that have to be built anew are named. A proof rests on the contracts of the crate's
other functions, whose own proofs are left open. The libraries are those that the gate left in crates/*/out.
Definitions and laws (specs/, proofs/*.antt) may concern every function of a crate: they are named, and `rt check` proves the crate.

The exit status is 0 if all is proved and each edit is refused, else 1. It is no gate: `.ci/run` is.
"""
import argparse
import re
import subprocess
import time
from collections.abc import Iterator
from concurrent.futures import ThreadPoolExecutor
from dataclasses import dataclass, field

from listed import TOP

import edits
import run

HUNK = re.compile(r"^@@ -\S+ \+(\d+)(?:,(\d+))? @@")
FILE = re.compile(r"^\+\+\+ b/crates/(\w+)/(.+)$")
WRONG = re.compile(r"^fn \S+: (not proved|no proof)|error\[[\w-]+\]|rattle: error")


@dataclass
class Changed:
    """What changed in a crate: functions by their names, those whose contracts did, and files of definitions and laws."""

    functions: set[str] = field(default_factory=set)
    contracts: set[str] = field(default_factory=set)
    files: set[str] = field(default_factory=set)


def changed_lines(since: str) -> Iterator[tuple[str, str, range]]:
    """Each run of changed lines below crates/, as (crate, file, lines from 0)."""
    words = ["git", "diff", "-U0", "--no-color", "--no-ext-diff", since, "--", "crates"]
    crate, file = "", ""
    for line in subprocess.run(words, cwd=TOP, capture_output=True, text=True, check=True).stdout.splitlines():
        at, hunk = FILE.match(line), HUNK.match(line)
        if at:
            crate, file = at[1], at[2]
        elif hunk and crate in run.BELOW:
            begin, count = int(hunk[1]), int(hunk[2] or "1")
            yield crate, file, range(max(begin - 1, 0), max(begin - 1, 0) + max(count, 1))


def body_begins(lines: list[str], first: int, last: int) -> int:
    """The line in which the body of a function begins: after its contract."""
    indent = re.match(r"\s*", lines[first])
    own = (indent[0] if indent else "") + "{"
    return next((at for at in range(first, last) if lines[at] == own or lines[at].endswith(" {")), first)


def seen_in(crate: str, file: str, lines: range, found: Changed) -> None:
    """Adds what changed in these lines of a file."""
    at = TOP / "crates" / crate / file
    if file.startswith("src/") and file.endswith(".rt") and at.is_file():
        text = at.read_text(encoding="utf-8")
        inside = [it for it in edits.functions(text) if it.first <= lines[-1] and lines[0] <= it.last]
        for it in inside:
            found.functions.add(edits.shown(file, it))
            if lines[0] < body_begins(text.split("\n"), it.first, it.last):
                found.contracts.add(edits.shown(file, it))
        if not inside:
            found.files.add(file)
    elif re.match(r"proofs/.*/(Answers|Invariants|Proof)\.antt$", file):
        folder = file.split("/")[1:-1]
        known = edits.all_functions(str(TOP / "crates" / crate))
        found.functions.update(it for it in known if folder[-len(it.split("::")) :] == it.split("::"))
    elif file.endswith(".antt"):
        found.files.add(file)


def changed_since(since: str) -> dict[str, Changed]:
    found: dict[str, Changed] = {}
    for crate, file, lines in changed_lines(since):
        seen_in(crate, file, lines, found.setdefault(crate, Changed()))
    return found


def callers(crate: str, called: set[str]) -> set[str]:
    """The functions of a crate whose bodies call one of these, by their last names."""
    last = "|".join(re.escape(it.split("::")[-1]) for it in called)
    found = set()
    for file in edits.source_files(str(TOP / "crates" / crate)) if called else ():
        text = (TOP / "crates" / crate / file).read_text(encoding="utf-8")
        lines = text.split("\n")
        for it in edits.functions(text):
            begin = body_begins(lines, it.first, it.last)
            if re.search(rf"\b(?:{last})\(", "\n".join(lines[begin : it.last + 1])):
                found.add(edits.shown(file, it))
    return found


def above(crate: str) -> list[str]:
    return [it for it in run.BELOW if crate in run.BELOW[it]]


def is_proved(crate: str, name: str, said: list[str]) -> bool:
    """Says whether a function is proved, whatever holes the proofs of other functions have."""
    own = f".{name.replace('::', '.')}."
    lines = [
        it for it in said if re.match(rf"fn {crate}::(?:\S*::)?{re.escape(name)}: (?:proved|no holes|depends on a hole in )", it)
    ]
    return bool(lines) and not any(own in it for it in lines)


def prove(crate: str, names: set[str]) -> list[str]:
    """What is said of these functions where they are not proved, and of errors. The proofs rest on the contracts of the others."""
    kept = TOP / "crates" / crate / "out/near"
    kept.mkdir(parents=True, exist_ok=True)
    said = run.check(crate, {}, names, str(TOP), str(kept))
    if all(is_proved(crate, it, said) for it in names) and not any(WRONG.search(it) for it in said):
        return []
    told = [it for it in said if WRONG.search(it) or re.match(r"(note: )?\S+\.(rt|antt):\d+", it)]
    return [it for it in told if "has-holes" not in it and "goal ? in" not in it][:40] or said[-20:]


def edits_near(crate: str, names: set[str]) -> list[str]:
    """The edits of the gate and of assurance/ that change one of these functions."""
    folder = str(TOP / "crates" / crate)
    return [
        it for in_gate in (True, False) for it in run.edits_of(crate, in_gate) if edits.changed_functions(folder, it)[0] & names
    ]


def missing(crate: str) -> list[str]:
    """The crates below whose libraries are not there."""
    return [it for it in run.all_below(crate) if not (TOP / "crates" / it / "out/rlib").is_dir()]


def near(crate: str, changed: Changed) -> bool:
    """Proves what changed in a crate and tries its edits; prints what came of it."""
    begin = time.monotonic()
    names = changed.functions | callers(crate, changed.contracts)
    for file in sorted(changed.files):
        print(f"{crate}: {file} changed, which may concern each function: rt check {crate}")
    if changed.contracts and above(crate):
        print(f"{crate}: a contract changed, so these are built anew: {', '.join(above(crate))} (python3 bench/costs.py {crate})")
    if not names:
        return not changed.files
    if missing(crate):
        print(f"{crate}: the libraries of {', '.join(missing(crate))} are not there: run the gate first, bash .ci/run")
        return False
    said = prove(crate, names)
    print(
        "\n".join([f"{crate}: {len(names)} functions {'not all ' if said else ''}proved, {time.monotonic() - begin:.0f} s", *said]),
        flush=True,
    )
    paths = edits_near(crate, names)
    if said or not paths:
        return not said
    begin = time.monotonic()
    left = [path for path, why in run.try_crate(crate, paths, str(TOP)) if why]
    print(f"{crate}: {len(paths) - len(left)} of {len(paths)} edits refused, {time.monotonic() - begin:.0f} s", flush=True)
    return not left


def named(name: str) -> tuple[str, set[str]]:
    """The crate of a name, and those of its functions that the name fits."""
    crate, _, function = name.partition("::")
    known = edits.all_functions(str(TOP / "crates" / crate)) if crate in run.BELOW else set()
    return crate, {it for it in known if function == it or function.endswith("::" + it)}


def main(given: list[str]) -> int:
    words = argparse.ArgumentParser(
        prog="python3 -m checks near", description=__doc__, formatter_class=argparse.RawDescriptionHelpFormatter
    )
    words.add_argument("--since", default="HEAD", metavar="COMMIT")
    words.add_argument("--jobs", type=int, default=2, metavar="N", help="so many crates at once")
    words.add_argument("functions", nargs="*", metavar="CRATE::FUNCTION")
    asked = words.parse_args(given)
    found = {} if asked.functions else changed_since(asked.since)
    for name in asked.functions:
        crate, fits = named(name)
        if not fits:
            words.error(f"there is no function {name}")
        found.setdefault(crate, Changed()).functions |= fits
    if not found:
        print(f"nothing changed below crates/ since {asked.since}")
    with ThreadPoolExecutor(max(asked.jobs, 1)) as pool:
        return 0 if all(list(pool.map(lambda it: near(*it), found.items()))) else 1
