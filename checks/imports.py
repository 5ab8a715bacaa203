#!/usr/bin/env python3
"""Lets the proofs of a crate import what many of them cite from one file, and says where they do not.

usage: python3 checks/imports.py [--write] [CRATE ..]        (without a crate: all)

`proofs/Common.antt` passes names on: those of each file of specs/, and of each file of another crate, that three or more proofs
of the crate import from. A proof that would import from two such files has one line for them in place of its own. --write makes it
so. The exit status is 1 if a file would be written anew.
"""
import collections
import functools
import re
import sys
from collections.abc import Iterable
from pathlib import Path
from typing import NamedTuple

from common import TOP, command_line
from run import KIT

LEAST = 3  # so many files import from a file that is passed on
CRATES = Path(TOP, "crates")
USE = re.compile(r"use ([\w.]+)\.\{(.*)\}$")
PASSED = re.compile(r"(?:unfoldable )?pub use ([\w.]+)\.\{(.*)\}$")
UNFOLDABLE = re.compile(r"^unfoldable pub (\S+) :", re.MULTILINE)
MODULE = re.compile(r"(?:pub )?mod (\w+)$")
STD = "Rattle.std.proofs.Common"  # the kit's file of this kind; what Rattle.std.specs.Prelude declares comes from there, too
PRELUDE = "Rattle.std.specs.Prelude"
HEAD = "-- The names that most proofs of this crate cite, passed on from one place. Declares nothing."

Name = tuple[str, str]  # where it is imported from, and what it is called


class Proof(NamedTuple):
    """A file of proofs/: its lines, and what each line that imports names asks for."""

    path: Path
    lines: list[str]
    asked: dict[int, list[Name]]


def names_in(row: re.Match[str]) -> list[Name]:
    return [(row[1], it.strip()) for it in row[2].split(",")]


def passed_on(path: Path) -> dict[str, str]:
    """Where the names of a file come from that passes names on."""
    rows = map(PASSED.match, path.read_text(encoding="utf-8").splitlines()) if path.exists() else []
    return {name: home for row in rows if row for home, name in names_in(row)}


def read(crate: str, of_std: dict[str, str]) -> list[Proof]:
    """The proofs of a crate. What they import from the crate's Common is asked of where it comes from."""
    own, folder = f"Rattle.{crate}.proofs", CRATES / crate / "proofs"
    known = passed_on(folder / "Common.antt")
    found = []
    for path in sorted(folder.rglob("*.antt")):
        lines, asked = path.read_text(encoding="utf-8").split("\n"), {}
        for at, line in enumerate(lines):
            row = USE.match(line)
            if not row or " as " in line or row[1] != f"{own}.Common" and row[1].startswith(own):
                continue
            names = [(known[name], name) if home.startswith(own) else (home, name) for home, name in names_in(row)]
            asked[at] = [(STD, name) if home == PRELUDE and of_std.get(name) == PRELUDE else (home, name) for home, name in names]
        if path != folder / "Common.antt":
            found.append(Proof(path, lines, asked))
    return found


def homes(proofs: Iterable[Proof]) -> dict[str, str]:
    """The names that may be passed on, each with the file that most proofs mean by it."""
    users: dict[Name, set[Path]] = collections.defaultdict(set)
    files: dict[str, set[Path]] = collections.defaultdict(set)
    for proof in proofs:
        for home, name in (it for row in proof.asked.values() for it in row):
            users[home, name].add(proof.path)
            files[home].add(proof.path)
    found: dict[str, str] = {}
    for (home, name), _ in sorted(users.items(), key=lambda it: (-len(it[1]), it[0])):
        if len(files[home]) >= LEAST:
            found.setdefault(name, home)
    return found


def written(crate: str, proof: Proof, home_of: dict[str, str]) -> tuple[list[str], list[Name]]:
    """The lines of a proof that imports what it can from Common, and what it imports from there."""
    rows: dict[str, list[str]] = {}  # the names that a file is asked for, in the order of the lines
    for home, name in (it for row in proof.asked.values() for it in row):
        rows.setdefault(home, []).append(name)
    from_common = [home for home, names in rows.items() if all(home_of.get(it) == home for it in names)]
    if len(from_common) < 2:
        from_common = []
    passed = [(home, name) for home in from_common for name in dict.fromkeys(rows[home])]
    lines, done = [], set[str]()
    for at, line in enumerate(proof.lines):
        if at not in proof.asked:
            lines.append(line)
            continue
        for home in dict.fromkeys(home for home, _ in proof.asked[at]):
            where = f"Rattle.{crate}.proofs.Common" if home in from_common else home
            if where not in done:
                names = [name for _, name in passed] if home in from_common else list(dict.fromkeys(rows[home]))
                lines.append(f"use {where}.{{{', '.join(names)}}}")
                done.add(where)
    return lines, passed


def rank(crate: str, home: str) -> tuple[int, str]:
    """The order of imports: std's, then those of lower crates, then the crate's own."""
    its = home.split(".")[1]
    return 0 if home == STD else 1 if its == "std" else 3 if its == crate else 2, home


@functools.cache
def unfoldable_in(home: str) -> set[str]:
    """The names that other modules may unfold, of a file of this repository or of the kit."""
    _, crate, *rest = home.split(".")
    paths = [Path(top, crate, *rest).with_suffix(".antt") for top in (CRATES, Path(KIT, "rattle"))]
    return {it for path in paths if path.exists() for it in UNFOLDABLE.findall(path.read_text(encoding="utf-8"))}


def common_of(crate: str, passed: Iterable[Name]) -> str:
    """The text of a crate's Common."""
    rows: dict[tuple[str, str], list[str]] = {}
    for home, name in passed:
        how = "unfoldable pub use" if name in unfoldable_in(home) else "pub use"
        if name not in rows.setdefault((home, how), []):
            rows[home, how].append(name)
    order = sorted(rows, key=lambda it: (*rank(crate, it[0]), it[1]))
    return "\n".join([HEAD, *(f"{how} {home}.{{{', '.join(rows[home, how])}}}" for home, how in order), ""])


def with_module(text: str) -> str:
    """The text of a Lib that names Common."""
    lines = text.splitlines()
    if any(row and row[1] == "Common" for row in map(MODULE.match, lines)):
        return text
    at = next((at for at, line in enumerate(lines) if (row := MODULE.match(line)) and row[1] > "Common"), len(lines))
    return "\n".join([*lines[:at], "mod Common", *lines[at:], ""])


def changes(crate: str, of_std: dict[str, str]) -> dict[Path, str]:
    """The files of a crate's proofs that would be written anew."""
    proofs = read(crate, of_std)
    home_of = homes(proofs)
    texts, every = {}, []
    for proof in proofs:
        lines, passed = written(crate, proof, home_of)
        every += passed
        if lines != proof.lines:
            texts[proof.path] = "\n".join(lines)
    folder = CRATES / crate / "proofs"
    if every:
        common, lib = folder / "Common.antt", folder / "Lib.antt"
        text = common_of(crate, every)
        if not common.exists() or text != common.read_text(encoding="utf-8"):
            texts[common] = text
        lib_text = texts.get(lib, lib.read_text(encoding="utf-8"))
        if with_module(lib_text) != lib_text:
            texts[lib] = with_module(lib_text)
    return texts


def main() -> int:
    parser = command_line()
    parser.add_argument("--write", action="store_true")
    parser.add_argument("crates", nargs="*", metavar="CRATE")
    given, of_std = parser.parse_args(), passed_on(Path(KIT, "rattle/std/proofs/Common.antt"))
    wrong = []
    for crate in given.crates or sorted(it.parent.name for it in CRATES.glob("*/proofs")):
        texts = changes(crate, of_std)
        if given.write:
            for path, text in texts.items():
                path.write_text(text, encoding="utf-8")
        else:
            wrong += [f"{it.relative_to(CRATES)}: python3 checks/imports.py --write {crate}" for it in sorted(texts)]
    print(*wrong, f"{len(wrong)} files import otherwise", sep="\n")
    return 1 if wrong else 0


if __name__ == "__main__":
    sys.exit(main())
