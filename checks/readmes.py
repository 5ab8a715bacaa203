#!/usr/bin/env python3
"""Tests the README of each crate, and the clauses that pages name.

usage: python3 checks/readmes.py

Each crate of crates.txt has a README.md of at most 40 lines. Each clause that a README, docs/PROOFS.md or
docs/ARCHITECTURE.md names is one of a function of that name. They write `function: clause`, or `function`: `clause`;
in a table of a README the first cell names functions and the second one begins with clauses. Every other name in a
README is one of the sources, of a crate or of a file.
"""
import glob
import os
import re
import sys
from collections.abc import Iterator

import common
from common import TOP, text_of

MOST_LINES = 40
WORD = re.compile(r"[^\W\d][\w'\-]*")


def crates() -> set[str]:
    return set(common.crates())


def heads_of(pattern: str) -> dict[str, str]:
    """The contracts of the functions of each name."""
    heads: dict[str, str] = {}
    for path in glob.glob(os.path.join(TOP, pattern), recursive=True):
        for name, head in re.findall(r"\bfn (\w+)(.*?)(?=\n\s*\{\n|\bfn |\Z)", text_of(path), re.S):
            heads[name] = heads.get(name, "") + head
    return heads


def words() -> set[str]:
    """Each name of the sources, and each name of a file or a crate."""
    found = set(crates())
    for path in glob.glob(os.path.join(TOP, "crates/*/*/**/*.*"), recursive=True):
        if path.endswith((".rt", ".antt")):
            found.update(WORD.findall(text_of(path)))
            found.add(os.path.basename(path).split(".")[0])
    return found


def named(text: str, heads: dict[str, str]) -> list[tuple[str, str]]:
    """The functions and the clauses that a text names together."""
    pairs = [it for it in re.findall(r"`([\w:]+): ([\w, ]+)`", text) if it != ("function", "clause")]
    return pairs + [it for it in re.findall(r"`([\w:]+)`: ((?:`\w+`(?:, )?)+)", text) if it[0].split("::")[-1] in heads]


def wrong_clauses(text: str, heads: dict[str, str]) -> Iterator[str]:
    """Which clauses no function of the name has."""
    for function, clauses in named(text, heads):
        head = heads.get(function.split("::")[-1], "")
        yield from (f"{function}: {it}" for it in re.findall(r"\w+", clauses) if not re.search(rf"\b{it}\b", head))


def wrong_rows(text: str, heads: dict[str, str]) -> Iterator[str]:
    """Which clauses of a README's tables no function of their row has."""
    functions = ""
    for first, second in re.findall(r"^\| ?(.*?) \| (.*) \|$", text, re.M):
        functions = first or functions
        calls = [it.split("::")[-1] for it in re.findall(r"`([\w:]+)`", functions)]
        head = "".join(heads.get(it, "") for it in calls) if calls else "".join(heads.values())
        for clauses in re.findall(r"(?:^|; |\. )((?:`\w+`, )*`\w+`): ", second):
            yield from (f"{calls}: {it}" for it in re.findall(r"\w+", clauses) if not re.search(rf"\b{it}\b", head))


def is_there(crate: str, name: str) -> bool:
    folders = ("", "crates", os.path.join("crates", crate), os.path.join("crates", crate, "src"))
    return any(glob.glob(os.path.join(TOP, folder, name) + "*") for folder in folders)


def wrong_names(crate: str, text: str, known: set[str]) -> Iterator[str]:
    """Which names in a README are nowhere in the sources."""
    text = re.sub(r"^```.*?^```$", "", text, flags=re.M | re.S)
    for name in re.findall(r"`([^`\n]+)`", text):
        if "/" in name and " " not in name:
            if not is_there(crate, name):
                yield name
        elif re.fullmatch(r"[^\W\d][\w':\-]*", name):
            parts = [it for it in name.split("::") if it]
            yield from (name for part in parts[-2:] if part not in known)


def wrong_readme(crate: str, known: set[str], everywhere: dict[str, str]) -> Iterator[str]:
    """What is wrong with the README of a crate."""
    path = os.path.join(TOP, "crates", crate, "README.md")
    text, heads = text_of(path), heads_of(f"crates/{crate}/src/**/*.rt")
    count = len(text.splitlines())
    if count > MOST_LINES:
        yield f"{count} lines"
    yield from wrong_clauses(text, everywhere)
    yield from wrong_rows(text, heads)
    yield from wrong_names(crate, text, known)


def main() -> None:
    lacking = {it for it in crates() if not os.path.exists(os.path.join(TOP, "crates", it, "README.md"))}
    wrong = [f"crates/{it}: no README.md" for it in sorted(lacking)]
    known, heads = words(), heads_of("crates/*/src/**/*.rt")
    for crate in sorted(crates() - lacking):
        wrong += [f"crates/{crate}/README.md: {it}" for it in wrong_readme(crate, known, heads)]
    for page in ("docs/PROOFS.md", "docs/ARCHITECTURE.md"):
        wrong += [f"{page}: {it}" for it in wrong_clauses(text_of(os.path.join(TOP, page)), heads)]
    for line in wrong:
        print(line)
    print(f"{len(crates()) - len(lacking)} READMEs, {len(wrong)} wrong")
    sys.exit(1 if wrong else 0)


if __name__ == "__main__":
    main()
