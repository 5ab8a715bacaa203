#!/usr/bin/env python3
"""The files of crates, each with what its first line says that it has.

usage: python3 checks/file_map.py [CRATE ..]
       python3 checks/file_map.py --check

The first prints the files of src/, specs/ and proofs/ of the crates (of all). Files that only export others (lib.rt, Lib.antt, and
those beside a folder of their name), and the answers of single functions in folders of proofs/, are left out.

--check says where docs/ARCHITECTURE.md and the tree differ: a crate that is not in the page's table of crates, a file that the
section of a crate names (`src/NAME`, `specs/NAME`, `proofs/NAME`; `*` is any name) and that is not there, a file without a first
line. The exit status is 1 if there is any. In the gate.
"""
import fnmatch
import re
import sys
from collections.abc import Iterator
from pathlib import Path

import common
from common import command_line

TOP = Path(__file__).resolve().parent.parent
FOLDERS = {"src": ".rt", "specs": ".antt", "proofs": ".antt"}
PARTS = ("Answers", "Invariants")  # of one function each


def files_of(crate: Path, folder: str) -> dict[str, Path]:
    """The files of a crate's folder by their paths without ending, except those that only export others."""
    base = crate / folder
    found = {str(path.relative_to(base).with_suffix("")): path for path in sorted(base.rglob(f"*{FOLDERS[folder]}"))}
    return {
        name: path
        for name, path in found.items()
        if name not in ("lib", "main", "Lib") and path.stem not in PARTS and not (base / name).is_dir()
    }


def first_line(path: Path) -> str:
    """What a file says that it has: the comment that it begins with, up to a full stop or an empty line."""
    lines: list[str] = []
    with path.open(encoding="utf-8") as file:
        for line in file:
            mark = re.match(r"(//!|--) ?(.*)", line)
            if not mark or not mark[2].strip():
                break
            lines.append(mark[2].strip())
            if line.rstrip().endswith("."):
                break
    return " ".join(lines)


def sections(page: str, crates: list[str]) -> dict[str, str]:
    """The text of each crate's section."""
    parts = re.split(r"^#+ (.*)$", page, flags=re.M)
    return {title: text for title, text in zip(parts[1::2], parts[2::2]) if title in crates}


def wrong(top: Path) -> Iterator[str]:
    """What the page says that the tree does not, and what either leaves out."""
    page, crates = (top / "docs/ARCHITECTURE.md").read_text(encoding="utf-8"), list(common.crates(str(top)))
    listed = {name for cell in re.findall(r"^\| ([^|*]*) \|", page, re.M) for name in re.findall(r"`(\w+)`", cell)}
    found = sections(page, crates)
    for crate in crates:
        if crate not in listed:
            yield f"{crate}: not in the table of crates"
        for folder in FOLDERS:
            there = files_of(top / "crates" / crate, folder)
            everything = {
                str(path.relative_to(top / "crates" / crate / folder).with_suffix(""))
                for path in (top / "crates" / crate / folder).rglob("*")
            }
            for name in sorted(set(re.findall(rf"`{folder}/([\w/*]+)`", found.get(crate, "")))):
                if not fnmatch.filter(everything, name):
                    yield f"{crate}: {folder}/{name} is on the page, and not in the tree"
            for name, path in there.items():
                if not first_line(path):
                    yield f"{crate}: {folder}/{name} does not say on its first line what it has"


def main() -> None:
    parser = command_line()
    parser.add_argument("--check", action="store_true")
    parser.add_argument("crates", nargs="*", metavar="CRATE")
    given = parser.parse_args()
    if given.check:
        found = list(wrong(TOP))
        print("\n".join(found + [f"docs/ARCHITECTURE.md: {len(found)} differences from the tree"]))
        sys.exit(1 if found else 0)
    there = common.crates()
    for crate in given.crates or there:
        if crate not in there:
            sys.exit(f"file_map.py: there is no crate {crate}")
        print(crate)
        for folder in FOLDERS:
            for name, path in files_of(TOP / "crates" / crate, folder).items():
                print(f"  {folder}/{name}: {first_line(path)}")


if __name__ == "__main__":
    main()
