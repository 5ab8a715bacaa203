#!/usr/bin/env python3
"""Runs the blocks of docs/TOUR.md that check a crate, and prints each whose result is not what the page says.

usage: python3 checks/tour.py [--whole]

Such a block begins with the crate's name. Its commands stand after `$`: `sed -i` changes the crate, `rt check --only FUNCTION`
checks it. The blocks of a crate change different functions, so that they share a copy of it: the first check of each is one
check there, and so is the second. The lines after a check have to be among those that it prints, in their order; `..` in them
stands for anything. A check without lines has to prove its function. The libraries below are those that the gate, or `rt check`,
left in crates/*/out; where they are not there, they are proved first. Each row of the page's
table of a frame names functions that its files have, its table of costs has what bench/costs.py prints, and the code and the edit
that it shows stand in the crate. The last line counts, and the exit status is 1 if any block or row differs.

--whole runs the blocks `sh` and no others, in a fresh clone: some two minutes. No program was built before, but for those in
XDG_CACHE_HOME, where that is set.
"""
import glob
import os
import re
import shlex
import shutil
import subprocess
import sys
import tempfile
from typing import NoReturn

import common
from common import TOP, command_line, text_of
import run

PAGE = os.path.join(TOP, "docs/TOUR.md")
COMMAND = re.compile(r"^\$ (.*)\n((?:(?!\$ ).*\n)*)", re.M)


def libraries_for(crates: set[str], room: str) -> str:
    """The folder with the libraries below these crates: the repository, or a room in which they are proved."""
    below = {it for crate in crates for it in run.all_below(crate)}
    if all(os.path.exists(f"{TOP}/crates/{it}/out/rlib/{it}.rlib") for it in below):
        return TOP
    run.build_libraries(room, crates)
    return room


def checked(crate: str, functions: list[str], libraries: str, room: str) -> list[str]:
    """What a check of functions of the crate in the room prints. It begins with what an earlier one there kept, as `rt check`."""
    only = [word for it in functions for word in ("--only", f"{crate}::{it}")]
    words = [f"{run.KIT}/bin/rattle", "check", *run.words(crate, libraries), *only, "--incremental", f"{room}/out"]
    return common.said_by(words, room)[1].splitlines()


def fits(wanted: list[str], said: list[str]) -> bool:
    """Says whether the wanted lines are among those that were printed, in their order."""
    rest = iter(said)
    return all(any(re.fullmatch(".*".join(map(re.escape, line.split(".."))), it) for it in rest) for line in wanted)


class Block:
    """A block of a crate, whose commands are done one after the other; and how it differs from what is wanted, empty if it does
    not."""

    def __init__(self, crate: str, body: str) -> None:
        self.crate = crate
        self.left: list[tuple[str, str]] = COMMAND.findall(body)
        self.wrong = "" if self.left else "it has no command"

    def functions(self, room: str) -> list[str]:
        """The functions of its next check, once the crate in the room is changed as the commands before it say; empty if none
        is left."""
        while self.left and not self.wrong:
            command, words = self.left[0][0], shlex.split(self.left[0][0])
            if words[:3] == ["rt", "check", "--only"]:
                return words[3::2]
            if words[:2] == ["sed", "-i"]:
                before = text_of(f"{room}/{words[-1]}")
                subprocess.run(words, cwd=room, check=True)
                self.wrong = f"{command}: it changes nothing" if text_of(f"{room}/{words[-1]}") == before else ""
            else:
                self.wrong = f"{command}: no command of such a block"
            del self.left[0]
        return []

    def compare(self, functions: list[str], said: list[str]) -> None:
        """Compares what a check of these functions has to print with what was printed."""
        command, wanted = self.left.pop(0)
        lines = wanted.splitlines() or [f"fn {self.crate}::{it}: proved" for it in functions]
        if not fits(lines, said):
            answered = "\n".join(said)[-3000:]
            self.wrong = f"{command}\nwanted:\n" + "\n".join(lines) + f"\nanswered:\n{answered}"


def wrong(crate: str, bodies: list[str], libraries: str) -> list[str]:
    """How each block of a crate differs from what is wanted; empty where it does not."""
    blocks = [Block(crate, body) for body in bodies]
    with tempfile.TemporaryDirectory(prefix="tour-") as room:
        for part in run.PARTS:
            shutil.copytree(f"{TOP}/crates/{crate}/{part}", f"{room}/{part}")
        while asked := [(it, functions) for it in blocks if (functions := it.functions(room))]:
            said = checked(crate, [name for _, functions in asked for name in functions], libraries, room)
            for it, functions in asked:
                it.compare(functions, said)
    return [it.wrong for it in blocks]


def wrong_row(files: str, functions: str) -> str:
    """The functions of a row that its files do not have; empty if they have all."""
    paths = [f"{TOP}/crates/{it}" for it in re.findall(r"`([^`]+)`", files)]
    code = "".join(text_of(it) for it in paths if os.path.isfile(it))
    names = [it.split("::")[-1] for it in re.findall(r"`([^`]+)`", functions)]
    lost = [it for it in names if not re.search(rf"\bfn {it}\b", code)]
    return f"{files} has no function {', '.join(lost)}" if lost else ""


def costs(page: str) -> list[str]:
    """How each row of what a change costs differs from what bench/costs.py prints; empty where it does not. A
    percent is the size of a crate that is estimated."""
    rows = re.findall(r"^\| `(\w+)` \| (\d+) of (\d+) \| ([\d,]+) \| ([\d,]+) \|$", page, re.M)
    printed = subprocess.run(
        [sys.executable, f"{TOP}/bench/costs.py", *(it[0] for it in rows)], capture_output=True, text=True, check=True
    ).stdout
    now = re.findall(r"^\| `(\w+)` \| (\d+) of (\d+) \| ([\d,]+) \| ([\d,]+) \|$", printed, re.M)

    def is_near(one: str, other: str) -> bool:
        a, b = (int(it.replace(",", "")) for it in (one, other))
        return abs(a - b) * 100 <= b

    return [
        "" if old[:3] == new[:3] and all(map(is_near, old[3:], new[3:])) else f"{old[0]}: costs.py prints {new}"
        for old, new in zip(rows, now)
    ]


def told(found: list[str]) -> NoReturn:
    """Prints what differs, and the count, and ends."""
    for it in filter(None, found):
        print(it)
    print(f"{len(found)} examples, {sum(map(bool, found))} differ")
    sys.exit(1 if any(found) or not found else 0)


def shown(page: str) -> list[str]:
    """How the code and the edit that the page shows differ from the crate's; one empty text where they do not."""
    code = [it.strip() for it in text_of(f"{TOP}/crates/known_bits/src/bits.rt").splitlines()]
    lines = [it.strip() for body in re.findall(r"^```rust\n(.*?)^```$", page, re.M | re.S) for it in body.splitlines()]
    edits = {text_of(it).strip() for it in glob.glob(f"{TOP}/crates/known_bits/must-fail/*.edit")}
    bodies = re.findall(r"^```text\n(.*?)^```$", page, re.M | re.S)
    lost = [it for it in lines if it not in code] + [it for it in bodies if it.strip() not in edits]
    return [f"this is not in known_bits: {it}" for it in lost] or [""]


def whole(page: str) -> list[str]:
    """How the blocks `sh` differ from what is wanted, one after the other in a fresh clone; empty where they do not."""
    found = []
    with tempfile.TemporaryDirectory(prefix="tour-clone-") as room:
        trusted = {"GIT_CONFIG_COUNT": "1", "GIT_CONFIG_KEY_0": "safe.directory", "GIT_CONFIG_VALUE_0": "*"}
        own = {**os.environ, **trusted, "XDG_CACHE_HOME": os.environ.get("XDG_CACHE_HOME") or f"{room}/cache"}
        wanted = iter([r"(?m)^logic=proved functions=11\b", r"(?m)^\d+ cases, 0 differ$"])
        for kind, body in re.findall(r"^```(sh|known_bits)\n(.*?)^```$", page, re.M | re.S):
            at = f"{room}/xdpvm" if os.path.isdir(f"{room}/xdpvm") else room
            if kind == "known_bits":
                for command in re.findall(r"^\$ (sed -i .*)$", body, re.M):
                    subprocess.run(shlex.split(command), cwd=f"{at}/crates/known_bits", check=True)
                continue
            script = "set -e\n" + body.replace("git clone URL", f"git clone -q {shlex.quote(TOP)}")
            status, said = common.said_by(["bash", "-c", script], at, own)
            is_fine = status == 0 and re.search(next(wanted), said)
            found.append("" if is_fine else f"{body}ended with status {status}:\n{said[-3000:]}")
    return found


def main() -> None:
    parser = command_line()
    parser.add_argument("--whole", action="store_true")
    page = text_of(PAGE)
    if parser.parse_args().whole:
        told(whole(page))
    blocks = [it for it in re.findall(r"^```(\w+)\n(.*?)^```$", page, re.M | re.S) if it[0] in run.BELOW]
    rows = re.findall(r"^\| (`\w+/src/\S+.*?) \| (.*?) \|", page, re.M)
    crates = sorted({crate for crate, _ in blocks})
    with tempfile.TemporaryDirectory(prefix="tour-libraries-") as room:
        libraries = libraries_for(set(crates), room)
        found = [it for crate in crates for it in wrong(crate, [body for name, body in blocks if name == crate], libraries)]
    found += [wrong_row(*row) for row in rows] + costs(page) + shown(page)
    told(found if blocks and rows else ["the page has no blocks or no rows"])


if __name__ == "__main__":
    main()
