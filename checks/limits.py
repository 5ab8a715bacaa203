#!/usr/bin/env python3
"""Finds numbers that are a limit and do not cite its name.

usage: python3 checks/limits.py [CRATE ..]

The limits are defined once, in isa_model/src/limits.rt and isa_model/specs/Code/Limits.antt. This
looks at the code, definitions and proofs of every crate (comments and texts aside) for their
values, and fails if it finds one that EXCEPTIONS does not explain."""
import os
import re
import sys
from collections.abc import Iterator

from common import TOP, command_line

HOME = ("isa_model/src/limits.rt", "isa_model/specs/Code/Limits.antt")

# a value that is a limit wherever it is, and what it is
VALUES = {
    512: "bytes of a call frame",
    511: "bytes of a call frame",
    513: "bytes of a call frame",
    4096: "slots, bytes of a value, of a packet or of all call frames",
    4095: "slots, bytes of a value, of a packet or of all call frames",
    4097: "slots, bytes of a value, of a packet or of all call frames",
    4116: "a packet with its head",
    9216: "bytes of a packet",
    9240: "a packet with its head",
    65536: "entries of a map",
    1000000: "steps",
    16777216: "room of the maps",
    536870912: "offset of a pointer",
}

# a value that is a limit in these forms only; {n} is the number
FORMS = (
    (
        64,
        "slots of a call frame",
        (
            r"replicate {n}\b",
            r"Slot; {n}\]",
            r"0\.\.{n}\b",
            r"slot < {n}\b",
            r"\bk < {n}\b",
            r"slots ≡ {n}\b",
            r"\bslot_in\b.*\b{n}\b",
            r"\bblank_\w+ c\..*\b{n}\b",
        ),
    ),
    (64, "bytes of a key", (r"\[u8; {n}\]", r"\[0; {n}\]", r"\[0u8; {n}\]", r"key_size ≤ {n}\b", r"key_size <= {n}\b")),
    (
        8,
        "call frames",
        (
            r"frames\S* (?:<|≤|≡|<=|==) {n}\b",
            r"depth\S* (?:<|≤|≡|<=|==) {n}\b",
            r"saved\S* (?:\+ 1 )?(?:<|≤|≡) {n}\b",
            r"callers (?:<|≤|≡) {n}\b",
            r"saved\.items (?:\+ 1 )?< {n}\b",
        ),
    ),
    (7, "callers", (r"AbstractFrame, {n}>",)),
    (16, "maps", (r"maps\S* (?:<|≤|<=|>) {n}\b", r"rows ≤ {n}\b", r"\bm < {n}\b", r"map_named w < {n}\b")),
)

# file, what the line has, and why the number is none of the limits
EXCEPTIONS = (
    ("isa_model/specs/Worked/", "", "examples that were worked out by hand have the numbers themselves"),
    ("captures/src/forms.rt", "number_at(order, head, 20)", "the bits of a link type"),
    ("live_maps/src/hints.rt", "number % 65_536", "what fits 16 bits"),
    ("captures/src/links.rt", "if high <", "the upper half of an address family, which is zero"),
    ("captures/specs/Links.antt", "(big_number 4 bytes)", "the upper half of an address family, which is zero"),
    ("captures/", "nterfaces", "the interfaces of a section"),
    ("captures/src/interfaces.rt", "MAX_INTERFACES", "the interfaces of a section"),
    ("captures/src/kinds.rt", "MAX_DESCRIBED", "the interfaces of a section"),
    ("captures/proofs/OpeningLaws.antt", "get_or head", "the bytes of a number"),
    ("map_indexes/src/arrays.rt", "(index / ", "the third and the fourth byte of a number"),
    ("stack_state/proofs/CellLaws.antt", "div-div-eq-div-mul n ", "the third and the fourth byte of a number"),
    ("word_machine/specs/Addresses.antt", "packet_index address =", "2 ^ 16 addresses lead into the packet"),
    ("known_bits/", "", "the bits of a register"),
    ("commands/src/watching.rt", "output.rdev()", "the bits of a device's major number"),
    ("commands/src/searches.rt", "const PERIOD: u32 =", "after how many explored instructions the clock is read"),
)


CHARACTER, TEXT = r"""'(?:[^'\\\n]|\\.)'""", r'''"[^"\\]*(?:\\.[^"\\]*)*"'''
ASIDE = {antt: re.compile(rf"{CHARACTER}|{TEXT}|{comment}[^\n]*", re.S) for antt, comment in ((True, "--"), (False, "//"))}
NUMBER = re.compile(r"(?<![\w.'])(0x[0-9a-fA-F_]+|0b[01_]+|[0-9][0-9_]*)(?:[ui](?:8|16|32|64|128|size))?(?!\w)")
POWER = re.compile(r"(?<![\w.'])2 \^ (24|29)\b")
IMPORT = re.compile(r"\s*(pub )?use ")
PATTERNS = [(n, str(n), what, re.compile("|".join(forms).replace("{n}", str(n)))) for n, what, forms in FORMS]


def bare(text: str, antt: bool) -> list[str]:
    """The text without comments and strings, with the same lines."""

    def without(m: re.Match[str]) -> str:
        part = m[0]
        if part.startswith("'"):
            return part
        return '""' + "\n" * part.count("\n") if part.startswith('"') else ""

    # a string may go on in the next line, and may have what looks like a comment
    lines = ASIDE[antt].sub(without, text).split("\n")
    return ["" if "use " in line and IMPORT.match(line) else line for line in lines] if antt else lines


def numbers(line: str) -> Iterator[int]:
    """The numbers of a line, in any base."""
    for m in NUMBER.finditer(line):
        # 0x1_0000 is how arithmetic on bytes spells 2 ^ 16
        if m.group(1) != "0x1_0000":
            yield int(m.group(1).replace("_", ""), 0)
    if " ^ " in line:
        for m in POWER.finditer(line):
            yield 2 ** int(m.group(1))


def found(line: str) -> Iterator[tuple[int, str]]:
    """The numbers of a line that are a limit."""
    for n in numbers(line):
        if n in VALUES:
            yield n, VALUES[n]
    for n, digits, what, pattern in PATTERNS:
        if digits in line and pattern.search(line):
            yield n, what


def main() -> None:
    parser = command_line()
    parser.add_argument("crates", nargs="*", metavar="CRATE")
    only = parser.parse_args().crates
    used = [False] * len(EXCEPTIONS)
    left = 0
    for folder, _, files in sorted(os.walk(os.path.join(TOP, "crates"))):
        parts = os.path.relpath(folder, os.path.join(TOP, "crates")).split(os.sep)
        if len(parts) < 2 or parts[1] not in ("src", "specs", "proofs") or (only and parts[0] not in only):
            continue
        if parts[0].endswith("_tests") or "tests" in parts:
            continue
        for name in sorted(files):
            path = "/".join(parts + [name])
            if path in HOME or not name.endswith((".rt", ".antt")):
                continue
            with open(os.path.join(folder, name), encoding="utf-8") as f:
                text = f.read()
            for at, line in enumerate(bare(text, name.endswith(".antt")), 1):
                for n, what in found(line):
                    why = [i for i, (p, has, _) in enumerate(EXCEPTIONS) if path.startswith(p) and has in line]
                    if why:
                        for i in why:
                            used[i] = True
                    else:
                        left += 1
                        print(f"{path}:{at}: {n} ({what}): {line.strip()[:110]}")
    if not only:
        for i, (path, has, _) in enumerate(EXCEPTIONS):
            if not used[i]:
                left += 1
                print(f"an exception that nothing needs: {path}: {has}")
    print(f"{left} numbers that stand for a limit and do not cite it")
    sys.exit(left != 0)


if __name__ == "__main__":
    main()
