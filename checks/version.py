#!/usr/bin/env python3
"""The version, which stands in the file VERSION: whether each place that has it says the same.

usage: python3 checks/version.py [--set X.Y.Z]

The programs, the library, its header and its example name the version, and code cannot read a file when it is compiled. With
--set the file and each of these places get another one. The exit status is 1 if a place says another. In the gate.
"""
import argparse
import os
import re
import sys

from common import TOP, command_line, text_of, write

FILE = os.path.join(TOP, "VERSION")
FORM = r"\d+\.\d+\.\d+"
PLACES = (
    ("crates/words/src/command_line.rt", rf'(pub const VERSION: &str = ")({FORM})(";)'),
    ("crates/words/src/survey_line.rt", rf'(const VERSION: &str = ")({FORM})(";)'),
    ("crates/calls/src/naming.rt", rf'(fill\(buffer, b")({FORM})("\))'),
    ("crates/run_tests/src/tests/embedding/verdicts.rt", rf'(holds\(&version, b")({FORM})("\))'),
    ("examples/embed/xdpvm.h", rf'(#define XDPVM_VERSION ")({FORM})(")'),
    ("examples/embed/embed.rs", rf'(xdpvm::version\(\), ")({FORM})("\))'),
)


def a_version(word: str) -> str:
    """A version on the command line."""
    if not re.fullmatch(FORM, word):
        raise argparse.ArgumentTypeError(f"{word}: three numbers are wanted, as 1.2.3")
    return word


def main() -> int:
    parser = command_line()
    parser.add_argument("--set", type=a_version, metavar="X.Y.Z")
    wanted = parser.parse_args().set
    if wanted:
        write(FILE, wanted + "\n")
    version, wrong = text_of(FILE).strip(), 0
    for place, pattern in PLACES:
        path = os.path.join(TOP, place)
        text = text_of(path)
        if wanted:
            write(path, re.sub(pattern, rf"\g<1>{version}\g<3>", text))
        elif [found[1] for found in re.findall(pattern, text)] != [version]:
            wrong += 1
            print(f"{place}: its version is not {version}, or is not where it was")
    print(f"version {version}, {len(PLACES)} places, {wrong} say another")
    return 1 if wrong else 0


if __name__ == "__main__":
    sys.exit(main())
