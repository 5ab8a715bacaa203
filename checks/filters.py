#!/usr/bin/env python3
"""Runs each filter of examples/filters on the frames of examples/filters/mix.txt, by one command of tools/xdp.py.

usage: python3 checks/filters.py [PROGRAM] [--clang COMPILER] [--cpu VERSION] [--only WORD]

The first line of a filter says what the result has to be, by its source and the frames:

    ok: 6 PASS, 2 DROP      it is accepted, and this many frames have each action
    refused V4              it is refused so, and the slot's line of the source is shown
    says: PATTERN           it becomes no image, and the message is this one

A line `flags: ..` has flags for the compiler, `words: ..` words for xdp.py, `gcc: ..` what the
result has to be by bpf-gcc. Sources in C are left out if there is no compiler. A remark about the
kernel was tried by tools/kernel.py. The exit status is 1 if a filter has another result.
"""
import argparse
import glob
import os
import re
import shutil
import subprocess
import sys
import tempfile

from common import PYTHON, TOP, built, command_line, runnable, text_of

FOLDER = f"{TOP}/examples/filters"
SECONDS = 600


def line_of(text: str, name: str) -> str | None:
    """The text after a name in the comments of a source."""
    found = re.search(rf"^(?:#|/\*) {name}:? (.*?)(?: \*/)?$", text, re.M)
    return found[1] if found else None


def counts(line: str) -> list[str]:
    return sorted(line.split(", "))


def wrong(path: str, given: argparse.Namespace) -> str | None:
    """What is wrong with the result for a filter: None, or a text."""
    text = text_of(path)
    with tempfile.TemporaryDirectory() as folder:
        sent = os.path.join(folder, "sent.pcapng")
        words = [PYTHON, f"{TOP}/tools/xdp.py", os.path.basename(path), "mix.txt", sent]
        words += ["--clang", given.clang, "--xdpvm", given.program]
        words += (line_of(text, "words") or "").split()
        words += ["--", *(line_of(text, "flags") or "").split(), *([f"-mcpu={given.cpu}"] if given.cpu else [])]
        try:
            ran = subprocess.run(words, cwd=FOLDER, capture_output=True, text=True, timeout=SECONDS, check=False)
        except subprocess.TimeoutExpired:
            return f"no answer in {SECONDS} seconds"
        is_sent = os.path.exists(sent)
    told = f"status {ran.returncode}\n{ran.stdout}{ran.stderr}"
    by_gcc = line_of(text, "gcc") if "gcc" in given.clang else None
    actions, code, message = (line_of(f"# {by_gcc}" if by_gcc else text, name) for name in ("ok", "refused", "says"))
    if actions:
        line = re.search(r"^8 frames: (.*)$", ran.stdout, re.M)
        return None if ran.returncode == 0 and is_sent and line and counts(line[1]) == counts(actions) else told
    if code:
        place = re.search(rf"^  {re.escape(os.path.basename(path))}:\d+: ", ran.stderr, re.M) or "gcc" in given.clang
        return None if ran.returncode == 2 and ran.stdout.startswith(f"refused {code} slot ") and place and not is_sent else told
    return (
        None
        if ran.returncode == 1 and re.search(message or "$^", ran.stderr) and "Traceback" not in ran.stderr and not is_sent
        else told
    )


def paths(given: argparse.Namespace) -> list[str]:
    """The filters that are tried."""
    found = glob.glob(f"{FOLDER}/*.text") + glob.glob(f"{FOLDER}/*.c") * bool(shutil.which(given.clang))
    return [path for path in sorted(found) if not given.only or given.only in path]


def main() -> int:
    words = command_line()
    words.add_argument("program", nargs="?", type=runnable, default=built())
    words.add_argument("--clang", default="clang")
    words.add_argument("--cpu", help="the version of instructions that clang takes: v1 to v4")
    words.add_argument("--only", help="those whose path has this word")
    given = words.parse_args()
    tried = failed = 0
    for path in paths(given):
        why, tried = wrong(path, given), tried + 1
        if why:
            failed += 1
            print(f"{os.path.relpath(path)}: {why}")
    print(f"{tried} filters, {failed} answered otherwise")
    return 1 if failed else 0


if __name__ == "__main__":
    sys.exit(main())
