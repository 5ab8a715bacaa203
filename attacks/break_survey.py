#!/usr/bin/env python3
"""Breaks xdpvm_survey from outside: makes each allocation, read and write of some command lines fail in turn, and each
opening of a file or folder, listing of a folder and emptying of a file.

usage: python3 attacks/break_survey.py [PROGRAM [FOLDER]]

PROGRAM is xdpvm_survey (the default: crates/xdpvm_survey/out/xdpvm_survey). If an allocation fails, the status is 5 and standard
error says so, or a row says `memory`; or what is known of a refusal is left out. If a read fails, its file is named, with status
4 or more, or the frame stream has a fault, with status 3; if a write or an emptying fails, the output is, or standard error got
less; it is not written to again. If a file or folder cannot be opened, or a folder not listed, standard error names it and says
why, with status 4. It never crashes, and never accepts an image that `verify` refuses. The times in a row are those of a clock
that this script sets. A proof table has what stood there before, or a beginning of the new one; nothing only where a write failed.
With FOLDER it surveys each image there by itself, once with proof tables, and shows it. It needs a C compiler (CC). The last line
is 'N tried, M wrong'. Without FOLDER in the gate.
"""
import csv
import json
import os
import re
import shutil
import subprocess
import sys
import tempfile
from collections.abc import Iterator
from pathlib import Path

sys.path.insert(0, os.path.join(os.path.dirname(os.path.abspath(__file__)), "../checks"))
import common
from common import write
from failing import Answer, Forked, Told, prepare

RUNS = (
    ["examples/filter.image", "examples/unguarded.image", "--format", "csv"],
    ["few", "--sort", "bound"],
    ["few", "--compare", "old.csv", "--format", "json"],
    ["few", "--tables", "made"],
    ["log", "examples/guarded.image"],
    ["log", "examples/unguarded.image", "--slot", "1"],
    ["log", "examples/guarded.image", "--html"],
    ["dis", "examples/guarded.image"],
    ["dis", "--dot", "examples/guarded.image"],
    ["hits", "examples/filter.image", "examples/numbers.frames"],
    ["hits", "examples/unguarded.image", "examples/two.frames", "--format", "json"],
    ["hits", "examples/quota.image", "examples/two.frames", "--maps", "examples/quota.image.maps", "--format", "csv"],
    ["steps", "examples/guarded.image", "examples/two.frames", "--frame", "1"],
    ["steps", "examples/quota.image", "examples/two.frames", "--maps", "examples/quota.image.maps", "--frame", "0", "--json"],
    ["--sort", "nothing", "few"],
    ["--what", "few"],
)
OUTPUTS = ("made/filter.table", "made/talkers.table")
TIMES = re.compile(rb" *\d+\.\d+")
# why break.c lets no file or folder be opened, and no folder be listed
REASONS = {"open": b"permission denied", "list": b"it timed out"}
KINDS = ("alloc", "read", "write", "empty", *REASONS)

# When the clock is read for the nth time, it says n * n ticks of so many nanoseconds: between its first and second reading
# pass 3 ticks, between the third and the fourth 7, and between the fifth and the sixth 11.
TICK = 1_234_567_000
TOOK = {"milliseconds": "3703.701", "prove_milliseconds": "8641.969", "recheck_milliseconds": "13580.237"}


def without_times(out: bytes) -> bytes:
    return TIMES.sub(b"T", out)


def is_shorter(answer: Answer, whole: Answer) -> bool:
    """Whether lines were left out at the end of what is known of a refusal, before the line that names its code."""
    found, all_lines = answer.err.splitlines(keepends=True), whole.err.splitlines(keepends=True)
    same = (answer.status, answer.out, found[-1:]) == (whole.status, whole.out, all_lines[-1:])
    return same and b"refused" in answer.out and found[:-1] == all_lines[: len(found) - 1]


def is_right(kind: str, answer: Answer, whole: Answer) -> bool:
    begun = all(found is None or (right or b"").startswith(found) for found, right in zip(answer.files, whole.files))
    if answer.tried_again or not begun or kind != "write" and b"" in answer.files:
        return False
    if kind in REASONS:
        is_named = re.search(rb"^cannot (read|write) \S+\n" + REASONS[kind] + b"$", answer.err, re.M)
        return answer.status == 4 and is_named is not None
    if answer.is_as(whole):
        return True
    if kind == "alloc":
        says = answer.err.endswith(b"out of memory\n") or b"memory" in answer.out
        return answer.status == 5 and says or is_shorter(answer, whole)
    if kind == "read":
        if answer.status == 3 and b"the stream cannot be read\n" in answer.err:
            return True
        return answer.status in (4, 5) and b"cannot read" in answer.err or answer.status == whole.status and answer.out == whole.out
    less_said = answer.status == whole.status and answer.out == whole.out and answer.err != whole.err
    return answer.status == 4 and b"cannot write" in answer.err or less_said


def has_right_times(program: str) -> bool:
    """Whether a row says of verify, prove and recheck how long they took by the clock."""
    env = {"LD_PRELOAD": os.path.abspath("between.so"), "TICK": str(TICK)}
    rows: list[dict[str, object]] = []
    for form in ("csv", "json"):
        words = [program, "examples/pass.image", "--tables", "made", "--format", form]
        ran = subprocess.run(words, env=env, stdin=subprocess.DEVNULL, capture_output=True, timeout=60, check=True)
        lines = ran.stdout.decode().splitlines()
        rows += csv.DictReader(lines) if form == "csv" else map(json.loads, lines)
    took = [{name: str(row[name]) for name in TOOK} for row in rows]
    if took != [TOOK, TOOK]:
        print(f"times: {took}, not {TOOK}")
    return took == [TOOK, TOOK]


def runs_of(folder: str) -> Iterator[list[str]]:
    """The command lines for the images of a folder."""
    for name in sorted(os.listdir(folder)):
        if name.endswith(".image"):
            path = os.path.join(folder, name)
            yield [path, "--format", "csv"]
            yield [path, "--tables", "made"]
            yield ["log", path, "--slot", "0"]
            yield ["dis", path]
            yield ["dis", "--dot", path]


def make_files() -> None:
    prepare()
    for name in ("few", "made"):
        os.mkdir(name)
    for name in ("filter", "talkers", "unguarded"):
        shutil.copy(f"examples/{name}.image", "few")
    write("old.csv", "file,bound,explored\nfew/filter.image,5,7\n")


def main() -> int:
    parser = common.command_line()
    parser.add_argument("program", nargs="?", type=common.runnable, default=common.built("xdpvm_survey"))
    parser.add_argument("folder", nargs="?", type=Path)
    given = parser.parse_args()
    runs = list(runs_of(str(given.folder.resolve()))) if given.folder else RUNS
    told = Told()
    with tempfile.TemporaryDirectory() as folder, Forked(given.program, OUTPUTS, without_times) as survey:
        os.chdir(folder)
        make_files()
        others = int(not has_right_times(given.program))
        for words in runs:
            whole = survey.answer(words)
            for kind in KINDS:
                for call, answer in survey.failures(words, kind):
                    told.count(words, kind, call, answer, "right" if is_right(kind, answer, whole) else None)
        os.chdir("/")
    print(f"{told.counts.total() + 1} tried, {told.wrong() + others} wrong")
    return 1 if told.wrong() + others else 0


if __name__ == "__main__":
    sys.exit(main())
