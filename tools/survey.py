#!/usr/bin/env python3
"""Judges many filters of any form at once: objects with all their programs, C, texts, images. A row for each program.

usage: python3 tools/survey.py FILTER|FOLDER .. [--format table|csv|json] [--no-header] [--sort COLUMN] [--only refused]
                               [--compare OLD.csv] [--tables FOLDER] [--survey PROGRAM] [--xdpvm PROGRAM] [--btf FILE]
                               [--lru-as-hash] [--clang COMPILER] [-- FLAG ..]

A FILTER is an object, C, a text or an image, as xdp.py takes it. In a FOLDER the files that end in .o, .c, .text and .image are
judged, in the order of their names, and so are those of its folders. An object has a row for each program of its sections,
NAME.o:FUNCTION where there are several. Rows and options are those of xdpvm_survey (docs/SURVEY.md), with two columns more:
`line`, the source line of the slot that is refused, and `why`, for what becomes no image: its verdict is `none`.

--compare matches rows by their names within the FOLDER that was given, whatever that folder is called, so the builds of two
compilers in two folders can be compared. The flags after `--` go to the compiler.

examples:
    python3 tools/survey.py build/*.o
    python3 tools/survey.py one --format csv > one.csv; python3 tools/survey.py other --compare one.csv

The exit status is 0 if all are accepted, 1 for wrong arguments, 2 if one is refused or becomes no image, and else that of
xdpvm_survey.
"""
import argparse
import csv
import json
import os
import shutil
import subprocess
import sys
import tempfile
from dataclasses import replace
from collections.abc import Iterator
from typing import NamedTuple

from image import listed, read_object
from failures import Words, end, said, shown
from inputs import named
from objects import Refused
from outputs import end_by_signal
from sources import Choice, Failed, Source, TextRefused, begin_of, compiled, image_of, program_beside, the_xdpvm

ENDINGS = (".o", ".c", ".text", ".image")
COLUMNS = ["file", "verdict", "slot", "slots", "maps", "bound", "explored", "stored", "deepest", "stored_bytes", "milliseconds"]
TABLES = ["table_bytes", "prove_milliseconds", "recheck_milliseconds"]
Row = dict[str, object]


class Filter(NamedTuple):
    """A file to be judged, and its name within the folder that was given."""

    path: str
    name: str


class Program(NamedTuple):
    """A program of a filter: how its row is called, and its image with its source, or why there is none."""

    name: str
    image: str
    source: Source | None
    why: str


def filters_in(given: list[str]) -> Iterator[Filter]:
    """The files of the arguments, those of folders in the order of their names."""
    for path in given:
        if not os.path.isdir(path):
            yield Filter(path, path)
            continue
        found = sorted(os.path.join(at, name) for at, _, names in os.walk(path) for name in names if name.endswith(ENDINGS))
        if not found:
            raise Failed(f"{path}: there is no file in it that ends in {', '.join(ENDINGS)}")
        for each in found:
            yield Filter(each, os.path.relpath(each, path))


def choices(path: str, choice: Choice, folder: str) -> list[tuple[str, Choice]]:
    """The programs of an object or of C: what is added to the name of each, and how it is chosen. One of another form has one."""
    begin = begin_of(path)
    if begin == b"\x7fELF" or path.endswith(".c"):
        with open(path if begin == b"\x7fELF" else compiled(path, choice, folder), "rb") as file:
            found = [(section, name) for section, names in listed(read_object(file)).items() for name in names]
        return [("" if len(found) == 1 else f":{name}", replace(choice, section=section, program=name)) for section, name in found]
    return [("", choice)]


def programs_of(one: Filter, choice: Choice, folder: str) -> Iterator[Program]:
    """The programs of a file, each with an image in a folder of its own."""
    try:
        found = choices(one.path, choice, folder)
        if not found:
            raise Refused("it has no program")
    except (Refused, Failed, OSError, ValueError, IndexError) as why:
        yield Program(one.name, "", None, str(why).removeprefix(f"{one.path}: "))
        return
    for number, (added, its) in enumerate(found):
        work = os.path.join(folder, str(number))
        os.makedirs(work)
        try:
            image, source = image_of(one.path, its, work)
            yield Program(one.name + added, image, source, "")
        except TextRefused as refused:
            yield Program(one.name, "", None, refused.out.strip().removeprefix("refused "))
        except (Failed, OSError) as why:
            yield Program(one.name + added, "", None, str(why).removeprefix(f"{one.path}: "))


def judged(found: list[Program], given: argparse.Namespace, folder: str) -> tuple[list[Row], int]:
    """The rows of the programs, and the status of xdpvm_survey."""
    images = []
    for number, it in enumerate(found):
        if it.image:
            os.symlink(os.path.abspath(it.image), os.path.join(folder, f"{number}.image"))
            images.append(f"{number}.image")
    rows: dict[int, Row] = {}
    status = 0
    if images:
        tables = ["--tables", os.path.abspath(given.tables)] if given.tables else []
        command = [os.path.abspath(given.survey) if os.path.sep in given.survey else given.survey, "--format", "json", *tables]
        for at in range(0, len(images), 1000):
            ran = subprocess.run([*command, *images[at : at + 1000]], cwd=folder, capture_output=True, text=True, check=False)
            if ran.returncode not in (0, 2):
                sys.stderr.write(ran.stderr)
            status = max(status, ran.returncode)
            for told in map(json.loads, ran.stdout.splitlines()):
                rows[int(told["file"].removesuffix(".image"))] = told
    made = []
    for number, it in enumerate(found):
        row: Row = {"verdict": "none", **rows.get(number, {}), "file": it.name, "line": None, "why": it.why or None}
        slot = row.get("slot")
        line = it.source.line(slot) if it.source and isinstance(slot, int) else None
        if line:
            row["line"] = f"{line[0]}: {line[1]}"
        made.append(row)
    if any(not it.image for it in found):
        status = max(status, 2)
    return made, status


def text(cell: object) -> str:
    return "" if cell is None else str(cell)


def differences(rows: list[Row], path: str) -> list[Row]:
    """Each cell that differs from an earlier survey: times aside, and columns that it does not have."""
    with open(path, newline="", encoding="utf-8") as file:
        try:
            old = {row["file"]: row for row in csv.DictReader(file) if row.get("file")}
        except csv.Error as why:
            raise Failed(f"{path}: it is no survey as csv: {why}") from None
    found: list[Row] = []
    for row in rows:
        before = old.pop(str(row["file"]), None)
        if before is None:
            found.append({"file": row["file"], "column": "verdict", "old": None, "new": row["verdict"]})
            continue
        for column in [it for it in COLUMNS[1:] if it != "milliseconds"]:
            if column in before and before[column] != text(row.get(column)):
                found.append({"file": row["file"], "column": column, "old": before[column], "new": row.get(column)})
    return found + [{"file": name, "column": "verdict", "old": row.get("verdict"), "new": None} for name, row in old.items()]


def show(rows: list[Row], columns: list[str], given: argparse.Namespace) -> None:
    """Prints rows in the format that is wanted."""
    if given.format == "json":
        for row in rows:
            print(json.dumps({column: row.get(column) for column in columns}, sort_keys=True))
        return
    cells = ([] if given.no_header else [columns]) + [[text(row.get(column)) for column in columns] for row in rows]
    if given.format == "csv":
        csv.writer(sys.stdout, lineterminator="\n").writerows(cells)
        return
    table = [[shown(cell) for cell in row] for row in cells]
    widths = [max((len(row[at]) for row in table), default=0) for at in range(len(columns))]
    for line in table:
        print("  ".join(cell.ljust(width) for cell, width in zip(line, widths)).rstrip())


def in_order(rows: list[Row], column: str) -> list[Row]:
    """Texts from a to z, numbers from the greatest to the least; what has none comes last."""
    numbers = [row for row in rows if isinstance(row.get(column), (int, float))]
    texts = [row for row in rows if isinstance(row.get(column), str)]
    rest = [row for row in rows if row.get(column) is None]
    return sorted(numbers, key=lambda row: -float(str(row[column]))) + sorted(texts, key=lambda row: str(row[column])) + rest


def arguments() -> argparse.Namespace:
    """The words of the command line."""
    words = sys.argv[1:]
    cut = words.index("--") if "--" in words else len(words)
    parser = Words(
        description=named(__doc__ or ""),
        formatter_class=argparse.RawDescriptionHelpFormatter,
        usage=named("python3 tools/survey.py FILTER|FOLDER .. [OPTION ..]"),
    )
    parser.add_argument("filters", metavar="FILTER", nargs="+")
    parser.add_argument("--format", choices=["table", "csv", "json"], default="table")
    parser.add_argument("--no-header", action="store_true")
    parser.add_argument("--sort", metavar="COLUMN", choices=COLUMNS)
    parser.add_argument("--only", choices=["refused"])
    parser.add_argument("--compare", metavar="OLD.csv")
    parser.add_argument("--tables", metavar="FOLDER")
    parser.add_argument("--survey", metavar="PROGRAM", default=program_beside("xdpvm_survey"))
    parser.add_argument("--xdpvm", metavar="PROGRAM", default=the_xdpvm())
    parser.add_argument("--btf", metavar="FILE")
    parser.add_argument("--lru-as-hash", action="store_true")
    parser.add_argument("--clang", metavar="COMPILER", default="clang")
    given = parser.parse_intermixed_args(words[:cut])
    given.flags = words[cut + 1 :]
    return given


def main() -> int:
    given = arguments()
    for program in (given.survey, given.xdpvm):
        if not shutil.which(program):
            end(f"survey.py: there is no program {program}; `bash install.sh FOLDER` makes one")
    end_by_signal()
    choice = Choice(given.xdpvm, clang=given.clang, flags=given.flags, btf=given.btf, lru_as_hash=given.lru_as_hash)
    try:
        with tempfile.TemporaryDirectory() as folder:
            found: list[Program] = []
            for number, one in enumerate(filters_in(given.filters)):
                work = os.path.join(folder, f"of{number}")
                os.makedirs(work)
                found += programs_of(one, choice, work)
            rows, status = judged(found, given, folder)
        accepted = sum(row["verdict"] == "ok" for row in rows)
        print(f"{accepted} accepted, {len(rows) - accepted} refused or without an image", file=sys.stderr)
        if given.compare:
            show(differences(rows, given.compare), ["file", "column", "old", "new"], given)
            return status
        rows = [row for row in rows if not given.only or row["verdict"] != "ok"]
        columns = COLUMNS + (TABLES if given.tables else []) + ["line", "why"]
        show(in_order(rows, given.sort) if given.sort else rows, columns, given)
        return status
    except BrokenPipeError:
        os.dup2(os.open(os.devnull, os.O_WRONLY), 1)
        return 1
    except OSError as why:
        end(f"survey.py: {said(why)}")
    except (Failed, UnicodeDecodeError) as why:
        end(f"survey.py: {why}")


if __name__ == "__main__":
    sys.exit(main())
