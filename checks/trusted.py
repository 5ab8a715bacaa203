#!/usr/bin/env python3
"""Which definitions the promises rest on: finds them, and compares them with the lists of docs/TRUSTED.md.

usage: python3 checks/trusted.py [--print | --write]

The main promise begins with the bytes of an image. So it begins here with the term that says it, and with the names in
the clauses of `Image::parse` and `host::run`, in what holds of every `Image` and of every `Verified`, and in what `recheck` says of
the `Verified` that it returns; and follows each name through the definitions of all crates/*/specs to the definitions, and to the
types and constants of crates/*/src. What the calls of the library say with status 0 and with status 2, and what a row of the survey
says, rest on more: these lists are of what comes beside the main one, and beside the one before.

With --print the rows are printed as the page has them, and with --write the page's numbers and its lists by crate are set.
The exit status is 0, or 1 if the page's rows differ. In the gate.
"""
import collections
import glob
import os
import re
import sys

from common import TOP, command_line, text_of, write
from definitions import Base, Code

PAGE = os.path.join(TOP, "docs/TRUSTED.md")

# Where a promise is: a file, the beginning of its text, and its end.
Text = tuple[str, str, str]
Rows = dict[str, int]

PROMISES: list[Text] = [
    ("crates/calls/src/streaming.rt", "    ensures promised {", "\n    ensures tally"),
    ("crates/image/src/images.rt", "pub fn parse(", "// All others"),
    ("crates/image/src/images.rt", "impl Model for Image {", "\n}"),
    ("crates/host/src/verified.rt", "pub fn run<", "\n{"),
    ("crates/bounds/src/verified.rt", "impl Model for Verified {", "\n}"),
    ("crates/rechecking/src/rechecks.rt", "pub fn recheck(", "// The bytes are a closed table"),
]
CLOSED: list[Text] = [("crates/rechecking/src/rechecks.rt", "// The bytes are a closed table", "ensures refused")]
JUDGED: list[Text] = [
    ("crates/surveys/src/judging.rt", "pub fn judge<", "\n{"),
    ("crates/survey_commands/src/tables.rt", "pub fn tested_table<", "\n{"),
]

# What the page says of a list.
FACT = re.compile(r"\d+ lines in \d+ files")

# A clause of an export, and the lines that it has.
CLAUSE = re.compile(r"^    ensures\*? \w+ \{.*?\}(?=\n    (?:ensures|requires|//)|\n\{)", re.M | re.S)


class Promise(Base):
    """The definitions that the clauses of promises rest on."""

    def add_texts(self, texts: list[Text]) -> None:
        """Adds what texts of files rest on."""
        for path, begin, end in texts:
            module = Code(path, TOP)
            text = "\n".join(module.lines)
            at = text.index(begin)
            self.add(module, text[at : text.index(end, at)])

    def add_exports(self, status: str) -> None:
        """Adds what the library's exports say where they return a status."""
        paths = sorted(glob.glob("crates/xdpvm_c/src/*.rt", root_dir=TOP))
        told = [(Code(path, TOP), path) for path in paths]
        clauses = [(module, it) for module, _ in told for it in CLAUSE.findall("\n".join(module.lines))]
        for module, clause in clauses:
            if f"result ≡ {status}" in clause:
                self.add(module, clause)

    def rows(self) -> Rows:
        """Each file with how many of its lines are needed."""
        lines: collections.Counter[str] = collections.Counter()
        for place in self.found:
            item = place.file.items[place.name]
            lines[place.file.path] += item.after - item.at
        return dict(lines)


def beside(rows: Rows, known: Rows) -> Rows:
    """What rows have that others do not have."""
    return {path: lines - known.get(path, 0) for path, lines in rows.items() if lines > known.get(path, 0)}


def said(rows: Rows) -> str:
    return f"{sum(rows.values())} lines in {len(rows)} files"


def by_crate(rows: Rows) -> list[str]:
    """Rows of the page, one a crate: its lines, and its files."""
    files: dict[str, list[str]] = collections.defaultdict(list)
    for path in sorted(rows):
        files[path.split("/")[1]].append(path)
    return [
        f"| `{crate}` | {sum(rows[path] for path in paths)} | {', '.join(short(path) for path in paths)} |"
        for crate, paths in sorted(files.items())
    ]


def short(path: str) -> str:
    """A file's name as a crate's row has it: `specs/Machine/Steps`."""
    return "`" + path.split("/", 2)[2].rsplit(".", 1)[0] + "`"


def lists() -> tuple[Rows, Rows, dict[str, Rows]]:
    """What the main promise rests on, what that a table is closed rests on beside it, and the lists by the name that the
    page has for them."""
    base = Promise()
    base.add_texts(PROMISES)
    main = base.rows()
    base.add_texts(CLOSED)
    closed = beside(base.rows(), main)
    library = Promise()
    library.add_texts(PROMISES)
    library.add_exports("OK")
    done = library.rows()
    library.add_exports("REFUSED")
    survey = Promise()
    survey.add_texts(PROMISES + JUDGED)
    more = {"status 0": beside(done, main), "status 2": beside(library.rows(), done), "a row": beside(survey.rows(), main)}
    return main, closed, more


def table_after(text: str, name: str) -> tuple[int, int]:
    """Where the rows of the list with that name begin and end in the page."""
    begin = text.index(f"| crate | lines for {name} | files |\n")
    begin = text.index("\n", text.index("\n", begin) + 1) + 1
    end = begin
    while text.startswith("|", end):
        end = text.index("\n", end) + 1
    return begin, end


def facts(main: Rows, closed: Rows, more: dict[str, Rows]) -> list[str]:
    """What the page says of each list, in its order."""
    return [said(main), *(said(rows) for rows in more.values()), said(closed)]


def written(text: str, main: Rows, closed: Rows, more: dict[str, Rows]) -> str:
    """The page with these numbers and lists."""
    for path, lines in main.items():
        text = re.sub(rf"^(\| `{re.escape(path)}` \|) \d+ \|", rf"\1 {lines} |", text, flags=re.M)
    for name, rows in more.items():
        begin, end = table_after(text, name)
        text = text[:begin] + "".join(row + "\n" for row in by_crate(rows)) + text[end:]
    after = iter(facts(main, closed, more))
    return FACT.sub(lambda _: next(after), text)


def differences(text: str, main: Rows, closed: Rows, more: dict[str, Rows]) -> list[str]:
    """What is wrong with the page."""
    page = {path: int(lines) for path, lines in re.findall(r"^\| `(crates/[^`]*)` \| (\d+) \|", text, re.M)}
    wrong = [
        f"docs/TRUSTED.md: {path}: {page.get(path)} lines, and needed are {main.get(path)}"
        for path in sorted(main.keys() | page.keys())
        if main.get(path) != page.get(path)
    ]
    if FACT.findall(text) != facts(main, closed, more):
        wrong.append(f"docs/TRUSTED.md says {FACT.findall(text)}, and there are {facts(main, closed, more)}")
    for name, rows in more.items():
        begin, end = table_after(text, name)
        if text[begin:end].splitlines() != by_crate(rows):
            wrong.append(f"docs/TRUSTED.md: the list for {name} differs: --write sets it")
    return wrong


def main() -> int:
    parser = command_line()
    for name in ("--print", "--write"):
        parser.add_argument(name, action="store_true")
    given = parser.parse_args()
    main_rows, closed, more = lists()
    text = text_of(PAGE)
    if given.print:
        for path, lines in sorted(main_rows.items()):
            print(f"| `{path}` | {lines} |")
        for name, rows in more.items():
            print(f"\n{name}: {said(rows)}", *by_crate(rows), sep="\n")
    if given.write:
        write(PAGE, written(text, main_rows, closed, more))
        return 0
    wrong = differences(text, main_rows, closed, more)
    print("\n".join(wrong + [f"the promise rests on {said(main_rows)}; that a table is closed, on {said(closed)} more"]))
    return 1 if wrong else 0


if __name__ == "__main__":
    sys.exit(main())
