#!/usr/bin/env python3
"""Counts what makes proofs hard to keep, and compares it with what is allowed: it may only become less.

usage: python3 checks/hygiene.py [--each KIND]

unnamed    lemmas of proofs/ that no other proof, no README of a crate and not docs/PROOFS.md names, so that nothing uses them;
           files of computed examples (NAMEExamples.antt) aside
twice      statements that stand word for word in two files of proofs/, besides those of hand proofs
answers    functions with more than 150 lines of answers
arguments  statements of proofs/ with more than 20 arguments and premises
blanks     runs of five `_` or more in proofs/
copies     private functions whose only clause is that the result is what the definition of their own name in specs/ says. That
           says the body again. Those that are left are ones on which the contract of a caller rests: what `verify`, `asm`,
           `explain` and others print and accept is promised byte by byte, by definitions that are made of these. Definitions
           of isa_model, as insn_codec's and checked_vm's, are the standard's, and do not count
needless   those of them whose definition no other definition, no other clause and no proof names

--each KIND prints each of a kind with its place. The exit status is 1 if there are more of a kind than LIMITS says. In the gate.
"""
import collections
import functools
import re
import sys
from collections.abc import Iterable, Iterator
from pathlib import Path
from typing import NamedTuple

from common import TOP, command_line

LIMITS = {"unnamed": 0, "twice": 0, "answers": 1, "arguments": 6, "blanks": 152, "copies": 287, "needless": 0}
MOST_LINES, MOST_ARGUMENTS = 150, 20
CRATES = Path(TOP, "crates")
WORD = re.compile(r"[^\s(){},;:\"\[\].|]+")
HEAD = re.compile(r"(?:pub )?([^\W\d][^\s:(){}.]*) :(?: |$)")
BINDER = re.compile(r"[({]([^():{}]+) :")
BLANKS = re.compile(r"(?:(?<![^\s(])_\s+){4,}_(?![^\s)])")
FUNCTION = re.compile(r"^( *)(pub(?:\(\w+\))? )?(?:const )?fn (\w+)", re.MULTILINE)
RESULT = re.compile(r"\bresult(?:\.now)? ≡ (?:spec\.)?(\w+)")
CLAUSE = re.compile(r"\bensures(?: \w+)? \{")
IMPORT = re.compile(r"use Rattle\.(\w+)\.")
DEFINITION = re.compile(r"(?:(?:abbrev|unfoldable|pub) )+([^\W\d][^\s:(){}.]*) :(?: |$)")
NO_LEMMA = re.compile(r"Examples\.antt:|/The[A-Z]\w*/")  # computed examples, and what a trait asks for


class Lemma(NamedTuple):
    """A statement with its proof: where it is, its name, its type, and its lines."""

    place: str
    name: str
    type: str
    lines: list[str]


@functools.cache
def every_file() -> list[Path]:
    """The files of the crates that no build made."""
    return [path for path in sorted(CRATES.rglob("*.*")) if "out" not in path.relative_to(CRATES).parts]


def files(*endings: str) -> Iterator[Path]:
    """Those of them by these endings."""
    return (path for path in every_file() if path.suffix in endings)


@functools.cache
def lines_of(path: Path) -> list[str]:
    return path.read_text(encoding="utf-8").split("\n")


def words_of(lines: Iterable[str]) -> list[str]:
    """The words of lines that are no remarks."""
    return WORD.findall("\n".join(line for line in lines if not line.lstrip().startswith(("--", "//"))))


@functools.cache
def counts_of(path: Path) -> collections.Counter[str]:
    """How often a file has each word, remarks aside."""
    return collections.Counter(words_of(lines_of(path)))


def lemmas(path: Path, head: re.Pattern[str] = HEAD) -> Iterator[Lemma]:
    """The statements of a file of proofs, or the definitions of one of specs/, which begin at its margin."""
    lines = lines_of(path)
    for at, line in enumerate(lines):
        found = head.match(line)
        if found:
            own = (" ", "unfolding", f"{found[1]} ")
            end = next(
                (it for it in range(at + 1, len(lines)) if not (lines[it].startswith(own) or lines[it] == found[1])), len(lines)
            )
            begin = next((it for it in range(at + 1, end) if not lines[it].startswith("   ")), end)
            stated = " ".join(" ".join(lines[at:begin]).split()).partition(" : ")[2]
            yield Lemma(f"{path.relative_to(CRATES)}:{at + 1}", found[1], stated, lines[at:end])


def arguments(stated: str) -> int:
    """How many arguments and premises a statement has."""
    parts, depth, begin = [], 0, 0
    for at, sign in enumerate(stated):
        depth += (sign in "({") - (sign in ")}")
        if sign == "→" and depth == 0:
            parts.append(stated[begin:at].strip())
            begin = at + 1
    return sum(sum(len(names.split()) for names in BINDER.findall(it)) if BINDER.match(it) else 1 for it in parts)


def unnamed(every: list[Lemma]) -> list[str]:
    """Lemmas that nothing names, themselves aside."""
    seen: collections.Counter[str] = collections.Counter()
    for path in files(".antt", ".rt", ".edit"):
        seen.update(counts_of(path))
    own: collections.Counter[str] = collections.Counter()
    for it in every:
        own[it.name] += words_of(it.lines).count(it.name)
    for page in [Path(TOP, "docs/PROOFS.md"), *CRATES.glob("*/README.md")]:
        seen.update(WORD.findall(page.read_text(encoding="utf-8").replace("`", " ")))
    return [f"{it.place}: {it.name}" for it in every if seen[it.name] <= own[it.name] and not NO_LEMMA.search(it.place)]


class Function(NamedTuple):
    """A function with its place and its clauses."""

    place: str
    name: str
    private: bool
    head: str


def functions(path: Path) -> Iterator[Function]:
    """The functions of a source file; the head of one ends where its body begins."""
    text = "\n".join(lines_of(path))
    for found in FUNCTION.finditer(text):
        head = re.split(rf"\n{found[1]}[^\s)>]", text[found.start() :], maxsplit=1)[0]
        place = f"{path.relative_to(CRATES)}:{text.count(chr(10), 0, found.start()) + 1}"
        yield Function(place, found[3], not found[2], head.partition("(")[2])


def copies() -> Iterator[tuple[str, bool]]:
    """The private functions whose one clause names the definition that has their name, each with its place, and whether nothing
    else names that definition."""
    named: dict[str, collections.Counter[str]] = collections.defaultdict(collections.Counter)  # by crate
    own: collections.Counter[tuple[str, str]] = collections.Counter()
    found: list[tuple[str, Function]] = []
    for path in files(".antt", ".rt"):
        crate = path.relative_to(CRATES).parts[0]
        if path.suffix == ".rt":
            for it in functions(path):
                named[crate].update({*WORD.findall(it.head)})
                if it.private and it.name in RESULT.findall(it.head) and len(CLAUSE.findall(it.head)) == 1:
                    found.append((crate, it))
            continue
        named[crate].update(counts_of(path))
        for used in filter(None, map(IMPORT.match, lines_of(path))):
            words = WORD.findall(used.string)
            named[crate].subtract(words)
            if used[1] != crate:
                named[used[1]].update(words)
        if "specs" in path.parts:
            for definition in lemmas(path, DEFINITION):
                own[crate, definition.name] += WORD.findall("\n".join(definition.lines)).count(definition.name)
    for crate, it in found:
        if own[crate, it.name]:
            yield f"{it.place}: {it.name}", named[crate][it.name] <= own[crate, it.name] + 1


def counted() -> dict[str, list[str]]:
    """What there is of each kind, each with its place."""
    every, texts, answers = [], collections.defaultdict(list), []
    blanks = []
    for path in files(".antt"):
        place = path.relative_to(CRATES)
        if "proofs" not in place.parts:
            continue
        if path.name == "Answers.antt":
            count = len(path.read_text(encoding="utf-8").splitlines())
            answers += [f"{place}: {count} lines"] if count > MOST_LINES else []
        elif path.name not in ("Invariants.antt", "Lib.antt", "Proof.antt"):
            found = list(lemmas(path))
            every += found
            for it in found:
                texts[it.type].append(it)
        for at, line in enumerate(lines_of(path), 1):
            blanks += [f"{place}:{at}"] * len(BLANKS.findall(line))
    twice = [
        f"{it.place}: {it.name}" for same in texts.values() for it in same[1:] if len({x.place.split(":")[0] for x in same}) > 1
    ]
    same_again = [*copies()]
    many = [f"{it.place}: {it.name}: {arguments(it.type)}" for it in every if arguments(it.type) > MOST_ARGUMENTS]
    return {
        "unnamed": unnamed(every),
        "twice": twice,
        "answers": answers,
        "arguments": many,
        "blanks": blanks,
        "copies": [place for place, _ in same_again],
        "needless": [place for place, needless in same_again if needless],
    }


def main() -> int:
    parser = command_line()
    parser.add_argument("--each", choices=LIMITS, metavar="KIND")
    given, found = parser.parse_args(), counted()
    for line in found[given.each] if given.each else []:
        print(line)
    wrong = [kind for kind, most in LIMITS.items() if len(found[kind]) > most]
    for kind in wrong:
        print(f"{kind}: {len(found[kind])}, and {LIMITS[kind]} are allowed (python3 checks/hygiene.py --each {kind})")
    print(", ".join(f"{kind} {len(found[kind])} of {most}" for kind, most in LIMITS.items()))
    return 1 if wrong else 0


if __name__ == "__main__":
    sys.exit(main())
