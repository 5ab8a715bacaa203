"""What an edit says: the lines of a crate's code that it changes, and the functions that they are in.

An edit is a file of lines 'file: PATH', below the crate, and of pairs 'old: TEXT' and 'new: TEXT', one line for one line; a text
that is replaced is in its file once. Where no changed line is in a function, as if a constant is changed, a line
'# refused in: FUNCTION' names the one that must be refused.
"""
import collections
import functools
import os
import re
from collections.abc import Iterator
from typing import NamedTuple

from common import text_of, there

Change = tuple[str, str, str]  # a file, the old text and the new one
FUNCTION = re.compile(r'(\s*)(?:pub(?:\([a-z ]+\))? )?(?:const )?(?:unsafe )?(?:extern "C" )?fn (\w+)')
BLOCK = re.compile(
    r"(?:unsafe )?impl(?:<(?P<given>[^{]*?)>)? (?:(?P<trait>[\w:<>, '&]+) for )?&?(?P<type>\w+)"
    r"|(?:pub(?:\([a-z ]+\))? )?(?:unsafe )?trait (?P<own>\w+)"
)
TYPE = re.compile(r"(?:pub(?:\([a-z ]+\))? )?(?:struct|enum|union) (\w+)")
ROOTS = ("src/lib.rt", "src/main.rt")
# A proof file that names what an edit removed, or that rests on such a file.
BY_NAME = re.compile(r"has no field|is not in scope|has no `|was not admitted")


class Function(NamedTuple):
    """A function of a file: its lines, its name, and the type and the trait of the block `impl` that it is in. Where the file has
    a trait for a type more than once, as `From`, the trait is named with the first of its own types, as `FromAllocError`. A type
    that the block is given is `Any`."""

    first: int
    last: int
    name: str
    kind: str | None
    trait: str | None


def changes(path: str) -> list[Change]:
    """The changes that an edit lists, each as (file, old text, new text)."""
    found, file, old = [], "", ""
    for line in text_of(path).split("\n"):
        if line.startswith("file: "):
            file = line[len("file: ") :].strip()
        elif line.startswith("old: "):
            old = line[len("old: ") :]
        elif line.startswith("new:"):
            found.append((file, old, line[len("new:") :].removeprefix(" ")))
    return found


def edited(folder: str, listed: list[Change]) -> tuple[dict[str, str], str | None]:
    """The texts of a crate's files with these changes made, by file; and why a change cannot be made, or None."""
    texts: dict[str, str] = {}
    for file, old, new in listed:
        if file not in texts:
            if not file or not os.path.isfile(f"{folder}/{file}"):
                return texts, f"there is no {file}"
            texts[file] = text_of(f"{folder}/{file}")
        if not old or texts[file].count(old) != 1:
            return texts, f"its file has {texts[file].count(old) if old else 0} times: {old.strip()}"
        texts[file] = texts[file].replace(old, new)
    return texts, None if texts else "it names no file"


def module_of(file: str) -> list[str]:
    return [] if file in ROOTS else file[len("src/") : -len(".rt")].split("/")


def is_end(line: str, indent: str) -> bool:
    """Whether a line ends the function whose header has this indent: its last brace, or a header that has no body."""
    return line == indent + "}" or re.match(indent + r"[^ ].*(;|\})$", line) is not None


@functools.cache
def functions(text: str) -> tuple[Function, ...]:
    """The functions of a file. Lines begin at 0; in the block of a trait this is the type."""
    return tuple(found_functions(text.split("\n")))


def found_functions(lines: list[str]) -> Iterator[Function]:
    blocks = [found for line in lines if (found := BLOCK.match(line))]
    times = collections.Counter((without_types(it["trait"]), it["type"]) for it in blocks)
    block = None
    for at, line in enumerate(lines):
        if line.startswith("}"):
            block = None
        elif BLOCK.match(line):
            block = BLOCK.match(line)
        header = FUNCTION.match(line)
        if header:
            end = next((it for it in range(at, len(lines)) if is_end(lines[it], header[1])), at)
            own = block if header[1] else None
            trait = without_types(own["trait"]) if own else None
            if own and trait and times[(trait, own["type"])] > 1:
                trait += without_types(there(re.search(r"<([^,>]+)", own["trait"]))[1])
            kind = (own["type"] or own["own"]) if own else None
            if own and re.match(rf"{own['type']}\b|.*, {own['type']}\b", own["given"] or ""):
                kind = "Any"
            yield Function(at, end, header[2], kind, trait)


def without_types(path: str | None) -> str:
    """The last name of a path, without the types that it is given."""
    return re.sub(r"<.*", "", path or "").split("::")[-1].strip()


def shown(file: str, it: Function) -> str:
    """A function's name as a check ends it: with its type (and trait), or with its module."""
    return "::".join(([it.kind + (it.trait or "")] if it.kind else module_of(file)) + [it.name])


def changed_functions(folder: str, path: str) -> tuple[set[str], bool]:
    """The names of the functions in which an edit must be refused, and whether all that it changes is in them."""
    names, is_all = set(), True
    for file, old, _ in changes(path):
        text = text_of(f"{folder}/{file}")
        at = text[: text.find(old)].count("\n")
        inside = [shown(file, it) for it in functions(text) if it.first <= at <= it.last]
        names.update(inside[-1:])
        is_all = is_all and bool(inside)
    return names | set(re.findall(r"(?m)^# refused in: (\S+)$", text_of(path))), is_all


def is_in(name: str, file: str, text: str, line: int) -> bool:
    """Whether a line of a file, from 0, is in the function of this name, or in the attributes above it."""
    lines = text.split("\n")
    while line + 1 < len(lines) and lines[line].lstrip().startswith("#["):
        line += 1
    return any(it.first <= line <= it.last and shown(file, it) == name for it in functions(text))


def source_files(folder: str) -> Iterator[str]:
    """The files of a crate's code, below its folder."""
    for at, _, names in os.walk(f"{folder}/src"):
        for name in sorted(names):
            if name.endswith(".rt"):
                yield os.path.relpath(f"{at}/{name}", folder)


def all_functions(folder: str) -> set[str]:
    """The names of the functions of a crate."""
    texts = {file: text_of(f"{folder}/{file}") for file in source_files(folder)}
    return {shown(file, it) for file, text in texts.items() for it in functions(text)}


def calls_itself(text: str, first: int, last: int, name: str, kind: str | None) -> bool:
    """Whether a function of a file calls itself: its proof is then in a folder of another form."""
    body = "\n".join(text.split("\n")[first + 1 : last + 1])
    front = rf"(?:self\.|Self::|\b{kind}::)" if kind else r"(?<![\w.:])"
    return re.search(rf"{front}{name}\(", body) is not None


def open_functions(folder: str) -> Iterator[tuple[str, int, int, str]]:
    """The functions of a crate whose proofs can be left open: (file, first line, last line, folder below proofs/). Those of a trait
    and those that call themselves cannot."""
    texts = {file: text_of(f"{folder}/{file}") for file in source_files(folder)}
    homes: dict[str, list[list[str]]] = {}
    for file, text in texts.items():
        for kind in re.findall(rf"(?m)^{TYPE.pattern}", text):
            homes.setdefault(kind, []).append(module_of(file))
    for file, text in texts.items():
        for first, last, name, kind, trait in functions(text):
            if trait or calls_itself(text, first, last, name, kind):
                continue
            if kind is None:
                yield file, first, last, "/".join(module_of(file) + [name])
            elif len(homes.get(kind, ())) == 1:
                yield file, first, last, "/".join(homes[kind][0] + [kind, name])


def emptied(text: str, first: int, last: int) -> str:
    """The text of a file in which the body of a function, at these lines, is one that is never run. The others keep their lines."""
    lines = text.split("\n")
    indent = lines[first][: len(lines[first]) - len(lines[first].lstrip())]
    begins = [at for at in range(first, last) if lines[at] == indent + "{"]
    begins += [at for at in range(first, last) if lines[at].endswith(" {")]
    if begins and begins[0] + 1 < last and "const fn" not in lines[first]:
        lines[begins[0] + 1 : last] = ["unreachable!()"] + [""] * (last - begins[0] - 2)
    return "\n".join(lines)


def messages(said: list[str]) -> list[str]:
    """What a check printed, each message whole: a line that begins with two blanks goes on with the one before."""
    found: list[str] = []
    for it in said:
        if it.startswith("  ") and found:
            found[-1] += " " + it.strip()
        else:
            found.append(it)
    return found


def refusal(crate: str, name: str, said: list[str], texts: dict[str, str]) -> str | None:
    """The message that says which goal of a function is not proved, or None."""
    ends = rf"fn {crate}::((?:\S*::)?{re.escape(name)}): (not proved|no proof)"
    line = next(filter(None, (re.match(ends, it) for it in said)), None)
    if line is None:
        return None
    if "did not prove" in line.string:
        return line.string
    own = f"proofs/{line[1].replace('::', '/')}/"
    for it in messages(said):
        at = re.match(r"(?:note: )?(?:\./)?([\w/+-]+\.(?:antt|rt)):(\d+):\d+: (.*)", it)
        if at and at[1].replace("/+", "/").startswith(own) and at[3].startswith("error") and not BY_NAME.search(at[3]):
            return it
        if at and "is not proved that" in at[3] and is_in(name, at[1], texts.get(at[1], ""), int(at[2]) - 1):
            return it
    return None


def in_rounds(folder: str, paths: list[str]) -> list[list[tuple[str, set[str]]]]:
    """The edits of a crate in lists that are checked together, each with the functions that it changes: those of a list change
    different functions, and nothing else."""
    rounds: list[tuple[set[str] | None, list[tuple[str, set[str]]]]] = []
    for path in paths:
        names, is_all = changed_functions(folder, path)
        for known, listed in rounds:
            if is_all and known is not None and not known & names:
                known.update(names)
                listed.append((path, names))
                break
        else:
            rounds.append((set(names) if is_all else None, [(path, names)]))
    return [listed for _, listed in rounds]
