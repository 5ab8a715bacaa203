#!/usr/bin/env python3
"""The entries of docs/REFUSALS.md, as `xdpvm explain` prints them: whether the program's are those of the page.

usage: python3 checks/entries.py [--write] [PROGRAM]

--write makes crates/messages/src/entries from the page. Without it they are compared with the page, and what the PROGRAM (the
default: crates/xdpvm/out/xdpvm) prints for each code is compared with the page's entry. The exit status is 0, or 1 if one differs.
"""
import re
import subprocess
import sys
from collections.abc import Iterator
from pathlib import Path

import common

PAGE = Path(common.TOP) / "docs/REFUSALS.md"
FOLDER = Path(common.TOP) / "crates/messages/src/entries"
MODULES = {
    "texts": ("A", "texts"),
    "images": ("IC", "images"),
    "programs": ("G", "control flow"),
    "verdicts": ("V", "the verifier"),
    "tables": ("P", "proof tables"),
    "streams": ("FMH", "streams and maps"),
    "traps": ("", "traps"),
}
ENTRY = re.compile(r"\*\*(\w+)\*\*[,:] ")
LINK = re.compile(r"\[([^\]]*)\]\(([^)]*)\)")
WIDTH = 78


def plain(text: str) -> str:
    """A paragraph without links to elsewhere on the page; a link to another page is its file."""
    return LINK.sub(lambda it: it[1] if it[2].startswith("#") else "docs/" + it[2].removeprefix("../docs/"), text)


def wrapped(text: str, width: int = WIDTH) -> Iterator[str]:
    """The lines of a paragraph, each of at most so many columns, if its words allow that."""
    line = ""
    for word in text.split(" "):
        if line and len(line) + 1 + len(word) > width:
            yield line
            line = word
        else:
            line = f"{line} {word}" if line else word
    yield line


def entry_lines(lines: list[str]) -> Iterator[str]:
    """An entry of the page as plain text: examples are indented."""
    fenced = False
    for line in lines:
        if line.startswith("```"):
            fenced = not fenced
        elif fenced:
            yield f"    {line}" if line else ""
        else:
            yield from wrapped(plain(line))


def rows(section: list[str]) -> Iterator[tuple[str, list[str]]]:
    """The entries of a table of codes: each cell after the first is a sentence, after its column's name."""
    names: list[str] = []
    for line in section:
        cells = [it.strip() for it in line.strip("|").split(" | ")] if line.startswith("| ") else []
        if cells and cells[0].strip() == "code":
            names = [it.strip(" |") for it in cells]
        elif cells and names and re.fullmatch(r"[A-Z]\d+", cells[0].strip()):
            told = [it.strip(" |") for it in cells]
            lines = [f"**{told[0]}**, {told[1]}."]
            lines += [f"{name[0].upper()}{name[1:]}: {it.rstrip('.')}." for name, it in zip(names[2:], told[2:]) if it]
            yield told[0], lines


def entries() -> dict[str, str]:
    """Each code with its text."""
    found: dict[str, list[str]] = {}
    code = None
    section: list[str] = []
    for line in PAGE.read_text(encoding="utf-8").splitlines() + ["## "]:
        begins = ENTRY.match(line)
        if line.startswith("## "):
            found.update({key: lines for key, lines in rows(section) if key not in found})
            code, section = None, []
        elif begins:
            code = begins[1]
            found[code] = []
        section.append(line)
        if code:
            found[code].append(line)
    return {key: "\n".join(entry_lines(lines)).replace("**", "").strip() + "\n" for key, lines in found.items()}


def module_of(code: str) -> str:
    """The module that has a code's text."""
    return next((name for name, it in MODULES.items() if code[0] in it[0] and code[1:].isdigit()), "traps")


def literal(text: str) -> Iterator[str]:
    """The lines of a string literal, each line of the text on one or more of its own."""
    escaped = text.replace("\\", "\\\\").replace('"', '\\"').rstrip("\n").split("\n")
    for number, line in enumerate(escaped):
        last = number == len(escaped) - 1
        following = "" if last else escaped[number + 1]
        indent = following[: len(following) - len(following.lstrip(" "))]
        body = line.lstrip(" ") if number else line
        pieces = list(wrapped(body, 70)) or [""]
        for each, piece in enumerate(pieces):
            end = "\\n" + indent if each == len(pieces) - 1 else " "
            yield piece + end + ('"' if last and each == len(pieces) - 1 else "\\")


def code_of(name: str, known: dict[str, str]) -> str:
    """A module of the crate."""
    about = MODULES[name][1]
    parts = [f"//! What docs/REFUSALS.md says of the codes of {about} (by checks/entries.py).\n"]
    parts.append("ghost use Rattle.std.specs.Prelude.{IfSome};\nghost use Rattle.messages.specs.Entries.{IsEntryOf};\n")
    parts.append("/// The entry of a code, if it is one of these.\npub fn entry(code: &str) -> Option<&'static str>")
    parts.append("    ensures { IfSome result (λ text. IsEntryOf code.now text.now) }\n{")
    parts.append("    let text = match code {")
    for code, text in known.items():
        lines = list(literal(text))
        parts.append(f'        "{code}" => "{lines[0]}')
        parts += [f"             {line}" for line in lines[1:]]
        parts[-1] += ","
    parts.append("        _ => return None,\n    };\n    Some(text)\n}")
    return "\n".join(parts) + "\n"


def modules() -> dict[Path, str]:
    """The files that the page makes."""
    known = entries()
    return {
        FOLDER / f"{name}.rt": code_of(name, {code: text for code, text in known.items() if module_of(code) == name})
        for name in MODULES
    }


def main() -> int:
    words = sys.argv[1:]
    if "--write" in words:
        FOLDER.mkdir(exist_ok=True)
        for path, text in modules().items():
            path.write_text(text, encoding="utf-8")
        return 0
    program = common.program()
    common.need(program)
    wrong = [
        f"{path.relative_to(common.TOP)} is not what docs/REFUSALS.md says: python3 checks/entries.py --write"
        for path, text in modules().items()
        if not path.is_file() or path.read_text(encoding="utf-8") != text
    ]
    for code, text in entries().items():
        said = subprocess.run([program, "explain", code], capture_output=True, text=True, check=False)
        if (said.returncode, said.stdout, said.stderr) != (0, text, ""):
            wrong.append(f"xdpvm explain {code} ends with {said.returncode}, and does not print the page's entry: {said.stderr}")
    for line in wrong:
        print(line)
    print(f"{len(entries())} entries, {len(wrong)} differ")
    return 1 if wrong else 0


if __name__ == "__main__":
    sys.exit(main())
