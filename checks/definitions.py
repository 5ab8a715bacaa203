"""What the files of definitions and of code declare, and where a name in one of them leads. For trusted.py and laws.py."""
from __future__ import annotations

import glob
import os
import re
from typing import NamedTuple

from common import TOP, text_of

USE = re.compile(r"\s*(?:ghost |pub )?use Rattle\.([\w.]+?)(?:\.\{([^}]*)\})?(?: as (\w+))?;?\s*$")
WORD = re.compile(r"[^\W\d][\w'\-]*(?:\.[^\W\d][\w'\-]*)?")
DEFINITION = re.compile(r"(?:pub )?(?:abbrev|unfoldable|record|data)(?: pub)? ([^\s:(]+)")
SIGNATURE = re.compile(r"(?:pub )?([^\s:(=]+)(?: \{[^}]*\})* :(?: |$)")
CONSTRUCTOR = re.compile(r"  ([A-Z]\w*) :")
REMARK = ("--", "//", "#[")

# Where a declaration begins, its name, whether it is a law, and the line of the `module` with parameters that it is in.
Start = tuple[int, str | None, bool, int | None]


class Place(NamedTuple):
    """A declaration: the file that has it and its name there."""

    file: Module
    name: str


class Item(NamedTuple):
    """The lines of a declaration with the comment before it; whether it is a law, a statement with its proof; and the line of
    the `module` with parameters that it is in, if it is in one."""

    at: int
    after: int
    is_law: bool
    block: int | None


def without_remarks(lines: list[str]) -> str:
    return "\n".join(line for line in lines if not line.lstrip().startswith(("--", "//")))


class Module:
    """A file of definitions or of code: what it imports, and each of its declarations."""

    def __init__(self, path: str, top: str) -> None:
        self.path = path
        self.lines = text_of(os.path.join(top, path)).splitlines()
        self.uses: dict[str, tuple[str, str]] = {}
        self.modules: dict[str, str] = {}
        self.items: dict[str, Item] = {}
        self.of_constructor: dict[str, str] = {}
        for line in self.lines:
            if "use Rattle." in line:
                self.import_line(line)

    def import_line(self, line: str) -> None:
        found = USE.match(line)
        if found and found[2]:
            for name in found[2].split(","):
                words = name.split()
                if words:
                    self.uses[words[-1]] = (found[1], words[0])
        elif found:
            self.modules[found[3] or found[1].split(".")[-1]] = found[1]

    def text(self, name: str) -> str:
        """A declaration without its comments."""
        item = self.items[name]
        return without_remarks(self.lines[item.at : item.after])

    def beside(self, name: str) -> list[str]:
        """All declarations of the `module` with parameters that a declaration is in."""
        block = self.items[name].block
        return [other for other, item in self.items.items() if block is not None and item.block == block]

    def operators(self) -> list[str]:
        """The names that are written between or around others, as ◌∷◌."""
        return [name for name in (*self.items, *self.uses) if "◌" in name]


class Definitions(Module):
    """A file of specs/ or proofs/: definitions, and laws."""

    def __init__(self, path: str, top: str) -> None:
        super().__init__(path, top)
        self.block: int | None = None
        starts = [start for at, line in enumerate(self.lines) for start in self.starts(at, line)]
        ends = [start[0] for start in starts[1:]] + [len(self.lines)]
        for (at, name, is_law, block), after in zip(starts, ends):
            if name:
                self.items[name] = Item(self.with_remark(at), self.before_remark(after), is_law, block)
        for name, item in self.items.items():
            for line in self.lines[item.at : item.after]:
                if found := CONSTRUCTOR.match(line):
                    self.of_constructor[found[1]] = name

    def starts(self, at: int, line: str) -> list[Start]:
        """A declaration that begins at a line, also one inside a `module` with parameters, two spaces in."""
        if line.startswith("module"):
            self.block = at
            return [(at, None, False, at)]
        if not line.strip() or line.lstrip().startswith("--") or USE.match(line):
            return []
        if not line.startswith(" "):
            self.block = None
        elif line.startswith("   ") or self.block is None:
            return []
        definition = DEFINITION.match(line.lstrip())
        found = definition or SIGNATURE.match(line.lstrip())
        return [(at, found[1], not definition, self.block)] if found else []

    def with_remark(self, at: int) -> int:
        while at > 0 and self.lines[at - 1].lstrip().startswith(REMARK):
            at -= 1
        return at

    def before_remark(self, after: int) -> int:
        while self.lines[after - 1].strip() == "" or self.lines[after - 1].lstrip().startswith(REMARK):
            after -= 1
        return after

    def laws(self) -> list[str]:
        return [name for name, item in self.items.items() if item.is_law]


class Code(Module):
    """Types and constants of a file of code, each of which ends where its brackets do."""

    def __init__(self, path: str, top: str) -> None:
        super().__init__(path, top)
        for at, line in enumerate(self.lines):
            found = re.match(r"pub (?:struct|enum|const) (\w+)", line)
            if found:
                end = at
                while not re.match(r".*;$|\}", self.lines[end]):
                    end += 1
                while self.lines[at - 1].startswith(("///", "#[")):
                    at -= 1
                self.items[found[1]] = Item(at, end + 1, False, None)


class Base:
    """The definitions of all crates, and those of them that a text rests on."""

    def __init__(self, top: str = TOP) -> None:
        self.top = top
        self.modules: dict[str, Module] = {}
        self.code: dict[str, Code] = {}
        self.found: set[Place] = set()
        for path in sorted(glob.glob("crates/*/specs/**/*.antt", root_dir=top, recursive=True)):
            crate, rest = path.split("/")[1], path.split("/", 3)[3]
            self.modules[f"{crate}.specs.{rest[:-5].replace('/', '.')}"] = Definitions(path, top)

    def source(self, module: str) -> Code | None:
        """The file of code of a type or of the constants of a module."""
        crate, rest = module.split(".specs.declared.")
        path = f"crates/{crate}/src/{rest.split('.')[0]}.rt"
        if path not in self.code and os.path.exists(os.path.join(self.top, path)):
            self.code[path] = Code(path, self.top)
        return self.code.get(path)

    def follow(self, module: str, name: str) -> Place | None:
        """Where a name of a module is declared. None: in the kit, or nowhere."""
        if ".specs.declared." in module:
            code = self.source(module)
            part = module.split(".specs.declared.")[1].split(".")
            name = part[1] if part[-1] == "TheVariants" else name
            return Place(code, name) if code and name in code.items else None
        there = self.modules.get(module) or self.modules.get(f"{module}.Lib")
        return self.resolve(there, name) if there else None

    def resolve(self, module: Module, word: str) -> Place | None:
        name = module.of_constructor.get(word, word)
        if name in module.items:
            return Place(module, name)
        if name in module.uses:
            return self.follow(*module.uses[name])
        first, _, second = name.partition(".")
        if second and first in module.modules:
            return self.follow(module.modules[first], second)
        return self.resolve(module, first) if second else None

    def named(self, module: Module, text: str) -> set[Place]:
        """The declarations that a text of a module names."""
        words = set(WORD.findall(text))
        words.update(name for name in module.operators() if all(part in text for part in name.split("◌")))
        return {place for place in (self.resolve(module, word) for word in words) if place}

    def add(self, module: Module, text: str) -> None:
        """Adds what a text of a module rests on, step by step."""
        waiting = [(module, text)]
        while waiting:
            for place in self.named(*waiting.pop()) - self.found:
                self.found.add(place)
                waiting.append((place.file, place.file.text(place.name)))
