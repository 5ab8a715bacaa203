#!/usr/bin/env python3
"""Which laws are in specs/ without need: a law, a statement with its proof, belongs in proofs/ unless code cites it.

usage: python3 checks/laws.py [--each] [TOP]

Begins with what the code of all crates/*/src names, in contracts and in `ghost use`, and follows each name through the
definitions and laws of crates/*/specs. A law there that no name leads to is printed, and the exit
status is 1. A `module` with parameters counts as a whole: if code cites one of its declarations,
its laws may stay beside it. With --each they count by themselves. The worked examples,
crates/*/specs/**/Worked, are laws for readers, and stay. TOP is the top of a repository; if it
is not given, of this one. In the gate.
"""
import glob
import sys
from collections.abc import Iterator

from common import TOP, command_line
from definitions import Base, Code, Definitions, Module, Place, without_remarks


class Cited(Base):
    """Definitions, and those of them that code rests on."""

    def __init__(self, top: str, each: bool) -> None:
        super().__init__(top)
        self.each = each
        for path in sorted(glob.glob("crates/*/src/**/*.rt", root_dir=top, recursive=True)):
            code = Code(path, top)
            self.add(code, without_remarks(code.lines))

    def named(self, module: Module, text: str) -> set[Place]:
        """The declarations that a text names, and those in one `module` with parameters with them."""
        places = super().named(module, text)
        if self.each:
            return places
        return places | {Place(place.file, name) for place in places for name in place.file.beside(place.name)}

    def laws(self) -> Iterator[tuple[str, str, bool]]:
        """Each law of specs/ except the worked examples, and whether code rests on it."""
        needed = {(place.file.path, place.name) for place in self.found}
        for file in self.modules.values():
            if isinstance(file, Definitions) and "/Worked/" not in file.path:
                yield from ((file.path, name, (file.path, name) in needed) for name in file.laws())


def main() -> None:
    words = command_line()
    words.add_argument("top", nargs="?", default=TOP)
    words.add_argument("--each", action="store_true", help="laws of a `module` with parameters count by themselves")
    given = words.parse_args()
    laws = list(Cited(given.top, given.each).laws())
    stray = [f"{path}: {name}: no code cites this law: move it to proofs/" for path, name, needed in laws if not needed]
    print("\n".join(stray + [f"{len(laws) - len(stray)} laws in specs/ that code cites, {len(stray)} that none does"]))
    sys.exit(1 if stray else 0)


if __name__ == "__main__":
    main()
