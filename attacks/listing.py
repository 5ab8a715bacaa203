"""The attacks: what each does, by the first sentence of its help, and which checks of the gate run it cut short."""
import ast
import re
from dataclasses import dataclass
from pathlib import Path

from listed import CHECKS

FOLDER = Path(__file__).resolve().parent
PAGE = FOLDER.parent / "docs/ASSURANCE.md"
HEAD = "| attack | what it does | when |\n|---|---|---|\n"


@dataclass(frozen=True)
class Attack:
    """A script of this folder, what it does, and the checks that run it."""

    path: Path
    about: str
    checks: list[str]

    def when(self) -> str:
        """When it runs, in words."""
        return f"in the gate: {', '.join(f'`{it}`' for it in self.checks)}" if self.checks else "by hand"


def first_sentence(path: Path) -> str:
    """What a script says of itself first."""
    text = ast.get_docstring(ast.parse(path.read_text(encoding="utf-8"))) or ""
    return re.split(r"(?<=\.) ", " ".join(text.partition("\n\n")[0].split()))[0].rstrip(".")


def attacks() -> list[Attack]:
    """The scripts that are called by themselves, in the order of their names."""
    found = [it for it in sorted(FOLDER.glob("*.py")) if it.read_bytes()[:2] == b"#!"]
    called = {it: [check.name for check in CHECKS if f"attacks/{it.name}" in check.command] for it in found}
    return [Attack(it, first_sentence(it), called[it]) for it in found]


def table() -> list[str]:
    """The rows of docs/ASSURANCE.md."""
    return [f"| `attacks/{it.path.name}` | {it.about} | {it.when()} |" for it in attacks()]


def page() -> str:
    """The text of docs/ASSURANCE.md with these rows."""
    before, head, after = PAGE.read_text(encoding="utf-8").partition(HEAD)
    return before + head + "\n".join(table()) + "\n\n" + after.partition("\n\n")[2]
