"""Lists the tools, or runs one.

usage: python3 -m tools [NAME [WORD ..]]                (at the top of the repository)

Without a name it prints each tool and the first sentence of its help. `install.sh` installs each as xdpvm-NAME.
"""
import ast
import subprocess
import sys
from pathlib import Path

FOLDER = Path(__file__).resolve().parent


def tools() -> dict[str, Path]:
    """The scripts that are called by themselves, by their names."""
    found = sorted(it for it in FOLDER.glob("*.py") if it.read_bytes()[:2] == b"#!")
    return {it.stem: it for it in found}


def first_sentence(path: Path) -> str:
    """What a script says of itself first."""
    text = ast.get_docstring(ast.parse(path.read_text(encoding="utf-8"))) or ""
    return " ".join(text.partition("\n\n")[0].split()).partition(". ")[0].rstrip(".")


def main() -> int:
    found, name = tools(), sys.argv[1] if len(sys.argv) > 1 else "--help"
    if name in found:
        return subprocess.run([sys.executable, found[name], *sys.argv[2:]], check=False).returncode
    print((__doc__ or "").strip() + "\n")
    print(*(f"{it}: {first_sentence(path)}" for it, path in found.items()), sep="\n")
    return 0 if name in ("--help", "-h") else 1


if __name__ == "__main__":
    sys.exit(main())
