"""Lists the attacks, or runs one.

usage: python3 -m attacks [--table | --write]      (at the top of the repository)
       python3 -m attacks NAME [WORD ..]

Without a name it prints each attack, the first sentence of its help, and which checks of the gate run it cut short; --table prints
them as the rows of docs/ASSURANCE.md, and --write puts them there. NAME runs that one with these words; `--help` is one of them.
"""
import subprocess
import sys
from pathlib import Path

sys.path.insert(0, str(Path(__file__).resolve().parent.parent / "checks"))
import common
from listing import FOLDER, PAGE, attacks, page, table


def main() -> int:
    parser = common.command_line()
    for name in ("--table", "--write"):
        parser.add_argument(name, action="store_true")
    parser.add_argument("name", nargs="?", choices=[it.path.stem for it in attacks()], metavar="NAME")
    given = parser.parse_args(sys.argv[1:2])
    if given.name:
        return subprocess.run([sys.executable, FOLDER / f"{given.name}.py", *sys.argv[2:]], check=False).returncode
    if given.write:
        PAGE.write_text(page(), encoding="utf-8")
        return 0
    print(*(table() if given.table else [f"{it.path.stem}: {it.when()}\n    {it.about}" for it in attacks()]), sep="\n")
    return 0


if __name__ == "__main__":
    sys.exit(main())
