#!/usr/bin/env python3
"""What the gate passed: a record of a commit with the programs and the library that it proved and built.

usage: python3 checks/record.py --write 'N passed, 0 failed' SECONDS
       python3 checks/record.py --find

--write is called by .ci/run at its end. It keeps crates/*/out's programs, their object files and the library in
~/.cache/xdpvm/gate/COMMIT, beside record.json: the commit, the toolchain, the date, the cores and seconds, what the gate said,
and the SHA-256 of each. The object files are there where the programs were proved in this run, and else are those of an
earlier record with the same programs, if there is one. Nothing is kept of a tree with changes that are not committed. The five
newest records stay. --find prints the folder of the commit that is checked out; its status is 1 if there is none, if the tree has
changes, or if a file is not the one that the record names. So install.sh and release.sh take what was proved, and prove nothing
again.
"""
import datetime
import hashlib
import json
import os
import shutil
import subprocess
import sys
from pathlib import Path

from common import command_line

TOP = Path(__file__).resolve().parent.parent
OBJECTS = tuple(
    f"crates/{name}/out/{name}" for name in ("xdpvm", "xdpvm_survey", "xdpvm_filter")
)  # programs, beside which their object files may be
FILES = (*OBJECTS, "crates/xdpvm_c/out/libxdpvm_c.a")
MOST = 5


def git(*words: str) -> str:
    return subprocess.run(["git", "-C", str(TOP), *words], capture_output=True, text=True, check=True).stdout.strip()


def kept() -> Path:
    return Path(os.environ.get("XDG_CACHE_HOME") or Path.home() / ".cache") / "xdpvm/gate"


def sum_of(path: Path) -> str:
    return hashlib.sha256(path.read_bytes()).hexdigest()


def toolchain() -> str:
    ran = subprocess.run(["rt", "version"], capture_output=True, text=True, check=False)
    return ran.stdout.strip()


def object_of(program: Path) -> Path | None:
    """The object file of a program: the one beside it, or that of an earlier record with the same program."""
    beside, wanted = program.with_name(program.name + ".o"), sum_of(program)
    if beside.is_file():
        return beside
    for earlier in sorted(kept().glob(f"*/{program.name}.o")) if kept().is_dir() else []:
        if sum_of(earlier.with_name(program.name)) == wanted:
            return earlier
    return None


def write(said: str, seconds: str) -> int:
    """Keeps the record and the programs; the exit status."""
    if git("status", "--porcelain"):
        print("record.py: nothing is kept, since there are changes that are not committed", file=sys.stderr)
        return 0
    missing = [path for path in FILES if not (TOP / path).is_file()]
    if missing:
        print(f"record.py: there is no {missing[0]}", file=sys.stderr)
        return 1
    commit = git("rev-parse", "HEAD")
    folder, part = kept() / commit, kept() / f".{commit}.{os.getpid()}"
    part.mkdir(parents=True)
    objects = {f"{Path(path).name}.o": object_of(TOP / path) for path in OBJECTS}
    files = {Path(path).name: TOP / path for path in FILES} | {name: it for name, it in objects.items() if it}
    for name, it in files.items():
        shutil.copy2(it, part / name)
    record = {
        "commit": commit,
        "date": datetime.datetime.now(datetime.timezone.utc).strftime("%Y-%m-%dT%H:%M:%SZ"),
        "toolchain": toolchain(),
        "cores": len(os.sched_getaffinity(0)),
        "seconds": int(seconds),
        "gate": said,
        "files": {name: sum_of(part / name) for name in files},
    }
    (part / "record.json").write_text(json.dumps(record, indent=2) + "\n", encoding="utf-8")
    shutil.rmtree(folder, ignore_errors=True)
    part.rename(folder)
    older = sorted((it for it in kept().iterdir() if it.name[0] != "."), key=lambda it: it.stat().st_mtime)
    for it in older[:-MOST]:
        shutil.rmtree(it)
    return 0


def find() -> int:
    try:
        folder = kept() / git("rev-parse", "HEAD")
        if git("status", "--porcelain"):
            return 1
        record = json.loads((folder / "record.json").read_text(encoding="utf-8"))
    except (OSError, ValueError, subprocess.CalledProcessError):
        return 1
    for name, wanted in record["files"].items():
        if not (folder / name).is_file() or sum_of(folder / name) != wanted:
            print(f"record.py: {folder / name} is not the file that the gate made", file=sys.stderr)
            return 1
    print(folder)
    return 0


def main() -> int:
    parser = command_line()
    which = parser.add_mutually_exclusive_group(required=True)
    which.add_argument("--write", nargs=2, metavar=("SAID", "SECONDS"))
    which.add_argument("--find", action="store_true")
    given = parser.parse_args()
    return find() if given.find else write(*given.write)


if __name__ == "__main__":
    sys.exit(main())
