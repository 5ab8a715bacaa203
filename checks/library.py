#!/usr/bin/env python3
"""Builds what `rt ci` leaves out, over the libraries that it has built: the library for C and Rust, and object files of programs.

usage: python3 checks/library.py FOLDER

FOLDER is a copy of this repository in which `rt ci` ran. The library is crates/xdpvm_c/out/libxdpvm_c.a; only `xdpvm_c` itself
is proved, over its libraries: `rt lib` in crates/xdpvm_c would build these once more. Where `rt ci` took a program as passed
earlier it leaves no object file, of which release.sh links the static programs. Then that of an earlier record of the gate with
the same program is taken, or one is built here, which stays only if the program that the toolchain links of it is, byte for byte,
the one that `rt ci` left. The exit status is 0, or 1 with a message.
"""
import os
import shutil
import subprocess
import sys
import tempfile
from pathlib import Path
from typing import Any

from common import command_line
from record import object_of

PROGRAMS = ("xdpvm", "xdpvm_survey", "xdpvm_filter")


def built(kit: Path, crate: Any, words: list[str], made: str) -> bool:
    """Whether the toolchain builds a crate into a file of its out/."""
    os.makedirs(f"{crate.folder}/out", exist_ok=True)
    words = [f"{kit}/bin/rattle", "build", *words, "--toolchain", f"{kit}/toolchain", "--backend", "llvm", "-o", made]
    ran = subprocess.run(
        words, cwd=crate.folder, stdin=subprocess.DEVNULL, capture_output=True, text=True, errors="replace", check=False
    )
    if ran.returncode:
        sys.stderr.write(ran.stdout[-2000:] + ran.stderr[-2000:])
    return not ran.returncode


def is_linked(kit: Path, made: Path, program: Path) -> bool:
    """Whether the toolchain links this object file to just this program."""
    with tempfile.TemporaryDirectory() as work:
        again = Path(work) / program.name
        words = [
            f"{kit}/bin/rattle-link",
            "--target",
            "x86_64-unknown-linux-gnu",
            "--toolchain",
            f"{kit}/toolchain",
            "-o",
            str(again),
            str(made),
        ]
        ran = subprocess.run([*words, f"{kit}/c/libos_c.a", f"{kit}/c/liblibc_c.a"], capture_output=True, check=False)
        return not ran.returncode and again.read_bytes() == program.read_bytes()


def main() -> int:
    parser = command_line()
    parser.add_argument("folder", type=Path)
    given = parser.parse_args()
    rt = shutil.which("rt")
    if rt is None:
        sys.exit("library.py: rt, the toolchain's command, is not on the path")
    kit, top = Path(os.path.realpath(rt)).parent.parent, given.folder.resolve()
    sys.path.insert(0, str(kit / "bin"))
    import rtlib  # type: ignore[import]

    crate = rtlib.Crate(str(top / "crates/xdpvm_c"), str(top), {})
    if not built(kit, crate, crate.words(["--jobs", "2"]), "out/libxdpvm_c.a"):
        return 1
    for name in PROGRAMS:
        program = top / "crates" / name / "out" / name
        made = program.with_name(f"{name}.o")
        if not program.is_file():
            continue
        earlier = object_of(program)
        if earlier:
            if earlier != made:
                shutil.copy2(earlier, made)
            continue
        crate = rtlib.Crate(str(top / "crates" / name), str(top), {})
        if not built(kit, crate, crate.words(["--jobs", "2"]), f"out/{name}.o"):
            return 1
        if not is_linked(kit, made, program):
            made.unlink()
            print(f"library.py: {name} is not what its object file is linked to", file=sys.stderr)
            return 1
    return 0


if __name__ == "__main__":
    sys.exit(main())
