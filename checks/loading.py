#!/usr/bin/env python3
"""Runs every block of docs/LOADING.md in a network namespace of its own, and prints each whose result is not what the
page says.

usage: python3 checks/loading.py [PROGRAM]

PROGRAM is the program that `rt run` leaves in crates/xdpvm (the default: crates/xdpvm/out/xdpvm). A block is tried by
the first word after its backquotes: `console` and `namespace` are commands after `$`, each followed by its standard
output; NAME.text is written to that file. guide.py tries the blocks of all pages but `namespace`, which need root. The
exit status is 0 if every result is the one wanted, 1 if not, and 77 where it cannot be tried: it needs Linux, root,
bpf(2), and the tools that the message names, with their Debian packages. """
import argparse
import os
import re
import shutil
import subprocess
import sys
import tempfile
from collections.abc import Iterator

from common import CANNOT, TOP, built, command_line, runnable

PAGE = "docs/LOADING.md"
BLOCK = re.compile(r"^```(\S+)\n(.*?)^```$", re.M | re.S)
COMMAND = re.compile(r"^\$ (.*)\n((?:(?!\$ ).*\n)*)", re.M)
TOOLS = {"unshare": "util-linux", "ip": "iproute2", "bpftool": "bpftool", "xdp-loader": "xdp-tools"}
INSIDE = "--inside"
PREPARED = "mount -t bpf bpf /sys/fs/bpf && ip link set dev lo up && bpftool prog show > /dev/null"


def missing() -> list[str]:
    """The tools that are not there, each with its package."""
    return [f"{it} (Debian: {package})" for it, package in TOOLS.items() if not shutil.which(it)]


def inside(script: str, *words: str) -> int:
    """Runs a script of python in a network namespace and a mount namespace of its own, which has a BPF file system;
    the result is its status, or 77 where that cannot be."""
    name = os.path.basename(script)
    if not sys.platform.startswith("linux") or os.geteuid() != 0:
        print(f"{name}: not tried, since it needs Linux and root")
        return CANNOT
    if missing():
        print(f"{name}: not tried, since there is no {', no '.join(missing())}")
        return CANNOT
    apart = ["unshare", "-m", "-n", "--propagation", "private"]
    tried = subprocess.run([*apart, "bash", "-c", PREPARED], capture_output=True, text=True, check=False)
    if tried.returncode:
        print(f"{name}: not tried, since a namespace with BPF cannot be made here: {tried.stderr.strip()}")
        return CANNOT
    start = f'{PREPARED} && exec "$@"'
    return subprocess.run([*apart, "bash", "-c", start, "bash", sys.executable, script, INSIDE, *words], check=False).returncode


def examples(page: str) -> Iterator[tuple[str, str, str]]:
    """Each command of a page, with the output that it says and the one that there is; files of the page are written."""
    for kind, body in BLOCK.findall(page):
        if kind.endswith(".text"):
            with open(kind, "w", encoding="utf-8") as file:
                file.write(body)
        for command, wanted in COMMAND.findall(body) if kind in ("console", "namespace") else []:
            ran = subprocess.run(
                ["bash", "-c", command], stdin=subprocess.DEVNULL, capture_output=True, text=True, timeout=100, check=False
            )
            yield command, wanted, ran.stdout + (f"{ran.stderr}" if ran.stdout != wanted else "")


def run_page(program: str) -> int:
    runs = differ = 0
    with open(os.path.join(TOP, PAGE), encoding="utf-8") as file:
        page = file.read()
    with tempfile.TemporaryDirectory() as folder:
        os.chdir(folder)
        for name in ("examples", "tools"):
            os.symlink(os.path.join(TOP, name), name)
        os.mkdir("bin")
        os.symlink(program, "bin/xdpvm")
        os.environ.update(XDPVM=program, PATH=f"{folder}/bin{os.pathsep}{os.environ['PATH']}")
        for command, wanted, answer in examples(page):
            runs += 1
            if answer != wanted:
                differ += 1
                print(f"{PAGE}: {command}\nwanted:\n{wanted}answered:\n{answer}")
        os.chdir("/")
    print(f"{runs} examples of {PAGE}, {differ} differ")
    return 1 if differ or not runs else 0


def main() -> int:
    parser = command_line()
    parser.add_argument(INSIDE, action="store_true", help=argparse.SUPPRESS)
    parser.add_argument("program", nargs="?", type=runnable, default=built())
    given = parser.parse_args()
    return run_page(given.program) if given.inside else inside(os.path.abspath(__file__), given.program)


if __name__ == "__main__":
    sys.exit(main())
