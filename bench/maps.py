#!/usr/bin/env python3
"""Measures maps: look-ups of present and of absent keys, and updates, in a hash map of 65,536 keys
of 4 bytes with values of 8 bytes, beside a hash table of chains in C (bench/chains.c, gcc -O2), and
the making of a map of 16 MiB.

usage: python3 bench/maps.py

The program in Rattle, bench/maps.text, is proved and built as a crate of a copy of this repository,
which is removed at the end; what the crates below it keep in out/ is copied too.
bench/maps_rows.text is its one proof. Each figure is the best of three runs, which take turns.
"""
import os
import shutil
import subprocess
import sys
import tempfile

sys.path.insert(0, os.path.join(os.path.dirname(os.path.abspath(__file__)), "../checks"))
from common import TOP, text_of, write

HERE = f"{TOP}/bench"
CALLS = 65_536 * 200
TIMES = 3
BELOW = ["isa_model", "exact_io", "insn_codec", "image", "map_indexes", "maps"]


def built(folder: str) -> str:
    """The program in Rattle."""
    top = os.path.join(folder, "repository")
    crate = os.path.join(top, "crates/map_bench")
    os.makedirs(os.path.join(crate, "src"))
    os.makedirs(os.path.join(crate, "proofs/made"))
    for name in BELOW:
        shutil.copytree(os.path.join(TOP, "crates", name), os.path.join(top, "crates", name), symlinks=True)
    shutil.copy(os.path.join(HERE, "maps.text"), os.path.join(crate, "src/main.rt"))
    shutil.copy(os.path.join(HERE, "maps_rows.text"), os.path.join(crate, "proofs/made/Answers.antt"))
    rows = [row for row in text_of(f"{TOP}/crates.txt").splitlines() if row.split(":")[0] in BELOW]
    write(f"{top}/crates.txt", "\n".join([*rows, "map_bench: isa_model maps", ""]))
    ended = subprocess.run(["rt", "run"], cwd=crate, stdout=subprocess.PIPE, stderr=subprocess.STDOUT, text=True, check=False)
    program = os.path.join(crate, "out/map_bench")
    if not os.path.exists(program):
        sys.exit(ended.stdout)
    return program


def figures(words: list[str]) -> dict[str, float]:
    """What a program prints: a number of microseconds, or of nanoseconds for each call, by name."""
    text = subprocess.run(words, stdout=subprocess.PIPE, text=True, check=True).stdout
    return {row.split()[0]: float(row.split()[1]) for row in text.splitlines()}


def main() -> None:
    with tempfile.TemporaryDirectory() as folder:
        in_c = os.path.join(folder, "chains")
        subprocess.run(["gcc", "-O2", "-o", in_c, os.path.join(HERE, "chains.c")], check=True)
        program = built(folder)
        runs = [(figures([program]), figures([in_c])) for _ in range(TIMES)]
    print(f"{'call':<24}{'ns':>8}{'ns in C':>10}{'times C':>9}")
    for name in ["present", "absent", "update"]:
        ours = min(run[0][name] for run in runs) * 1000 / CALLS
        theirs = min(run[1][name] for run in runs)
        print(f"{name:<24}{ours:>8.1f}{theirs:>10.1f}{ours / theirs:>9.2f}")
    print(f"making a map of 16 MiB: {min(run[0]['making'] for run in runs) / 1000:.1f} ms")


main()
