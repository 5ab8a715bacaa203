#!/usr/bin/env python3
"""Measures `xdpvm recheck`: entries a second and peak memory on a table of 1,000,000 entries, which a script makes, and
on the tables that `xdpvm prove` makes of other programs, beside `verify` of the same program.

usage: python3 bench/recheck.py [PROGRAM]

PROGRAM is the program that `rt run` leaves in crates/xdpvm (the default: crates/xdpvm/out/xdpvm). All seconds are
processor seconds of one process, and each figure is the least of TIMES runs (the default is 5)
which take turns. Beside it is the time in which `recheck` refuses the table without its last byte,
which reads the file and passes over the entries once.
"""
import os
import struct
import subprocess
import sys
import tempfile
from collections.abc import Iterator

sys.path.insert(0, os.path.join(os.path.dirname(os.path.abspath(__file__)), "../checks"))
import common
import table

PROGRAM = common.program()
TIMES = int(os.environ.get("TIMES", "5"))
LONGEST, ENTRIES = 4096, 1_000_000

DEEP = (
    "".join(
        f"{f'f{depth}: ' if depth else ''}r6 = 5\n*(u64 *)(r10 - 8) = r6\n*(u64 *)(r10 - 16) = r10\n"
        + (f"call f{depth + 1}\n{'' if depth else 'r0 = 2' + chr(10)}exit\n" if depth < 6 else "")
        for depth in range(7)
    )
    + "r6 = 0\nloop: r1 = r6\ncall leaf\nr6 += 1\nif r6 < 10000 goto loop\nr0 = 1\nexit\nleaf: r0 = r1\nr0 += 1\nr2 = r0\nexit\n"
)

PROGRAMS = {
    "loop of 300,000 turns": common.counted_loop(300_000),
    "loop counted on the stack": common.stack_loop(100_000),
    "six values on the stack": common.text_of(f"{common.TOP}/bench/spills.text"),
    "a call in each turn": "r6 = 0\nloop: r1 = r6\ncall f\nr6 += 1\nif r6 < 40000 goto loop\nr0 = 2\nexit\n"
    "f: r0 = r1\n*(u64 *)(r10 - 8) = r1\nr0 += 1\nr2 = *(u64 *)(r10 - 8)\nr0 += r2\nexit\n",
    "calls from the seventh frame": DEEP,
    "17 branches": common.branches(17),
}


def chain_table() -> Iterator[bytes]:
    """A closed table of the chain of 4,096 slots: 244 copies of its entries, and the end of one more."""
    bodies: list[bytes] = []
    for slot in range(LONGEST):
        frame = table.Frame()
        frame.registers[1] = table.CONTEXT
        if slot:
            frame.registers[0] = table.constant(slot - 1)
        bodies.append(struct.pack("<IHB", LONGEST - slot, slot, 1) + table.frame_bytes(frame))
    short = ENTRIES % LONGEST
    slots = [at % LONGEST for at in range(ENTRIES - short)] + list(range(LONGEST - short, LONGEST))
    yield table.MAGIC + struct.pack("<I", ENTRIES)
    for at, slot in enumerate(slots):
        yield bodies[slot] + (struct.pack("<BI", 1, at + 1) if slot < LONGEST - 1 else b"\0")


def measured(*words: str) -> tuple[str, float]:
    """The last line that the program writes, and its processor seconds."""
    ran = common.measured([PROGRAM, *words])
    return (ran.out.strip().splitlines() or [""])[-1], ran.seconds


def compare(name: str, image: str, path: str) -> None:
    """Prints a row: `recheck` of a table beside `verify` of its program."""
    commands: dict[str, tuple[str, ...]] = {
        "verify": ("verify", image),
        "recheck": ("recheck", image, path),
        "short": ("recheck", image, "short"),
    }
    size = os.path.getsize(path)
    with open(path, "rb") as source, open("short", "wb") as file:
        (entries,) = struct.unpack("<I", source.read(8)[4:])
        source.seek(0)
        file.write(source.read(size - 1))
    seconds: dict[str, list[float]] = {key: [] for key in commands}
    lines = {}
    for _ in range(TIMES):
        for key, words in commands.items():
            lines[key], taken = measured(*words)
            seconds[key].append(taken)
    most = common.peak([PROGRAM, *commands["recheck"]])
    best = {key: min(taken) for key, taken in seconds.items()}
    if not lines["recheck"].startswith("ok") or lines["short"] != "refused P2":
        sys.exit(f"{name}: {lines}")
    print(
        f"{name}: {entries} entries, {size / 2**20:.0f} MB; verify {best['verify']:.3f} s, recheck {best['recheck']:.3f} s"
        f" ({entries / best['recheck'] / 1e6:.2f} million a second, {best['recheck'] / best['verify']:.2f} of verify;"
        f" one byte short {best['short']:.3f} s), peak {most - size / 2**20:.1f} MB beside the table",
        flush=True,
    )


def main() -> None:
    common.need(PROGRAM)
    with tempfile.TemporaryDirectory() as room:
        os.chdir(room)
        text = "r0 = 0\n" + "r0 += 1\n" * (LONGEST - 2) + "exit\n"
        for name, text in {"chain of 4,096 slots": text, **PROGRAMS}.items():
            subprocess.run([PROGRAM, "asm", common.write("text", text), "image"], check=True, stdout=subprocess.DEVNULL)
            if name.startswith("chain"):
                with open("table", "wb") as file:
                    file.writelines(chain_table())
            else:
                subprocess.run([PROGRAM, "prove", "image", "table"], check=True, stdout=subprocess.DEVNULL)
            compare(name, "image", "table")


if __name__ == "__main__":
    main()
