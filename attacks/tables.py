#!/usr/bin/env python3
"""Damages proof tables, and compares the verdicts of `xdpvm recheck` with a judge that is written
here.

usage: python3 attacks/tables.py [PROGRAM] [--version N] [--random N] [--seed S] [--few N] [--library FILE]

PROGRAM is an optimized `xdpvm`. Each byte of the table of `r0 = 2; exit` is changed to each other value, and the table
is cut after each byte: the verdict must be the judge's, except for the step's own refusal after P7.
Then N tables (20,000) of four larger programs are damaged at random: by changed bytes, by bytes
taken out or put in, by a cut, or by an entry that is there twice. Their form and
fields are judged. Each table that is accepted must run its program as `run` does without a table,
and its bound must not be below the steps that were made. The programs are of version N of images
(1). With --few only every N-th of the changed tables is tried. --library is as for fuzz.py. The
exit status is 0 if nothing differs.
"""
import collections
import os
import random
import struct
import sys
import tempfile
from collections.abc import Iterator

sys.path.insert(0, os.path.join(os.path.dirname(os.path.abspath(__file__)), "../checks"))
from common import built, bytes_of, command_line, record, runnable, write
import table
from fuzz import runner
from in_process import Run, loadable
from table import Refused

SMALL = "r0 = 2\nexit\n"
LARGER = {
    "calls": (
        "r6 = *(u32 *)(r1 + 12)\nr1 = r6\ncall leaf\nr7 = r0\nr1 = 5\ncall leaf\nr0 += r7\nr0 &= 1\nexit\n"
        "leaf: *(u64 *)(r10 - 8) = r1\nr0 = *(u64 *)(r10 - 8)\nif r0 > 9 goto big\nr0 += 1\nexit\nbig: r0 = 9\nexit\n"
    ),
    "packet": (
        "r2 = *(u32 *)(r1 + 0)\nr3 = *(u32 *)(r1 + 4)\n*(u64 *)(r10 - 8) = r2\nr4 = r2\nr4 += 14\nif r4 > r3 goto out\n"
        "r5 = *(u8 *)(r2 + 0)\nr5 &= 7\nr2 += r5\nr0 = *(u8 *)(r2 + 1)\nr0 &= 1\nexit\nout: r0 = 2\nexit\n"
    ),
    "loop": "r1 = 0\nr2 = 7\nloop: r1 += 1\nr2 ^= r1\n*(u64 *)(r10 - 16) = r2\nif r1 < 5 goto loop\nr0 = 1\nexit\n",
    "maps": (
        "map array 4 8 2\nmap hash 4 8 2\n*(u32 *)(r10 - 4) = 1\nr2 = r10\nr2 += -4\nr1 = map_by_idx(0)\ncall 1\n"
        "if r0 == 0 goto none\nr1 = *(u64 *)(r0 + 0)\nr1 += 1\n*(u64 *)(r0 + 0) = r1\nnone: r0 = 2\nexit\n"
    ),
}
FRAMES = b"XPF1" + b"".join(record(1, (at, 1, 0), 0, bytes(size)) for at, size in enumerate([0, 14, 64]))


# ---- the judge


def allowed(value: table.Value, holder: int, rows: int) -> bool:
    """Whether the fields of a value are allowed, in that call frame of a program with this many map
    rows."""
    name, fields = value[0], list[int](value[1:])
    if name == "number":
        known, mask, *limits = fields
        return not known & mask and all(limits[at] <= limits[at + 1] for at in range(0, 8, 2))
    if name == "stack":
        return fields[0] <= holder
    if name == "packet":
        _, identity, least, greatest, _ = fields
        return least <= greatest and (identity != 0 or (least, greatest) == (0, 0))
    if name == "value":
        return fields[0] < rows and fields[1] <= fields[2]
    return name not in ("map", "null") or fields[0] < rows


def frame_allowed(frame: table.Frame, holder: int, inner: bool, rows: int) -> bool:
    slots = [slot for slot in frame.slots if slot[0] != "bytes"]
    return (
        all(allowed(value, holder, rows) for value in frame.registers + slots)
        and ("unset",) not in slots
        and (holder > 0 or not frame.leads)
        and (inner or all(value == table.UNSET for value in frame.registers[:6]))
    )


def entry_allowed(entry: table.Entry, starts: set[int], rows: int) -> bool:
    frames = entry.frames
    return (
        1 <= entry.number <= table.MOST
        and entry.slot in starts
        and all(frame_allowed(frame, at, at == len(frames) - 1, rows) for at, frame in enumerate(frames))
    )


def read(data: bytes, starts: set[int], rows: int) -> list[table.Entry]:
    """The entries of a table. Refused: P1 to P5."""
    entries = table.entries_of(data)
    for at, entry in enumerate(entries):
        if not entry_allowed(entry, starts, rows):
            raise Refused("P5", at)
    return entries


def value_covers(one: table.Value, other: table.Value) -> bool:
    if one in (table.UNSET, other):
        return True
    if one[0] != "number" or other[0] != "number":
        return False
    (_, value, mask, *limits), (_, there, unknown, *theirs) = one, other
    least = all(limits[at] <= theirs[at] for at in range(0, 8, 2))
    return not unknown & ~mask and there & ~mask == value and least and all(limits[at] >= theirs[at] for at in range(1, 8, 2))


def slot_covers(one: table.Value, other: table.Value) -> bool:
    if one[0] == "bytes":
        marks: int = other[1] if other[0] == "bytes" else 255
        return bool(one[1] & marks == one[1])
    return other[0] != "bytes" and value_covers(one, other)


def covers(slot: int, frames: list[table.Frame], other_slot: int, others: list[table.Frame]) -> bool:
    """Whether a state of one call frame covers another of one call frame."""
    one, other = frames[0], others[0]
    return (
        slot == other_slot
        and len(frames) == len(others) == 1
        and one.leads == other.leads
        and all(map(value_covers, one.registers, other.registers))
        and all(map(slot_covers, one.slots, other.slots))
    )


def is_answer(value: table.Value, version: int) -> bool:
    """Whether r0 may be this at the last exit: a number, in version 2 one whose low half is known to be 4 at most."""
    if value[0] != "number" or version == 1:
        return bool(value[0] == "number")
    _, known, mask, _, greatest, _, _, _, low_greatest, _, _ = value
    return bool(min((known | mask) % 2**32, low_greatest, greatest) <= 4)


def judged_small(data: bytes, version: int) -> str:
    """The verdict on a table of `r0 = 2; exit`."""
    try:
        entries = read(data, {0, 1}, 0)
    except Refused as refused:
        return str(refused)
    start = table.Frame()
    start.registers[1] = table.CONTEXT
    if not covers(entries[0].slot, entries[0].frames, 0, [start]):
        return "P6"
    for at, entry in enumerate(entries):
        frame = entry.frames[0]
        if entry.slot == 1:
            if not is_answer(frame.registers[0], version):
                return f"P7 entry {at}"
            if entry.successors:
                return f"P8 entry {at}"
            continue
        frame.registers[0] = table.constant(2)
        named = [entries[index] for index in entry.successors if index < len(entries)]
        follows = len(entry.successors) == len(named) == 1 and named[0].number < entry.number
        if not follows or not covers(named[0].slot, named[0].frames, 1, entry.frames):
            return f"P8 entry {at}"
        frame.registers[0] = table.UNSET if at else frame.registers[0]
    return f"ok bound {entries[0].number}"


# ---- the program


class Tried:
    """A program, and what was tried with it."""

    def __init__(self, run: Run, version: int) -> None:
        self.run, self.version = run, version
        self.counts: collections.Counter[str] = collections.Counter()
        self.wrong: list[tuple[object, ...]] = []
        self.ran: dict[str, tuple[int, str]] = {}

    def said(self, *words: str) -> tuple[int, str]:
        ended = self.run(*words)
        return ended.returncode, ended.stdout.decode().strip()

    def make(self, name: str, text: str) -> bytes:
        write(f"{name}.text", "version 2\n" * (self.version - 1) + text)
        for words in (["asm", f"{name}.text", f"{name}.image"], ["prove", f"{name}.image", f"{name}.table"]):
            status, out = self.said(*words)
            if status:
                sys.exit(f"{name}: {' '.join(words)}: {out}")
        self.ran[name] = self.said("run", f"{name}.image", "frames", "sent")
        return bytes_of(f"{name}.table")

    def answer(self, name: str, data: bytes) -> str:
        """The answer of recheck, as the judge words it; an accepted table's program is run."""
        write("damaged", data)
        status, out = self.said("recheck", f"{name}.image", "damaged")
        words = out.split()
        answer = out if words[:1] == ["ok"] else " ".join(words[1:4] if "entry" in words else words[1:2])
        self.counts[answer.split()[0]] += 1
        if words[:1] != (["refused"] if status else ["ok"]):
            self.wrong.append((name, status, out))
        if status == 0:
            if self.said("run", f"{name}.image", "frames", "sent", "--table", "damaged") != self.ran[name]:
                self.wrong.append((name, "runs otherwise", out))
            if int(words[2]) < max(int(line.split()[3]) for line in self.ran[name][1].splitlines() if line[0].isdigit()):
                self.wrong.append((name, "bound below the steps", out))
        return answer


def changed_bytes(data: bytes, every: int) -> Iterator[bytes]:
    cuts = [data[:at] for at in range(len(data))]
    changes = (data[:at] + bytes([byte]) + data[at + 1 :] for at in range(len(data)) for byte in range(256) if byte != data[at])
    yield from cuts
    for at, one in enumerate(changes):
        if at % every == 0:
            yield one


def damaged(right: bytes, chance: random.Random) -> bytes:
    data = bytearray(right)
    for _ in range(chance.choice([1, 1, 1, 2, 3])):
        at = chance.randrange(len(data))
        form = chance.randrange(8)
        if form < 5:
            data[at] = chance.choice([chance.randrange(256), data[at] ^ 1 << chance.randrange(8), 0, 1, 255])
        elif form == 5:
            del data[at : at + chance.choice([1, 1, 4, 66])]
        elif form == 6:
            data[at:at] = bytes(chance.choice([1, 1, 4, 66]))
        else:
            del data[at:]
        data = data or bytearray(b"X")
    return bytes(data)


def main() -> None:
    words = command_line()
    words.add_argument("program", nargs="?", type=runnable, default=built())
    words.add_argument("--version", type=int, choices=[1, 2], default=1)
    words.add_argument("--random", type=int, default=20_000)
    words.add_argument("--seed", type=int, default=1)
    words.add_argument("--few", type=int, default=1)
    words.add_argument("--library", type=loadable)
    given = words.parse_args()
    tried, chance = Tried(runner(given.program, given.library), given.version), random.Random(given.seed)
    with tempfile.TemporaryDirectory() as room:
        os.chdir(room)
        write("frames", FRAMES)
        data = tried.make("small", SMALL)
        for one in changed_bytes(data, given.few):
            answer, judged = tried.answer("small", one), judged_small(one, given.version)
            if answer != judged:
                tried.wrong.append(("small", answer, judged))
        print("changed bytes and cuts:", dict(tried.counts), flush=True)
        tried.counts.clear()
        for name, text in LARGER.items():
            data = tried.make(name, text)
            image = bytes_of(f"{name}.image")
            rows, slots = struct.unpack_from("<HH", image, 4)
            code = image[len(image) - 8 * slots :]
            wide = {at for at in range(1, slots) if code[8 * at - 8] == 0x18}
            starts = set(range(slots)) - {at for at in wide if at - 1 not in wide}
            for _ in range(given.random // len(LARGER)):
                one = damaged(data, chance)
                answer = tried.answer(name, one)
                try:
                    read(one, starts, rows)
                    if answer[:2] in ("P1", "P2", "P3", "P4", "P5"):
                        tried.wrong.append((name, answer, "well formed"))
                except Refused as refused:
                    if answer != str(refused):
                        tried.wrong.append((name, answer, str(refused)))
        print("random damages:", dict(tried.counts))
    for wrong in tried.wrong[:20]:
        print("DIFFERS", *wrong)
    sys.exit(1 if tried.wrong else 0)


if __name__ == "__main__":
    main()
