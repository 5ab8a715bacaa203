#!/usr/bin/env python3
"""Tests that `recheck` accepts what `prove` writes, with the bound of `verify`, and that damaged
tables are refused or true.

usage: python3 attacks/proofs.py [--program XDPVM] [--random N] [--damages N] [--seed S] [--library FILE] [IMAGE|FOLDER ..]

It proves the images and the folders of images that are given (those of examples/ if none is), N
programs of attacks/random_programs.py in either version, and programs that keep a value of each
kind on the stack and have eight call frames. For each accepted one `prove`, `recheck` and `verify`
have to say the same bound; if `verify` refuses one, `prove` has to say the same, and make no file.

Of each table of up to 200,000 bytes N times an entry is dropped, two entries are swapped, a number is lowered or raised,
a register or a slot of the stack is widened or narrowed, alone or wherever it holds the same value, a successor leads to
another entry, an identity is renamed, an entry is there twice and half of its predecessors lead to a changed copy, a call
frame is there twice or gone, or registers, call frames, slots or whole entries of another entry or of another program's
table are taken; or the table is given to a program where one instruction differs. A table that `recheck` accepts then has
to be true: the program runs by it on six random frames as `trace` runs it, with no trap and no more steps than its bound.
If the program is refused by `verify`, each table that is accepted is reported too. The last line
counts, also after an interrupt; the exit status is 1 if anything was wrong. --library is as for
fuzz.py.
"""
import itertools
import os
import random
import struct
import sys
import tempfile
from collections import Counter
from collections.abc import Callable, Iterator

sys.path.insert(0, os.path.join(os.path.dirname(os.path.abspath(__file__)), "../checks"))
import common
from common import TOP, bytes_of, there, write
import table
from fuzz import frames, runner, wait
from in_process import Library, Run, Runner, loadable, records
from random_programs import Maker

Counts = Counter[str | tuple[str, str]]
Place = tuple[list[table.Value], int]  # registers or slots, and the index of one
EIGHT_FRAMES = "r1 = 1; call a; exit; a: if r1 > 6 goto last; r6 = r1; r1 += 1; call a; r0 += r6; exit; last: r0 = 0; exit"
EACH_KIND = """map hash 4 8 2; map array 4 8 1; *(u64 *)(r10 - 8) = r1; *(u64 *)(r10 - 16) = r10; r2 = *(u32 *)(r1 + 0)
    r3 = *(u32 *)(r1 + 4); r4 = *(u32 *)(r1 + 12); *(u64 *)(r10 - 24) = r2; *(u64 *)(r10 - 32) = r3; *(u64 *)(r10 - 40) = r4
    r5 = map_by_idx(0); *(u64 *)(r10 - 48) = r5; *(u32 *)(r10 - 52) = r4; r1 = r5; r2 = r10; r2 += -52; call 1
    *(u64 *)(r10 - 64) = r0; if r0 == 0 goto none; r1 = *(u64 *)(r10 - 64); r0 = *(u64 *)(r1 + 0); r0 &= 1; exit
    none: r2 = *(u64 *)(r10 - 24); r3 = *(u64 *)(r10 - 32); r4 = r2; r5 = *(u64 *)(r10 - 40); r5 &= 31; r4 += r5; r4 += 4
    *(u64 *)(r10 - 72) = r4; if r4 > r3 goto short; r4 = *(u64 *)(r10 - 72); r0 = *(u32 *)(r4 - 4); r0 &= 1; exit
    short: r0 = 1; exit"""


# ---- damages of the entries of a table


def copied(entry: table.Entry) -> table.Entry:
    made = table.Entry(entry.number, entry.slot, entry.successors)
    made.frames = []
    for frame in entry.frames:
        other = table.Frame.__new__(table.Frame)
        other.leads, other.registers, other.slots = frame.leads, list(frame.registers), list(frame.slots)
        made.frames.append(other)
    return made


def own(
    chance: random.Random, entries: list[table.Entry], which: Callable[[table.Entry], object] = lambda entry: True
) -> table.Entry | None:
    """Some entry, which may be changed: it is a copy. None: there is none."""
    places = [at for at, entry in enumerate(entries) if which(entry)]
    if not places:
        return None
    at = chance.choice(places)
    entries[at] = copied(entries[at])
    return entries[at]


def some(chance: random.Random, entries: list[table.Entry]) -> table.Entry:
    """The same of a table with entries."""
    return there(own(chance, entries))


def dropped(chance: random.Random, entries: list[table.Entry]) -> None:
    del entries[chance.randrange(len(entries))]


def swapped(chance: random.Random, entries: list[table.Entry]) -> None:
    one, other = (chance.randrange(len(entries)) for _ in range(2))
    entries[one], entries[other] = entries[other], entries[one]


def lowered(chance: random.Random, entries: list[table.Entry]) -> None:
    entry = some(chance, entries)
    entry.number = max(1, entry.number - chance.choice([1, 1, 2, 10, entry.number]))


def places(entry: table.Entry) -> list[Place]:
    """The registers and slots of an entry that hold a value: the list, and the index."""
    return [
        (values, at)
        for frame in entry.frames
        for values in (frame.registers, frame.slots)
        for at, value in enumerate(values)
        if value[0] not in ("unset", "bytes")
    ]


def changed_value(
    chance: random.Random, entries: list[table.Entry], change: Callable[[table.Value], table.Value], alone: float = 0.6
) -> None:
    """A value of some entry that is changed there, or in all entries that hold it at this index."""
    entry = some(chance, entries)
    given = places(entry)
    if not given:
        return
    values, at = chance.choice(given)
    spilled = all(values is not frame.registers for frame in entry.frames)
    old, new = values[at], change(values[at])
    new = table.BLANK if spilled and new == table.UNSET else new
    values[at] = new
    for index in range(len(entries) if chance.random() > alone else 0):
        lists = [frame.slots if spilled else frame.registers for frame in entries[index].frames]
        if any(there[at] == old for there in lists):
            entries[index] = copied(entries[index])
            for frame in entries[index].frames:
                there = frame.slots if spilled else frame.registers
                there[at] = new if there[at] == old else there[at]


def widened(chance: random.Random, entries: list[table.Entry]) -> None:
    changed_value(
        chance, entries, lambda value: table.any_number() if value[0] == "number" and chance.random() < 0.7 else table.UNSET
    )


def narrower(chance: random.Random, value: table.Value) -> table.Value:
    fields = list(value)
    if value[0] == "number":
        return table.constant(chance.choice([value[1], value[1] + 1, value[3], value[4]]))
    if value[0] == "packet":
        fields[chance.choice([5, 5, 3, 4])] += chance.choice([1, 8, 4096, -1])
        fields[5] %= 2**32
    elif value[0] in ("value", "stack"):
        fields[-1] -= chance.choice([1, 8])
    elif value[0] == "null":
        return ("value", value[1], 0, 0)
    return tuple(fields)


def narrowed(chance: random.Random, entries: list[table.Entry]) -> None:
    changed_value(chance, entries, lambda value: narrower(chance, value))


def doubled(chance: random.Random, entries: list[table.Entry]) -> None:
    """An entry that is there twice; one successor of another entry, or those of half of the entries, lead to a changed copy."""
    at = chance.randrange(len(entries))
    entries.append(copied(entries[at]))
    before = [index for index, entry in enumerate(entries) if at in entry.successors]
    for index in chance.sample(before, (len(before) + 1) // 2):
        entries[index] = copied(entries[index])
        entries[index].successors = [len(entries) - 1 if to == at else to for to in entries[index].successors]
    last = entries[-1:]
    chance.choice([widened, narrowed, lowered, raised, renamed, respilled])(chance, last)
    entries[-1] = last[0]


def deepened(chance: random.Random, entries: list[table.Entry]) -> None:
    """A call frame that is there twice, or gone, in one entry or in all."""
    for index in range(len(entries)) if chance.random() < 0.2 else [chance.randrange(len(entries))]:
        entry = entries[index] = copied(entries[index])
        at = chance.randrange(len(entry.frames))
        if len(entry.frames) > 1 and chance.random() < 0.5:
            del entry.frames[at]
        elif len(entry.frames) < 8:
            entry.frames.insert(at, copied(entry).frames[at])


OTHERS: list[table.Entry] = []  # entries of other programs' tables


def borrowed(chance: random.Random, entries: list[table.Entry]) -> None:
    """A state of another program's table, at this one's slot or at its own."""
    if OTHERS:
        entry, other = some(chance, entries), copied(chance.choice(OTHERS))
        entry.frames = other.frames
        entry.slot = chance.choice([entry.slot, entry.slot, other.slot])


def raised(chance: random.Random, entries: list[table.Entry]) -> None:
    entry = some(chance, entries)
    entry.number = min(table.MOST, entry.number + chance.choice([1, 1, 2, 10, 1000]))


def redirected(chance: random.Random, entries: list[table.Entry]) -> None:
    """A successor that is another entry, both exchanged, one dropped, or one twice."""
    entry = own(chance, entries, lambda entry: entry.successors)
    if entry:
        at, form = chance.randrange(len(entry.successors)), chance.randrange(4)
        if form < 2:
            entry.successors[at] = chance.choice([chance.randrange(len(entries)), entry.successors[at] + 1, len(entries)])
        elif form == 2:
            entry.successors.reverse()
        else:
            entry.successors = chance.choice([entry.successors[:at], entry.successors[:1] * 2])


def names(frame: table.Frame) -> list[tuple[list[table.Value], int, int]]:
    """The registers and slots of a call frame that name an identity: the list, the index, and where
    in the value it is."""
    return [
        (values, at, 2)
        for values in (frame.registers, frame.slots)
        for at, value in enumerate(values)
        if value[0] in ("packet", "null")
    ]


def renamed(chance: random.Random, entries: list[table.Entry]) -> None:
    """An identity that is another one, once in an entry or everywhere in it."""
    entry = own(chance, entries, lambda entry: any(names(frame) for frame in entry.frames))
    places = [place for frame in (entry.frames if entry else []) for place in names(frame)]
    if places:
        values, at, field = chance.choice(places)
        old, new = values[at][field], chance.choice([0, 1, 2, values[at][field] + 1, chance.randrange(8)])
        for values, at, field in places if chance.random() < 0.5 else [(values, at, field)]:
            if values[at][field] == old:
                values[at] = values[at][:field] + (new,) + values[at][field + 1 :]


def mixed(chance: random.Random, entries: list[table.Entry]) -> None:
    """A register, a slot of the stack, a call frame or a slot of the code that is another entry's."""
    other, entry = copied(chance.choice(entries)), some(chance, entries)
    frame, given = chance.choice(entry.frames), chance.choice(other.frames)
    at, form = chance.randrange(10), chance.randrange(6)
    if form < 2:
        frame.registers[at] = chance.choice([given.registers[at], chance.choice(given.registers)])
    elif form == 2:
        at = chance.randrange(64)
        frame.slots[at] = given.slots[at]
    elif form == 3:
        entry.frames[-1] = other.frames[-1]
    elif form == 4:
        entry.frames = other.frames
    else:
        frame.leads = given.leads


def respilled(chance: random.Random, entries: list[table.Entry]) -> None:
    """A slot of the stack where something is known, that is blank, all bytes, or a number."""
    frame = chance.choice(some(chance, entries).frames)
    known = [at for at, slot in enumerate(frame.slots) if slot != table.BLANK]
    if known:
        frame.slots[chance.choice(known)] = chance.choice(
            [table.BLANK, ("bytes", 255), ("bytes", 15), table.constant(0), table.any_number()]
        )


DAMAGES = [dropped, swapped, lowered, raised, widened, narrowed, redirected, renamed, mixed, respilled, doubled, deepened, borrowed]


def other_program(chance: random.Random, image: bytes) -> bytes:
    """The image with a field of an instruction changed, which a table of the first one may fit or not."""
    maps, slots = struct.unpack_from("<HH", image, 4)
    at, changed = 8 + 12 * maps + 8 * chance.randrange(slots), bytearray(image)
    form = chance.randrange(4)
    if form == 0:
        changed[at + 1] = chance.choice([changed[at + 1] ^ 1 << chance.randrange(8), chance.randrange(11) | changed[at + 1] & 240])
    elif form == 1:
        struct.pack_into(
            "<h",
            changed,
            at + 2,
            max(-(2**15), min(2**15 - 1, struct.unpack_from("<h", image, at + 2)[0] + chance.choice([-8, -1, 1, 8]))),
        )
    elif form == 2:
        number = struct.unpack_from("<i", image, at + 4)[0]
        struct.pack_into(
            "<i", changed, at + 4, max(-(2**31), min(2**31 - 1, chance.choice([number - 1, number + 1, number + 8, 0, -1])))
        )
    else:
        changed[at] = chance.choice([changed[at] ^ 1 << chance.randrange(3, 8), changed[at] ^ 3])
    return bytes(changed)


# ---- what is wrong


RUN: Run  # the program, or a library in this process


def runs_alike(library: Library, image: bytes, stream: bytes, bound: int) -> bool:
    """The same in this process; of a program with maps each frame on starting maps, in a session of its own."""
    frames_of = list(records(stream))
    streams = [frames_of] if image[4:6] == b"\0\0" else [[frame] for frame in frames_of]
    by_table = [library.runs_by_table(image, bytes_of("damaged"), part) or [] for part in streams]
    traced = [library.trace(image, head, packet) for head, _, packet in frames_of]
    exits = all(kind == 0 and steps <= bound for _, steps, kind, _, _ in traced)
    return exits and sum(by_table, []) == [(r0, steps, after) for r0, steps, _, _, after in traced]


def is_true(chance: random.Random, image: str, bound: int) -> bool:
    """Whether the program runs by the damaged table as it is traced, and within the bound that this shows. One with maps
    runs by the library on starting maps, too."""
    stream, program = frames(chance, chance.choice([1, 2])), bytes_of(image)
    if isinstance(RUN, Runner):
        alike = runs_alike(RUN.library, program, stream, bound)
        if not alike or program[4:6] == b"\0\0":
            return alike
    write("frames", stream)
    ran, traced = RUN("run", image, "frames", "sent", "--table", "damaged"), RUN("trace", image, "frames", "traced")
    rows = [line.split() for line in ran.stdout.decode().splitlines()]
    within = all(row[1] not in ("TRAP", "LIMIT") and int(row[3]) <= bound for row in rows if row[0].isdigit())
    return within and ran.stdout == traced.stdout and bytes_of("sent") == bytes_of("traced")


def judged(chance: random.Random, image: str, what: str, counts: Counts) -> str | None:
    """What is wrong with the answer to the damaged table for an image."""
    answer = RUN("recheck", image, "damaged")
    said = answer.stdout.decode().split()
    if (answer.returncode, said[:1]) == (2, ["refused"]):
        counts[what, said[1]] += 1
        return None
    counts[what, "accepted"] += 1
    if (answer.returncode, said[:2]) != (0, ["ok", "bound"]) or not is_true(chance, image, int(said[2])):
        return f"{what}: {answer}"
    if what == "other_program" and RUN("verify", image).returncode:
        counts["refused by verify, shown by a table"] += 1
        print(f"a refused program is shown by a table: {bytes_of(image).hex()}", flush=True)
    return None


class Proof:
    """A program with its table: the entries, and the bytes of each."""

    def __init__(self, image: bytes, data: bytes) -> None:
        self.image, self.data, self.entries = image, data, table.entries_of(data)
        self.spelled = {id(entry): table.entry_bytes(entry) for entry in self.entries}

    def bytes_of(self, entries: list[table.Entry]) -> bytes:
        parts = [self.spelled[id(entry)] if id(entry) in self.spelled else table.entry_bytes(entry) for entry in entries]
        return table.MAGIC + struct.pack("<I", len(entries)) + b"".join(parts)

    def damaged(self, chance: random.Random, counts: Counts) -> str | None:
        """What is wrong with the answer to a table that was damaged, once or twice, or that is of another program."""
        if chance.random() < 0.15:
            other = other_program(chance, self.image)
            if other == self.image:
                return None
            write("other", other)
            write("damaged", self.data)
            return judged(chance, "other", "other_program", counts)
        entries, damage = list(self.entries), chance.choice(DAMAGES)
        damage(chance, entries)
        if entries and chance.random() < 0.2:
            chance.choice(DAMAGES)(chance, entries)
        try:
            data = self.bytes_of(entries)
        except struct.error:
            return None
        if data == self.data:
            return None
        write("damaged", data)
        return judged(chance, "image", damage.__name__, counts)


def tried(chance: random.Random, image: bytes, damages: int, counts: Counts) -> str | None:
    """What is wrong with the answers to an image and its tables."""
    write("image", image)
    if os.path.exists("table"):
        os.remove("table")
    verified, proved = RUN("verify", "image"), RUN("prove", "image", "table")
    if verified.returncode:
        counts["refused"] += 1
        # What helps with files that are something else only the program says, not the library.
        same = (verified.returncode, verified.stdout) == (proved.returncode, proved.stdout) and proved.stderr.startswith(
            verified.stderr
        )
        return None if same and not os.path.exists("table") else f"prove of a refused program: {proved}"
    counts["proved"] += 1
    rechecked = RUN("recheck", "image", "table")
    for answer in proved, rechecked:
        if (answer.returncode, answer.stdout, answer.stderr) != (0, verified.stdout, b""):
            return f"{verified.stdout!r}, {answer}"
    data = bytes_of("table")
    if len(data) > 200_000:
        return None
    proof = Proof(image, data)
    if table.table_bytes(proof.entries) != data:
        return "the table is not spelled as table.py spells it"
    wrong = next(filter(None, (proof.damaged(chance, counts) for _ in range(damages))), None)
    OTHERS.extend(chance.sample(proof.entries, min(len(proof.entries), 20)))
    del OTHERS[:-2000]
    return wrong


def images_of(paths: list[str]) -> Iterator[tuple[str, bytes]]:
    for path in paths:
        names = sorted(os.listdir(path)) if os.path.isdir(path) else [""]
        for name in names:
            full = os.path.join(path, name) if name else path
            if full.endswith(".image"):
                yield full, bytes_of(full)


def random_images(chance: random.Random, count: int) -> Iterator[tuple[str, bytes]]:
    for _ in range(count):
        seed = chance.randrange(2**32)
        yield f"seed {seed}", b"XBP%d" % chance.choice([1, 2]) + Maker(seed).program()[4:]


def assembled() -> Iterator[tuple[str, bytes]]:
    for name, text in ("eight frames", EIGHT_FRAMES), ("each kind", EACH_KIND):
        write("text", text.encode())
        RUN("asm", "text", "made")
        yield name, bytes_of("made")


def main() -> None:
    global RUN  # pylint: disable=global-statement
    parser = common.command_line()
    parser.add_argument("--program", type=common.runnable, default=common.built())
    for name, number in ("--random", 200), ("--damages", 20), ("--seed", 1):
        parser.add_argument(name, type=int, default=number)
    parser.add_argument("--library", type=loadable)
    parser.add_argument("paths", nargs="*", default=[os.path.join(TOP, "examples")])
    given = parser.parse_args()
    chance = random.Random(given.seed)
    wait(600)
    RUN = runner(given.program, given.library)
    paths = [os.path.abspath(path) for path in given.paths]
    counts: Counts = Counter()
    wrong = 0
    with tempfile.TemporaryDirectory() as folder:
        os.chdir(folder)
        try:
            for name, image in itertools.chain(assembled(), images_of(paths), random_images(chance, given.random)):
                what = tried(chance, image, given.damages, counts)
                if what:
                    wrong += 1
                    print(f"{name}: {what}", flush=True)
        except KeyboardInterrupt:
            print("interrupted")
        os.chdir("/")
    for key, count in sorted(counts.items(), key=str):
        print(f"{count:7} {key if isinstance(key, str) else ': '.join(key)}")
    tables = sum(count for key, count in counts.items() if isinstance(key, tuple))
    print(f"{counts['proved']} programs proved, {tables} damaged tables, {wrong} wrong answers")
    sys.exit(1 if wrong else 0)


if __name__ == "__main__":
    main()
