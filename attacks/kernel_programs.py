"""The programs that kernel_sweep.py compares, each with its frames: images, random programs, those of the families of attacks.py,
each arithmetic instruction, and each call of a helper on maps."""
import functools
import os
import random
import struct
import sys
from collections.abc import Callable, Iterator

sys.path.insert(0, os.path.join(os.path.dirname(os.path.abspath(__file__)), "../checks"))
from common import bytes_of, image_of, insn, write
import kernel
from attacks import FAMILIES
from in_process import Run
from random_contents import ANY, some_bytes
from random_programs import Maker

Frame = tuple[int, bytes]
Item = tuple[str, bytes, list[Frame]]  # a program: its name, its image, and frames
Making = Callable[[], Item | None]  # makes one, or none where its text is refused
EDGES = [0, 1, 2, 3, 7, 8, 31, 32, 33, 63, 64, 127, 128, 255, 256, 32767, 32768, 65535, 65536, 2**31 - 1, 2**31, 2**31 + 1]
EDGES += [
    2**32 - 1,
    2**32,
    2**32 + 1,
    2**62,
    2**63 - 1,
    2**63,
    2**63 + 1,
    2**64 - 2**31,
    2**64 - 8,
    2**64 - 2,
    2**64 - 1,
]
CONSTANTS = [0, 1, 2, 3, 7, 31, 32, 63, 127, 255, 65535, 2**31 - 1, -1, -2, -7, -128, -(2**31)]
LENGTHS = [14, 15, 16, 20, 22, 23, 24, 31, 34, 40, 60, 64, 128, 255, 256, 300, 512, 1000, 1500, 3520]


def frames_of(chance: random.Random) -> list[Frame]:
    """20 frames, whose bytes are extreme, small or any."""
    found = []
    for length in LENGTHS:
        of = chance.choice((b"\0", b"\xff", b"\0\1\x7f\x80\xff", ANY))
        found.append((chance.randrange(2**64), some_bytes(chance, of, length)))
    return found


def images(paths: list[str]) -> Iterator[Item]:
    for path in paths:
        files = [os.path.join(path, it) for it in sorted(os.listdir(path))] if os.path.isdir(path) else [path]
        for file in files:
            if file.endswith(".image"):
                beside = file.removesuffix(".image") + ".frames"
                found = kernel.fitting(bytes_of(beside))[0] if os.path.exists(beside) else []
                yield file, bytes_of(file), found + frames_of(random.Random(file))


def a_random(number: int) -> Item:
    return f"random {number}", Maker(number).program(), frames_of(random.Random(number))


def randoms(count: int, seed: int) -> Iterator[Making]:
    return (functools.partial(a_random, number) for number in range(seed, seed + count))


def an_attack(run: Run, folder: str, family: str, number: int) -> Item | None:
    chance = random.Random(f"{family} {number}")
    text = write(f"{folder}/text", "\n".join(FAMILIES[family](chance)) + "\n")
    if run("asm", text, f"{folder}/image").returncode:
        return None
    return f"{family} {number}", bytes_of(f"{folder}/image"), frames_of(chance)


def attacks(count: int, seed: int, run: Run, folder: str) -> Iterator[Making]:
    """Programs of each family, assembled in a folder."""
    numbers = range(seed, seed + count)
    return (functools.partial(an_attack, run, folder, family, number) for family in sorted(FAMILIES) for number in numbers)


# r6 and r7 are two numbers of the packet, and r0 is written into it after what is tried; the
# packet's beginning is in r9
OPENING = [
    insn(0x61, 9, 1, 0),
    insn(0x61, 3, 1, 4),
    insn(0xBF, 4, 9),
    insn(0x07, 4, imm=40),
    insn(0xBF, 0, 3),
    insn(0x3D, 3, 4, 2),
    insn(0xB7, 0, imm=0),
    insn(0x95),
    insn(0x79, 6, 9, 0),
    insn(0x79, 7, 9, 8),
]
CLOSING = [insn(0x7B, 9, 0, 16), insn(0xB7, 0, imm=2), insn(0x95)]
PAIRS = [(1, struct.pack("<QQQQQ", a, b, 0, 0, 0)) for a in EDGES for b in EDGES]
SINGLES = [(1, struct.pack("<QQQQQ", a, 2**64 - a & 2**64 - 1, 0, 0, 0)) for a in EDGES]
CODES = {"add": 0, "sub": 1, "mul": 2, "div": 3, "or": 4, "and": 5, "lsh": 6, "rsh": 7, "mod": 9, "xor": 10, "mov": 11, "arsh": 12}
TESTS = {"eq": 1, "gt": 2, "ge": 3, "set": 4, "ne": 5, "sgt": 6, "sge": 7, "lt": 10, "le": 11, "slt": 12, "sle": 13}
FETCHES = {"add": 0, "or": 0x40, "and": 0x50, "xor": 0xA0}


def tried(name: str, code: list[bytes], frames: list[Frame] | None = None) -> Item:
    return name, image_of(b"".join(OPENING + code + CLOSING)), frames or PAIRS


def arithmetic() -> Iterator[Item]:
    """Each arithmetic instruction, byte swap, load and store, then atomics and jumps."""
    both = [("64", 7), ("32", 4)]
    for bits, kind in both:
        for name, code in CODES.items():
            signs = (0, 1) if name in ("div", "mod") else (0,)
            for sign in signs:
                yield tried(f"{name} {bits} signed {sign}", [insn(0xBF, 0, 6), insn(code << 4 | 8 | kind, 0, 7, sign)])
                for number in CONSTANTS:
                    if name in ("lsh", "rsh", "arsh") and not 0 <= number < int(bits) or name in ("div", "mod") and number == 0:
                        continue
                    yield tried(
                        f"{name} {bits} signed {sign} by {number}",
                        [insn(0xBF, 0, 6), insn(code << 4 | kind, 0, 0, sign, number)],
                        SINGLES,
                    )
        yield tried(f"neg {bits}", [insn(0xBF, 0, 6), insn(0x80 | kind, 0)], SINGLES)
        for size in (8, 16) + (32,) * (kind == 7):
            yield tried(f"movsx {bits} {size}", [insn(0xBF, 0, 6), insn(0xB8 | kind, 0, 0, size)], SINGLES)
    for name, opcode in (("le", 0xD4), ("be", 0xDC), ("bswap", 0xD7)):
        for size in (16, 32, 64):
            yield tried(f"{name} {size}", [insn(0xBF, 0, 6), insn(opcode, 0, imm=size)], SINGLES)
    for opcode, at in ((0x61, 4), (0x69, 2), (0x71, 1), (0x79, 0), (0x81, 4), (0x89, 2), (0x91, 1)):
        yield tried(f"load {opcode:#x}", [insn(opcode, 0, 9, at)], SINGLES)
    for opcode in (0x63, 0x6B, 0x73, 0x7B):
        yield tried(f"store {opcode:#x}", [insn(opcode, 9, 6, 24), insn(0xBF, 0, 7)])
    for opcode in (0x62, 0x6A, 0x72, 0x7A):
        for number in CONSTANTS:
            yield tried(f"store {opcode:#x} of {number}", [insn(opcode, 9, 0, 24, number), insn(0xBF, 0, 7)], SINGLES)
    yield from atomics()
    yield from jumps()


def atomics() -> Iterator[Item]:
    """On a stack slot, where the kernel allows them; the slot goes into the packet as well."""
    for opcode, bits in ((0xDB, 64), (0xC3, 32)):
        for name, code in FETCHES.items():
            for fetch in (0, 1):
                step = [
                    insn(0x7B, 10, 6, -8),
                    insn(0xBF, 0, 7),
                    insn(opcode, 10, 0, -8, code | fetch),
                    insn(0x79, 1, 10, -8),
                    insn(0x7B, 9, 1, 24),
                ]
                yield tried(f"atomic {name} {bits} fetch {fetch}", step)
        step = [insn(0x7B, 10, 6, -8), insn(0xBF, 0, 7), insn(opcode, 10, 0, -8, 0xE1), insn(0x79, 1, 10, -8), insn(0x7B, 9, 1, 24)]
        yield tried(f"xchg {bits}", step)
        for same in (0, 1):
            r0 = [insn(0xBF, 0, 6 if same else 7)]
            step = [insn(0x7B, 10, 6, -8)] + r0 + [insn(opcode, 10, 7, -8, 0xF1), insn(0x79, 1, 10, -8), insn(0x7B, 9, 1, 24)]
            yield tried(f"cmpxchg {bits} same {same}", step)


def jumps() -> Iterator[Item]:
    for kind, bits in ((5, 64), (6, 32)):
        for name, code in TESTS.items():
            yield tried(f"jump {name} {bits}", [insn(0xB7, 0, imm=1), insn(code << 4 | 8 | kind, 6, 7, 1), insn(0xB7, 0, imm=0)])
            for number in CONSTANTS:
                step = [insn(0xB7, 0, imm=1), insn(code << 4 | kind, 6, 0, 1, number), insn(0xB7, 0, imm=0)]
                yield tried(f"jump {name} {bits} with {number}", step, SINGLES)


def maps() -> Iterator[Item]:
    """A program calls update with the packet's flags and key, then looks up and deletes; the answers go into the packet."""
    for kind in (1, 2):
        for row in [(kind, 4, 8, entries) for entries in (1, 2, 3)]:
            for order in ("udl", "ulu", "ldu", "uud", "lud", "dul"):
                code = list(OPENING[:8])
                code += [insn(0x61, 2, 9, 0), insn(0x63, 10, 2, -4), insn(0x79, 2, 9, 16), insn(0x7B, 10, 2, -16)]
                at = 24
                for letter in order:
                    code += [insn(0x18, 1, 5, 0, 0), insn(0), insn(0xBF, 2, 10), insn(0x07, 2, imm=-4)]
                    if letter == "u":
                        code += [insn(0xBF, 3, 10), insn(0x07, 3, imm=-16), insn(0x79, 4, 9, 8), insn(0x85, imm=2)]
                    else:
                        code += [insn(0x85, imm=1 if letter == "l" else 3)]
                    if letter == "l":
                        code += [
                            insn(0x15, 0, 0, 4, 0),
                            insn(0x79, 1, 0, 0),
                            insn(0x07, 1, imm=1),
                            insn(0x7B, 0, 1, 0),
                            insn(0xBF, 0, 1),
                        ]
                    code += [insn(0x73, 9, 0, at)]
                    at += 1
                code += [insn(0xB7, 0, imm=2), insn(0x95)]
                frames = []
                chance = random.Random(f"{row} {order}")
                for _ in range(24):
                    flags = chance.choice([0, 0, 1, 2, 2, 3, 8, 2**32, 2**64 - 1])
                    frames.append(
                        (
                            1,
                            struct.pack(
                                "<IIQQQQ", chance.choice([0, 1, 2, 3, 2**32 - 1]), 0, flags, chance.randrange(2**64), 0, 0
                            ),
                        )
                    )
                yield f"maps {row} {order}", image_of(b"".join(code), [row]), frames
