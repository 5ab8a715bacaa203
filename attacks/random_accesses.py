"""The accesses of random programs, for random_programs.py: the packet, map values, helpers and their arguments."""

from __future__ import annotations

import os
import random
import sys
from typing import Any

sys.path.insert(0, os.path.join(os.path.dirname(os.path.abspath(__file__)), "../checks"))
from common import there

TESTS = {"==": 1, ">": 2, ">=": 3, "&": 4, "!=": 5, "s>": 6, "s>=": 7, "<": 10, "<=": 11, "s<": 12, "s<=": 13}
LOADS = [(0x71, 1), (0x69, 2), (0x61, 4), (0x79, 8), (0x91, 1), (0x89, 2), (0x81, 4)]
STORES = {1: 0x73, 2: 0x6B, 4: 0x63, 8: 0x7B}
FETCHES = [0x00, 0x40, 0x50, 0xA0, 0x01, 0x41, 0x51, 0xA1, 0xE1, 0xF1]
# type (1 hash, 2 array), key size, value size, max_entries
MAPS = [(1, 4, 8, 2), (2, 4, 16, 3), (1, 8, 24, 4), (2, 4, 1, 1)]
Known = tuple[Any, ...] | None  # what a register or a stack slot holds
CONTEXT: Known = ("context",)
NUMBER: Known = ("number",)
END: Known = ("end",)


NUMBERS = [0, 1, 2, 3, 4, 7, 8, 13, 14, 15, 16, 31, 32, 33, 63, 64, 127, 128, 255, 256, 511, 512, 4095, 65535, 65536]
NUMBERS += [2**31 - 1, -1, -2, -7, -8, -16, -128, -512, -65536, -(2**31)]
ALU = {"+": 0, "-": 1, "*": 2, "/": 3, "|": 4, "&": 5, "<<": 6, ">>": 7, "neg": 8, "%": 9, "^": 10, "=": 11, "s>>": 12}


class State:
    """What each register and each stack slot of the function holds: a kind, a packet pointer with how much of the
    packet is tested, a value's pointer with its map, or None."""

    def __init__(self) -> None:
        self.registers: list[Known] = [None] * 11
        self.slots: list[Known] = [None] * 64

    def copy(self) -> State:
        other = State()
        other.registers, other.slots = self.registers[:], self.slots[:]
        return other

    def meet(self, other: State) -> None:
        self.registers = [one if one == it else None for one, it in zip(self.registers, other.registers)]
        self.slots = [one if one == it else None for one, it in zip(self.slots, other.slots)]

    def having(self, kind: str) -> list[int]:
        return [r for r, known in enumerate(self.registers[:10]) if known is not None and known[0] == kind]


class Instructions:
    """Instructions as [opcode, destination, source, offset, imm], a jump's offset a label, and what is known behind the last."""

    def __init__(self, chance: random.Random) -> None:
        self.random, self.state, self.fresh = chance, State(), 0
        self.code: list[list[Any]] = []
        self.labels: dict[str, int] = {}
        self.maps = self.random.sample(MAPS, self.random.choice([0, 1, 1, 2]))

    def put(self, opcode: int, destination: int = 0, source: int = 0, offset: int | str = 0, imm: int | str = 0) -> None:
        self.code.append([opcode, destination, source, offset, imm])

    def label(self) -> str:
        self.fresh += 1
        return f"l{self.fresh}"

    def here(self, label: str) -> None:
        self.labels[label] = len(self.code)

    def number(self) -> int:
        return self.random.choice(NUMBERS) if self.random.random() < 0.8 else self.random.randrange(-(2**31), 2**31)

    def slip(self, chance: float = 0.05) -> bool:
        """Whether to make a mistake here."""
        return self.random.random() < chance

    def set(self, r: int, number: int) -> None:
        self.put(0xB7, r, imm=number)
        self.state.registers[r] = NUMBER

    def move(self, r: int, s: int) -> None:
        self.put(0xBF, r, s)
        self.state.registers[r] = self.state.registers[s]

    def compare(self, name: str, r: int, target: str, s: int | None = None, imm: int = 0, wide: bool = True) -> None:
        self.put((TESTS[name] << 4) | (5 if wide else 6) | (0 if s is None else 8), r, s or 0, target, imm)

    def spare(self, keep: tuple[int, ...] = ()) -> int:
        """A register to overwrite."""
        return self.random.choice([r for r in range(10) if r not in keep and self.state.registers[r] != CONTEXT])

    def a_number(self, keep: tuple[int, ...] = ()) -> int:
        """A register with a number, made if there is none."""
        have = [r for r in self.state.having("number") if r not in keep]
        if have and self.random.random() < 0.8:
            return self.random.choice(have)
        r = self.spare(keep)
        context = self.state.having("context")
        if context and self.random.random() < 0.6:
            self.put(0x61, r, context[0], self.random.choice([12, 16]))
            self.state.registers[r] = NUMBER
        else:
            self.set(r, self.number())
        return r

    def arithmetic(self) -> None:
        r, wide = self.a_number(), self.random.random() < 0.6
        name = self.random.choice(list(ALU))
        if name == "neg":
            self.put(0x87 if wide else 0x84, r)
        elif self.random.random() < 0.5:
            s = self.a_number((r,))
            signed = 1 if name in "/%" and self.random.random() < 0.5 else 0
            if name == "=" and self.random.random() < 0.6:
                signed = self.random.choice([8, 16, 32] if wide else [8, 16])
            self.put((ALU[name] << 4) | (0xF if wide else 0xC), r, s, signed)
        else:
            imm = self.random.choice([0, 1, 3, 8, 31, 32, 33, 63]) if name in ("<<", ">>", "s>>") else self.number()
            signed = 1 if name in "/%" and self.random.random() < 0.5 else 0
            self.put((ALU[name] << 4) | (7 if wide else 4), r, 0, signed, imm)


class Accesses(Instructions):
    """Statements of a program that reach packet and maps; a part of Maker."""

    def packet(self) -> None:
        """The packet's two pointers, a variable part now and then, a test of its length, and accesses below it."""
        found = self.state.having("context")
        if not found:
            self.arithmetic()
            return
        context = found[0]
        free = [r for r in range(10) if r != context]
        self.random.shuffle(free)
        begin, end, limit = free[:3]
        self.put(0x61, begin, context, 0)
        self.put(0x61, end, context, 4)
        self.state.registers[end] = END
        if self.random.random() < 0.5:
            part = self.a_number((begin, end, context))
            if part == limit:
                limit = free[3]
            self.put(self.random.choice([0x57, 0x57, 0x54]), part, imm=self.random.choice([1, 7, 15, 60, 255, 4095]))
            if self.random.random() < 0.3:
                self.put(self.random.choice([0x67, 0x77, 0x27, 0x07]), part, imm=self.random.choice([1, 2, 3]))
            self.put(0x0F, begin, part)
        length = self.random.choice([1, 2, 4, 8, 14, 15, 20, 34, 64, 255])
        fixed = self.random.choice([0, 0, 0, 4, 14])
        out = self.label()
        if fixed:
            self.put(0x07, begin, imm=fixed)
        self.put(0xBF, limit, begin)
        self.put(0x07, limit, imm=length)
        if self.random.random() < 0.5:
            self.compare(">", limit, out, end)
        else:
            self.compare("<", end, out, limit)
        self.state.registers[begin], self.state.registers[limit] = ("packet", length, fixed), None
        for _ in range(self.random.randrange(1, 4)):
            known = self.state.registers[begin]
            if self.random.random() < 0.2 and known and known[0] == "packet":
                self.move_packet(begin, (begin, end, context))
            self.packet_access()
        self.leave(out)

    def move_packet(self, begin: int, keep: tuple[int, ...]) -> None:
        """The pointer moves by a number, and that many fewer bytes are proved after it."""
        _, length, fixed = there(self.state.registers[begin])
        part, size = self.a_number(keep), self.random.choice([1, 3, 8, 64])
        self.limit(part, size)
        self.put(self.random.choice([0x0F, 0x0F, 0x0F, 0x1F]), begin, part)
        left = length - size + 1
        self.state.registers[begin] = ("packet", left, fixed) if left > 0 else None

    def leave(self, out: str) -> None:
        """Ends the program where a test leads to out, or joins there."""
        if self.random.random() < 0.6:
            after = self.label()
            self.put(0x05, offset=after)
            self.here(out)
            self.set(0, self.random.randrange(5))
            self.put(0x95)
            self.here(after)
            self.state.registers[0] = None
        else:
            self.here(out)
            for lost in self.state.having("packet") + self.state.having("value"):
                self.state.registers[lost] = None
            self.state.registers[0] = None
            self.state.slots = [None] * 64

    def packet_access(self) -> None:
        pointers = self.state.having("packet")
        if pointers:
            r = self.random.choice(pointers)
            _, length, fixed = there(self.state.registers[r])
            self.access(r, -fixed if self.random.random() < 0.2 else 0, length, False)

    def access(self, r: int, least: int, most: int, atomic: bool) -> None:
        """A load, a store or an atomic instruction within bytes from least to most of a pointer."""
        opcode, size = self.random.choice(LOADS)
        if most - least < size:
            opcode, size = 0x71, 1
        at = self.random.choice([least, most - size, self.random.randrange(least, most - size + 1)])
        if self.slip():
            at += self.random.choice([-size, -1, 1, size])
        what = self.random.random()
        if what < 0.6:
            into = self.spare((r,))
            self.put(opcode, into, r, at)
            self.state.registers[into] = NUMBER
        elif what < 0.75 or not atomic or size not in (4, 8):
            self.put(STORES[size], r, self.a_number((r,)), at)
        else:
            self.put(0xC3 if size == 4 else 0xDB, r, self.a_number((r,)), at & -size, self.random.choice(FETCHES[:9]))

    def argument(self, r: int, size: int) -> None:
        """r points to written stack bytes."""
        base = self.random.choice([-8, -16, -24, -32]) if size <= 8 else self.random.choice([-24, -32, -48])
        for at in range(base, base + max(8, size), 8):
            self.put(0x7A, 10, 0, at, self.random.choice([0, 1, 2, 3]))
            self.state.slots[at // 8 + 64] = NUMBER
        self.put(0xBF, r, 10)
        self.put(0x07, r, imm=base)

    def helper(self, number: int, index: int) -> None:
        _, key, value, _ = self.maps[index]
        if number != 5:
            self.argument(2, key)
            if number == 2:
                self.argument(3, value)
                self.put(0xB7, 4, imm=self.random.choice([0, 0, 1, 2, 3]))
            self.put(0x18, 1, 5, 0, index)
            self.put(0)
        self.put(0x85, imm=number)
        self.state.registers[:6] = [None] * 6
        self.state.registers[0] = NUMBER

    def keep_context(self) -> None:
        """Before a call, the context is copied to a register that is kept."""
        context = self.state.having("context")
        if context and context[0] < 6:
            self.move(self.random.choice([6, 7, 8, 9]), context[0])

    def map_call(self) -> None:
        """A call of a helper, and the use of a value that was looked up."""
        if not self.maps or self.random.random() < 0.1:
            self.keep_context()
            self.put(0x85, imm=5)
            self.state.registers[:6] = [NUMBER] + [None] * 5
            return
        self.keep_context()
        index = self.random.randrange(len(self.maps))
        number = self.random.choice([1, 1, 1, 2, 2, 3])
        self.helper(number, index)
        if number != 1:
            return
        self.state.registers[0] = None
        holder = self.random.choice([0, 0, 6, 7, 8])
        if holder and self.state.registers[holder] != CONTEXT:
            self.put(0xBF, holder, 0)
        else:
            holder = 0
        out = self.label()
        self.compare("==", self.random.choice([0, holder]), out)
        size = self.maps[index][2]
        self.state.registers[holder] = ("value", size, index)
        for _ in range(self.random.randrange(1, 4)):
            if self.random.random() < 0.25 and size > 1:
                self.moved_value(holder, size)
            elif self.random.random() < 0.1:
                self.helper(self.random.choice([2, 3]), self.random.randrange(len(self.maps)))
                if holder < 6:
                    break
            else:
                self.access(holder, 0, size, True)
        self.leave(out)

    def limit(self, r: int, size: int) -> None:
        """Makes a number less than size: by a mask, a remainder, or one or two tests of any sign and width."""
        if self.random.random() < 0.2:
            self.narrow(r, max(size // 2, 1))
        elif self.random.random() < 0.3:
            self.put(self.random.choice([0x57, 0x54]), r, imm=self.random.choice([1, 3, 7, size - 1]))
        elif self.random.random() < 0.3:
            self.put(self.random.choice([0x97, 0x94]), r, imm=size)
        else:
            for _ in range(self.random.randrange(1, 3)):
                after = self.label()
                name, imm = self.random.choice(
                    [("<", size), ("<=", size - 1), ("s<", size), ("s<=", size - 1), ("s>", -1), ("s>=", 0), ("==", 0)]
                )
                self.compare(name, r, after, imm=imm, wide=self.random.random() < 0.5)
                self.set(0, self.random.randrange(5))
                self.put(0x95)
                self.here(after)
            self.state.registers[0] = None if r != 0 else self.state.registers[0]

    def narrow(self, r: int, size: int) -> None:
        """The same by a signed remainder or quotient, by bytes in another order, or by a part of a spilled number."""
        what, by = self.random.randrange(4), size + self.random.choice([0, 0, 0, 1])
        if what == 0:
            self.put(self.random.choice([0x97, 0x94]), r, 0, 1, by)
            self.put(0x07, r, imm=size - 1)
        elif what == 1:
            self.put(0xBF, r, r, self.random.choice([8, 8, 16]))
            self.put(0x37, r, 0, 1, 256 // size * self.random.choice([1, 1, 1, -1]))
            self.put(0x07, r, imm=size // 2)
        elif what == 2:
            bits = self.random.choice([16, 32])
            self.put(0x57, r, imm=(by - 1 << bits - 8) - (1 << 32 if by > 128 and bits == 32 else 0))
            self.put(self.random.choice([0xDC, 0xD7]), r, imm=bits)
        else:
            byte = self.random.randrange(3)
            self.put(0x57, r, imm=(by - 1) << 8 * byte)
            self.put(0x7B, 10, r, -8)
            self.put(0x71, r, 10, -8 + byte)
            self.state.slots[63] = None

    def moved_value(self, r: int, size: int) -> None:
        """A copy of a value's pointer, moved by a number below the size."""
        copy, part = self.spare((r,)), None
        self.move(copy, r)
        part = self.a_number((r, copy))
        self.limit(part, size)
        self.put(0x0F, copy, part)
        self.put(0x71, part, copy, 0)
        self.state.registers[copy] = None
