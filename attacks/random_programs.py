"""Random BPF programs as images, for fuzz.py: Maker(seed).program() is one. A program is right by
construction, since it is made from what each register and stack slot holds, except for some
mistakes: a limit that is off by one, a test of the other sign or width, a pointer used after what
it points to is gone, one or two instructions changed at the end."""
from __future__ import annotations

import random

from random_accesses import ALU, CONTEXT, LOADS, NUMBER, STORES, TESTS, Accesses, State
from common import image_of, insn


class Maker(Accesses):
    """One random program."""

    def __init__(self, seed: int) -> None:
        super().__init__(random.Random(seed))
        self.functions: list[tuple[str, bool]] = []
        self.called: set[str] = set()
        self.depth, self.nested, self.inside = 0, False, False

    # ---- statements

    def swap_bytes(self) -> None:
        self.put(self.random.choice([0xD4, 0xDC, 0xD7]), self.a_number(), imm=self.random.choice([16, 32, 64]))

    def wide_number(self) -> None:
        r = self.spare()
        self.put(0x18, r, imm=self.number())
        self.put(0, imm=self.number())
        self.state.registers[r] = NUMBER

    def test(self) -> None:
        """If, with or without else; what is known after it is what is known on both branches."""
        r, name = self.a_number(), self.random.choice(list(TESTS))
        other, after, wide = self.label(), self.label(), self.random.random() < 0.6
        if self.random.random() < 0.4:
            self.compare(name, r, other, self.a_number((r,)), wide=wide)
        else:
            self.compare(name, r, other, imm=self.number(), wide=wide)
        before = self.state.copy()
        self.block(self.random.randrange(1, 4))
        if self.random.random() < 0.3:
            self.set(0, self.number())
            self.put(0x95)
            self.here(other)
            self.state = before
            return
        self.put(0x05, offset=after)
        self.here(other)
        taken, self.state = self.state, before
        self.block(self.random.randrange(0, 3))
        self.here(after)
        self.state.meet(taken)

    def loop(self) -> None:
        """A counted loop, in a register or on the stack, whose body forgets what it changes."""
        if self.nested:
            self.arithmetic()
            return
        self.nested = True
        counter, again, turns = self.random.choice([6, 7, 8, 9]), self.label(), self.random.randrange(1, 9)
        if self.state.registers[counter] == CONTEXT:
            counter = 9 if counter != 9 else 8
        self.set(counter, 0)
        self.here(again)
        before = self.state.copy()
        self.block(self.random.randrange(1, 4))
        if self.state.registers[counter] == NUMBER:
            step = self.random.choice([1, 1, 1, 2])
            self.put(0x07, counter, imm=step)
            self.compare(
                self.random.choice(["<", "!=", "s<", "<="]), counter, again, imm=turns * step, wide=self.random.random() < 0.7
            )
        self.state.meet(before)
        self.nested = False

    def spill(self) -> None:
        r = self.random.choice([r for r in range(11) if r == 10 or self.state.registers[r] is not None])
        slot = self.random.randrange(56, 64) if self.random.random() < 0.8 else self.random.randrange(64)
        kind = ("stack", 0) if r == 10 else self.state.registers[r]
        if kind == NUMBER and self.random.random() < 0.4:
            size = self.random.choice([1, 2, 4])
            self.put(STORES[size], 10, r, slot * 8 - 512 + self.random.randrange(0, 8, size))
            if self.state.slots[slot] != NUMBER and not self.slip(0.3):
                self.state.slots[slot] = None
        else:
            self.put(0x7B, 10, r, slot * 8 - 512)
            self.state.slots[slot] = kind

    def fill(self) -> None:
        slots = [i for i in range(64) if self.state.slots[i] is not None]
        if not slots:
            self.spill()
            return
        slot, r = self.random.choice(slots), self.spare()
        if self.state.slots[slot] == NUMBER and self.random.random() < 0.5:
            opcode, size = self.random.choice(LOADS)
            self.put(opcode, r, 10, slot * 8 - 512 + self.random.randrange(0, 8, size))
            self.state.registers[r] = NUMBER
        else:
            self.put(0x79, r, 10, slot * 8 - 512)
            self.state.registers[r] = self.state.slots[slot]

    def local_call(self) -> None:
        if not self.functions or self.inside:
            self.arithmetic()
            return
        self.keep_context()
        name, pointer = self.random.choice(self.functions)
        for r in (1, 2):
            self.set(r, self.number())
        if pointer:
            self.put(0x7A, 10, 0, -8, self.number())
            self.state.slots[63] = None
            self.put(0xBF, 1, 10)
            self.put(0x07, 1, imm=-8)
        self.put(0x85, 0, 1, 0, name)
        self.called.add(name)
        self.state.registers[:6] = [NUMBER] + [None] * 5
        if pointer:
            self.state.slots[63] = NUMBER

    def block(self, count: int) -> None:
        kinds = [
            (8, self.arithmetic),
            (1, self.swap_bytes),
            (1, self.wide_number),
            (3, self.test),
            (1, self.loop),
            (3, self.spill),
            (3, self.fill),
            (3, self.packet),
            (2, self.packet_access),
            (3, self.map_call),
            (2, self.local_call),
        ]
        for _ in range(count):
            if self.depth > 4 or len(self.code) > 300:
                return
            self.depth += 1
            self.random.choices([make for _, make in kinds], [weight for weight, _ in kinds])[0]()
            self.depth -= 1

    # ---- the program

    def function(self, name: str, pointer: bool) -> None:
        self.here(name)
        self.state, self.inside = State(), True
        self.state.registers[1:3] = [("stack", 1) if pointer else NUMBER, NUMBER]
        if pointer:
            opcode, _ = self.random.choice(LOADS)
            self.put(opcode, 3, 1, 0)
            self.put(0x7B, 1, 2, 0)
            self.state.registers[3] = NUMBER
        self.block(self.random.randrange(1, 5))
        if self.state.registers[0] != NUMBER:
            self.set(0, 0)
        if self.slip():
            self.put(0xBF, self.random.choice([0, 6]), 10)
        self.put(0x95)

    def program(self) -> bytes:
        self.functions = [(f"f{i}", self.random.random() < 0.5) for i in range(self.random.choice([0, 0, 1, 2]))]
        self.state.registers[1] = CONTEXT
        if self.random.random() < 0.7:
            self.move(6, 1)
        self.block(self.random.randrange(2, 9))
        if self.state.registers[0] != NUMBER or self.random.random() < 0.3:
            self.set(0, self.random.randrange(5))
        self.put(0x95)
        for name, pointer in self.functions:
            if name in self.called:
                self.function(name, pointer)
        self.resolve()
        for _ in range(self.random.choice([0, 0, 1, 1, 1, 2])):
            self.change()
        return self.image()

    def resolve(self) -> None:
        for at, row in enumerate(self.code):
            for field in (3, 4):
                if isinstance(row[field], str):
                    row[field] = self.labels[row[field]] - at - 1

    def change(self) -> None:
        """One small change of a field that the instruction has, as a typing mistake would make
        it."""
        at = self.random.randrange(len(self.code))
        row = self.code[at]
        kind, register, near = row[0] & 7, self.random.randrange(10), self.random.choice([-1, 1])
        what = self.random.choice(["number", "number", "destination", "operation", "width"])
        if row[0] == 0 or row[0] == 0x95:
            return
        if row[0] in (0x18, 0x85):
            row[4] += near if row[2] == 0 else 0
        elif what == "destination" and row[0] not in (0x05, 0x06):
            row[1] = register
        elif kind in (1, 2, 3) and row[0] not in (0xC3, 0xDB) and what == "width":
            row[0] ^= self.random.choice([0x08, 0x10, 0x18])
        elif kind in (0, 1, 2, 3):
            row[3] += self.random.choice([-8, -4, -1, 1, 4, 8])
        elif what == "width" and row[0] not in (0x05, 0x06, 0xD4, 0xDC, 0xD7) and row[3] == 0 or row[0] in (0x84, 0x87):
            row[0] ^= 3
        elif what == "operation" and row[0] not in (0x05, 0x06, 0xD4, 0xDC, 0xD7):
            codes = TESTS if kind in (5, 6) else {name: code for name, code in ALU.items() if name != "neg"}
            row[0], row[3] = row[0] & 15 | self.random.choice(list(codes.values())) << 4, row[3] if kind in (5, 6) else 0
        elif row[0] & 8 and kind in (4, 5, 6, 7) and row[0] != 0xDC:
            row[2] = register
        elif row[0] not in (0x05, 0x06, 0xD4, 0xDC, 0xD7):
            row[4] = row[4] + near if self.random.random() < 0.7 else self.number()

    def image(self) -> bytes:
        code = (insn(opcode, to, of, (offset + 2**15) % 2**16 - 2**15, imm) for opcode, to, of, offset, imm in self.code)
        return image_of(b"".join(code), self.maps)
