"""What is known before each instruction of a classic program: how many bytes a match needs, limits, and lengths."""

import collections
from collections.abc import Callable
from typing import Counter

from classic import ABS, ADD, ALU, AND, CELLS, DIV, IMM, IND, LD, LDX, LEN, LSH, MEM, MOD, MSH, MUL, OR, RET, RSH
from classic import ST, STX, TAX, TXA, WORD, XOR, Insn, Program

MOST = 9216  # bytes of a frame
NEVER = 1 << 40  # more bytes than any frame has
MANY = 20  # turns after which what grows is not limited
A, X = "A", "X"
Place = str | int  # a register, or a cell of M by its number
HEADER = 60  # the greatest 4*([k]&0xf)


def reached(program: Program) -> list[int]:
    """The instructions that a path leads to."""
    seen: set[int] = set()
    todo = [0]
    while todo:
        at = todo.pop()
        if at not in seen:
            seen.add(at)
            todo += program[at].next
    return sorted(seen)


def fixed_point(order: list[int], step: Callable[[int], bool]) -> None:
    """Calls step(at), which says whether what is known elsewhere has changed, until nothing changes."""
    changed = True
    while changed:
        changed = False
        for at in order:
            changed = step(at) or changed


class Needs:
    """For each instruction how many bytes of the packet, and behind the place X, a frame has to have to match.

    A classic filter that loads a byte which is not there returns 0. So where fewer bytes are there than every way to a
    match loads, the answer is known, and one test of the length serves many loads."""

    def __init__(self, program: Program, order: list[int]) -> None:
        self.program = program
        self.packet = dict.fromkeys(order, NEVER)
        self.behind = dict.fromkeys(order, NEVER)
        fixed_point(list(reversed(order)), self.step)

    def step(self, at: int) -> bool:
        pair = self.before(self.program[at])
        changed = pair != (self.packet[at], self.behind[at])
        self.packet[at], self.behind[at] = pair
        return changed

    def before(self, it: Insn) -> tuple[int, int]:
        if it.kind == RET:
            return (NEVER, NEVER) if it.code == RET and it.k == 0 else (0, 0)
        packet = min(self.packet[to] for to in it.next)
        behind = min(self.behind[to] for to in it.next)
        if it.sets_x() and behind < NEVER:
            behind = 0
        if it.loads(ABS):
            packet = max(packet, it.k + it.size)
        elif it.kind == LDX and it.mode == MSH:
            packet = max(packet, it.k + 1)
        elif it.loads(IND):
            behind = max(behind, it.k + it.size)
        return (NEVER, NEVER) if max(packet, behind) > MOST else (packet, behind)


class Limits:
    """For each instruction the greatest number that A, X and each M may have before it, and which of them may not be
    set: these are 0."""

    def __init__(self, program: Program, order: list[int]) -> None:
        self.program = program
        names: list[Place] = [A, X, *range(CELLS)]
        self.before: dict[int, dict[Place, int]] = {0: dict.fromkeys(names, 0)}
        self.unset: dict[int, set[Place]] = {0: set(names)}
        self.turns: Counter[int] = collections.Counter()
        fixed_point(order, self.step)

    def step(self, at: int) -> bool:
        if at not in self.before:
            return False
        it, known, changed = self.program[at], self.before[at], False
        after, unset = self.after(it, known), self.unset[at] - self.set_by(it)
        for to in it.next:
            old = self.before.get(to)
            new = after if old is None else {name: max(old[name], after[name]) for name in old}
            missing = unset | self.unset.get(to, set())
            if new != old or missing != self.unset[to]:
                self.turns[to] += 1
                if old and self.turns[to] > MANY:
                    new = {name: most if old[name] == most else WORD for name, most in new.items()}
                changed, self.before[to], self.unset[to] = True, new, missing
        return changed

    def set_by(self, it: Insn) -> set[Place]:
        found: set[Place] = {A} if it.sets_a() else set()
        found |= {X} if it.sets_x() else set()
        return found | ({it.k} if it.kind in (ST, STX) else set())

    def after(self, it: Insn, known: dict[Place, int]) -> dict[Place, int]:
        new = dict(known)
        if it.is_loading():
            new[A if it.kind == LD else X] = self.loaded(it, known)
        elif it.kind in (ST, STX):
            new[it.k] = known[A if it.kind == ST else X]
        elif it.is_back:
            new[X] = WORD  # as the text forgets it
        elif it.code == TAX:
            new[X] = known[A]
        elif it.code == TXA:
            new[A] = known[X]
        elif it.kind == ALU:
            new[A] = min(counted(it, known[A], known[X]), WORD)
        return new

    def loaded(self, it: Insn, known: dict[Place, int]) -> int:
        if it.mode == MEM:
            return known[it.k]
        if it.mode in (IMM, LEN, MSH):
            return {IMM: it.k, LEN: MOST, MSH: HEADER}[it.mode]
        return WORD if it.asks() else (1 << 8 * it.size) - 1


def counted(it: Insn, a: int, x: int) -> int:
    """The greatest result of an operation on numbers up to these; over 32 bits where it may be any number."""
    b = x if it.by_x else it.k
    ones = (1 << max(a.bit_length(), b.bit_length())) - 1
    if it.op == LSH and not it.by_x:
        return a << b if b < 32 else 0
    most = {ADD: a + b, MUL: a * b, AND: min(a, b), OR: ones, XOR: ones, MOD: min(a, max(b - 1, 0))}
    most.update({DIV: a if it.by_x else a // max(b, 1), RSH: a if it.by_x else a >> min(b, 32)})
    return most.get(it.op, WORD)


class Lengths:
    """Where A is the packet's length plus a constant. There is no such number here: where A is only compared with
    constants, a packet pointer is compared with the packet's end instead."""

    def __init__(self, program: Program, order: list[int]) -> None:
        self.program = program
        self.offset: dict[int, int | None] = {0: None}  # before each instruction: the constant
        fixed_point(order, self.step)
        self.wanted = dict.fromkeys(order, False)  # is A's number used after the instruction
        fixed_point(list(reversed(order)), self.back)

    def is_length(self, at: int) -> bool:
        return self.offset.get(at) is not None

    def step(self, at: int) -> bool:
        if at not in self.offset:
            return False
        it, offset, changed = self.program[at], self.offset[at], False
        if it.loads(LEN):
            offset = 0
        elif it.moves_length() and offset is not None:
            offset = (offset + (it.k if it.op == ADD else -it.k)) & WORD
        elif it.sets_a():
            offset = None
        for to in it.next:
            new = offset if to not in self.offset or self.offset[to] == offset else None
            if to not in self.offset or self.offset[to] != new:
                self.offset[to], changed = new, True
        return changed

    def back(self, at: int) -> bool:
        wanted = any(self.is_used(to) for to in self.program[at].next)
        changed = wanted != self.wanted[at]
        self.wanted[at] = wanted
        return changed

    def is_used(self, at: int) -> bool:
        """Whether A's number is used at the instruction or after it."""
        it = self.program[at]
        if self.is_length(at) and (it.compares_length() or it.moves_length()):
            return self.wanted[at]
        return it.uses_a() or (not it.sets_a() and self.wanted[at])

    def is_counted(self, it: Insn) -> bool:
        """Whether the packet's length is found as a number here."""
        return it.mode == LEN and (it.kind == LDX or it.kind == LD and self.wanted[it.at])


class Shown:
    """How many bytes of the packet, and behind the place X, tests have shown before each instruction (None: no pointer
    to the place X is kept there); and which instructions no path leads to, where ways without a match are cut."""

    def __init__(self, program: Program, order: list[int], needs: Needs, lengths: Lengths) -> None:
        self.program, self.needs, self.lengths = program, needs, lengths
        self.live = self.lived()
        self.have: dict[int, tuple[int, int | None]] = {0: (0, None)}
        fixed_point(order, self.step)

    def dies(self, at: int) -> bool:
        """Whether no way from here leads to a match."""
        return self.needs.packet[at] >= NEVER

    def lived(self) -> set[int]:
        live, todo = {0}, [0]
        while todo:
            at = todo.pop()
            new = [] if self.dies(at) else [to for to in self.program[at].next if to not in live]
            live.update(new)
            todo += new
        return live

    def step(self, at: int) -> bool:
        if at not in self.have or at not in self.live or self.dies(at):
            return False
        changed, after = False, self.after(at)
        for to in self.program[at].next:
            old = self.have.get(to)
            new = after if old is None else (min(old[0], after[0]), least(old[1], after[1]))
            if new != old:
                self.have[to], changed = new, True
        return changed

    def after(self, at: int) -> tuple[int, int | None]:
        it, (packet, behind) = self.program[at], self.have[at]
        is_header = it.kind == LDX and it.mode == MSH
        if it.loads(ABS) and packet < it.k + it.size or is_header and packet < it.k + 1:
            packet = self.needs.packet[at]
        if it.loads(IND) and (behind is None or behind < it.k + it.size):
            behind = self.needs.behind[at]
        if self.lengths.is_counted(it):
            packet, behind = 0, None
        if it.sets_x() or it.is_back:
            behind = None
        return packet, behind


def least(one: int | None, other: int | None) -> int | None:
    """What is known on two ways."""
    return None if one is None or other is None else min(one, other)
