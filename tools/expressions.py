"""Translates expressions of tcpdump, as classic programs, into program texts: what matches has one action, the rest
another.

In a text r2 is the packet's beginning and r3 its end; r6 is A and r7 is X; r5 is the place X in the packet; M is on the
stack; r0 has the action of what does not match.
"""

from dataclasses import dataclass

from classic import (
    ABS,
    ADD,
    ALU,
    ANCILLARY,
    AND,
    DIV,
    IMM,
    IND,
    JEQ,
    JGE,
    JGT,
    JMP,
    JSET,
    LD,
    LEN,
    LSH,
    MEM,
    MOD,
    MSH,
)
from classic import (
    MUL,
    NEG,
    OR,
    RET,
    RSH,
    ST,
    STX,
    SUB,
    TAX,
    WORD,
    XOR,
    Failed,
    Insn,
    Program,
    classic_program,
    compiled,
)
from classic import signed
from classic_flow import A, MOST, X, Lengths, Limits, Needs, Place, Shown, reached
from program_text import ACTIONS, SENT, Text, name_of

TURNS = 64  # headers that `protochain` follows, so that Linux takes the text too
OPERATORS = {
    ADD: "+=",
    SUB: "-=",
    MUL: "*=",
    DIV: "/=",
    OR: "|=",
    AND: "&=",
    LSH: "<<=",
    RSH: ">>=",
    MOD: "%=",
    XOR: "^=",
}
SIGNS = {JEQ: "==", JGT: ">", JGE: ">=", JSET: "&"}
INVERSE = {"==": "!=", ">": "<=", ">=": "<"}
HALF = 1 << 31
FORGOTTEN = 136  # where on the stack a number is stored and loaded again, so that the verifier forgets it
PASS, DROP = "pass", "drop"
INTERFACE = 8  # SKF_AD_IFINDEX
TAGS = "the tag that a card has removed is not known here: compile without an interface"
ASKED = {4: "inbound and outbound ask for the direction of a frame: every frame of XDP comes in", 44: TAGS, 48: TAGS}


@dataclass
class Options:
    """What the text is to answer, and how many headers `protochain` follows."""

    match: int = ACTIONS["PASS"]
    other: int = ACTIONS["DROP"]
    reason: int | None = None
    turns: int = TURNS


class Translator:
    """Makes the text of a classic program."""

    def __init__(self, program: Program, options: Options) -> None:
        self.program, self.options = program, options
        self.order = reached(program)
        self.loops = [at for at in self.order if any(to <= at for to in program[at].next)]
        for at in self.loops:
            if not program[at].is_back:
                raise Failed(f"instruction {at} is a test that leads back")
        self.needs, self.limits = Needs(program, self.order), Limits(program, self.order)
        self.lengths = Lengths(program, self.order)
        self.shown = Shown(program, self.order, self.needs, self.lengths)
        self.text, self.fresh = Text(), 0
        self.used: set[str] = set()

    # where control goes

    def target(self, at: int) -> str:
        """The label of an instruction: also of the two ends."""
        it = self.program[at]
        if it.is_forward and not self.shown.dies(at):
            return self.target(it.next[0])
        name = DROP if self.shown.dies(at) else PASS if it.kind == RET and it.code == RET else f"L{at}"
        self.used.add(name)
        return name

    def goto(self, at: int, following: str) -> None:
        """Goes on at an instruction, where the text continues with `following`."""
        to = self.target(at)
        if to == DROP:
            self.text.put("exit")
        elif to != following:
            self.text.put(f"goto {to}")

    def new_label(self, begin: str) -> str:
        self.fresh += 1
        return f"{begin}{self.fresh}"

    def drop_if(self, test: str) -> None:
        self.used.add(DROP)
        self.text.put(f"if {test} goto {DROP}")

    # the whole

    def translated(self) -> str:
        self.opening()
        todo = [at for at in self.order if self.is_put(at)]
        if not todo and self.shown.dies(0):
            self.text.put("exit")
        elif not todo:
            self.target(0)
        for place, at in enumerate(todo):
            following = f"L{todo[place + 1]}" if place + 1 < len(todo) else PASS
            self.text.mark(f"L{at}")
            self.text.note = f"({at:03}) {self.program[at]}"
            self.one(self.program[at], following)
        if PASS in self.used:
            self.text.mark(PASS)
            self.text.put(f"r0 = {self.options.match}")
        if self.used & {PASS, DROP}:
            self.text.mark(DROP)
            self.text.put("exit")
        return str(self.text)

    def opening(self) -> None:
        put, options = self.text.put, self.options
        is_told = options.reason is not None and options.other not in SENT
        if options.reason is not None:
            put("version 2")
        self.text.note = f"{name_of(options.other)}, unless it matches"
        put(f"r0 = 0x{(options.reason or 0) << 32 | options.other:x} ll" if is_told else f"r0 = {options.other}")
        if any(self.touches_packet(self.program[at]) for at in self.order if self.is_put(at)):
            put("r2 = *(u32 *)(r1 + 0)")
            put("r3 = *(u32 *)(r1 + 4)")
        if self.loops:
            self.text.note = "so many headers are followed"
            put(f"r9 = {options.turns}")
        for name in self.unset():
            self.text.note = "is 0 at the start"
            put("r6 = 0" if name == A else "r7 = 0" if name == X else f"*(u64 *)(r10 - {8 * (int(name) + 1)}) = 0")

    def touches_packet(self, it: Insn) -> bool:
        return it.is_loading() and (it.loads(ABS) or it.loads(IND) or it.mode in (MSH, LEN))

    def is_put(self, at: int) -> bool:
        """Whether the instruction has a place in the text. The ends have one of their own."""
        it = self.program[at]
        is_end = it.kind == RET and it.code == RET or self.shown.dies(at)
        return at in self.shown.live and not is_end and not it.is_forward

    def unset(self) -> list[Place]:
        """What may be read before it is set."""
        found: list[Place] = []
        for at in self.order:
            it = self.program[at]
            if self.is_put(at):
                reads: list[Place] = [A] if it.uses_a() and not (self.lengths.is_length(at) and it.compares_length()) else []
                reads += [X] if it.uses_x() else []
                reads += [it.k] if it.is_loading() and it.mode == MEM else []
                found += [name for name in reads if name in self.limits.unset[at] and name not in found]
        return found

    # one instruction

    def one(self, it: Insn, following: str) -> None:
        """Translates an instruction."""
        put = self.text.put
        if it.kind == RET:
            put(f"if r6 != 0 goto {PASS}")
            self.used.add(PASS)
            put("exit")
        elif it.is_back:
            self.turn()
            self.goto(it.next[0], following)
        elif it.kind == JMP:
            self.test(it, following)
        else:
            if it.is_loading():
                self.load(it)
            elif it.kind in (ST, STX):
                put(f"*(u64 *)(r10 - {8 * (it.k + 1)}) = {'r6' if it.kind == ST else 'r7'}")
            elif it.kind == ALU:
                self.arithmetic(it)
            else:
                put("r7 = r6" if it.code == TAX else "r6 = r7")
            self.goto(it.at + 1, following)

    def turn(self) -> None:
        """A turn of a loop: it is counted, and what is known of X is forgotten, so that all turns look alike."""
        self.drop_if("r9 == 0")
        self.text.put("r9 -= 1")
        self.text.note = "any number: turns look alike to the verifier"
        self.forget("r7")

    def forget(self, register: str) -> None:
        self.text.put(f"*(u32 *)(r10 - {FORGOTTEN}) = {register}")
        self.text.put(f"{register} = *(u32 *)(r10 - {FORGOTTEN})")

    def show(self, pointer: str, wanted: int) -> None:
        """Shows that bytes are there."""
        self.text.put(f"r4 = {pointer}")
        self.text.put(f"r4 += {wanted}")
        self.drop_if("r4 > r3")

    def note(self, number: int) -> None:
        """Says the number that is written as a signed one."""
        if number >= HALF:
            self.text.note += f"; {number}"

    def load(self, it: Insn) -> None:
        """Translates a load."""
        put, to = self.text.put, "r6" if it.kind == LD else "r7"
        if it.mode == IMM:
            self.note(it.k)
            put(f"{to} = {it.k}" if it.k < HALF else f"w{to[1]} = {signed(it.k)}")
        elif it.mode == MEM:
            put(f"{to} = *(u64 *)(r10 - {8 * (it.k + 1)})")
        elif it.mode == LEN and self.lengths.is_counted(it):
            self.count(to)
        elif it.mode == LEN:  # the number is not needed; a test compares pointers
            put("")
        elif it.mode == MSH:
            if self.shown.have[it.at][0] < it.k + 1:
                self.show("r2", self.needs.packet[it.at])
            put(f"r7 = *(u8 *)(r2 + {it.k})")
            put("r7 &= 15")
            put("r7 <<= 2")
        elif it.asks():
            field = it.k - ANCILLARY
            if field != INTERFACE:
                raise Failed(ASKED.get(field, f"instruction {it.at} asks the kernel for field {field}"))
            put("r6 = *(u32 *)(r1 + 12)")
        else:
            self.load_bytes(it)

    def load_bytes(self, it: Insn) -> None:
        """A load from the packet, at a place or at X and a distance."""
        put, (packet, behind), base = self.text.put, self.shown.have[it.at], "r2"
        if it.mode == ABS and packet < it.k + it.size:
            self.show("r2", self.needs.packet[it.at])
        if it.mode == IND:
            base, wanted = "r5", self.needs.behind[it.at]
            if behind is None:
                if self.limits.before[it.at][X] > MOST:
                    self.drop_if(f"r7 > {MOST - wanted}")
                put("r5 = r2")
                put("r5 += r7")
            if (behind or 0) < it.k + it.size:
                self.show("r5", wanted)
        put(f"r6 = *(u{8 * it.size} *)({base} + {it.k})")
        if it.size > 1:
            put(f"r6 = be{8 * it.size} r6")

    def count(self, to: str) -> None:
        """The packet's length as a number: the bits from the highest on, each by a test. What the verifier knows of the
        number is forgotten twice, so that it does not explore the rest for each length."""
        put = self.text.put
        put("r8 = 0")
        put("r4 = r2")
        for bits, number in ((range(13, 6, -1), "r8"), (range(6, -1, -1), to)):
            for bit in bits:
                label = self.new_label("len")
                put("r5 = r4")
                put(f"r5 += {1 << bit}")
                put(f"if r5 > r3 goto {label}")
                put("r4 = r5")
                put(f"{number} += {1 << bit}")
                self.text.mark(label)
            if number != "r8":
                put(f"{to} += r8")
            self.forget(number)
            put(f"{number} &= 16383")
            put("r2 = *(u32 *)(r1 + 0)")
            label = self.new_label("len")
            put(f"goto {label}")
            self.text.mark(label)
            if number == "r8":
                put("r4 = r2")
                put("r4 += r8")
                put(f"{to} = 0")

    def arithmetic(self, it: Insn) -> None:
        """Translates arithmetic."""
        put = self.text.put
        if self.lengths.is_length(it.at) and it.moves_length() and not self.lengths.wanted[it.at]:
            put("")
        elif it.op == NEG:
            put("w6 = -w6")
        elif not it.by_x:
            self.by_constant(it)
        elif it.op in (DIV, MOD):
            self.drop_if("r7 == 0")
            put(f"w6 {OPERATORS[it.op]} w7")
        elif it.op in (LSH, RSH) and self.limits.before[it.at][X] > 31:
            label, end = self.new_label("shift"), self.new_label("shift")
            put(f"if r7 <= 31 goto {label}")
            put("r6 = 0")
            put(f"goto {end}")
            self.text.mark(label)
            put(f"w6 {OPERATORS[it.op]} w7")
            self.text.mark(end)
        else:
            put(f"w6 {OPERATORS[it.op]} w7")

    def by_constant(self, it: Insn) -> None:
        if it.op in (LSH, RSH) and it.k > 31:
            self.text.put("r6 = 0")
        elif it.op in (DIV, MOD) and it.k == 0:
            self.used.add(DROP)
            self.text.put(f"goto {DROP}")
        else:
            self.note(it.k)
            self.text.put(f"w6 {OPERATORS[it.op]} {signed(it.k)}")

    def test(self, it: Insn, following: str) -> None:
        if self.lengths.is_length(it.at) and it.compares_length():
            return self.length_test(it, following)
        yes, no, sign = self.target(it.next[0]), self.target(it.next[1]), SIGNS[it.op]
        if it.by_x:
            left, right = "w6", "w7"
        else:
            left, right = ("r6", str(it.k)) if it.k < HALF else ("w6", str(signed(it.k)))
            if it.op == JEQ and it.k >> 24:
                self.text.note += "; " + ".".join(str(byte) for byte in it.k.to_bytes(4, "big"))
            else:
                self.note(it.k)
        if yes == no:
            self.goto(it.next[0], following)
        elif sign in INVERSE and yes == following:
            self.text.put(f"if {left} {INVERSE[sign]} {right} goto {no}")
        else:
            self.text.put(f"if {left} {sign} {right} goto {yes}")
            self.goto(it.next[1], following)
        return None

    def length_test(self, it: Insn, following: str) -> None:
        """A is the length plus a constant, and compared with another: pointers are compared with the packet's end, at
        each length from which on the answer is another."""
        changes = self.changes(it)
        yes, no = it.next
        at_byte = 0
        if len(changes) > 1:
            self.text.put("r4 = r2")
        for (_, truth), (length, _) in zip(changes, changes[1:]):
            self.text.put(f"r4 += {length - at_byte}")
            at_byte = length
            here, there = (yes, no) if truth else (no, yes)
            if length == changes[-1][0] and self.target(here) == following and self.target(there) != following:
                self.text.put(f"if r4 <= r3 goto {self.target(there)}")
                return
            self.text.put(f"if r4 > r3 goto {self.target(here)}")
        self.goto(yes if changes[-1][1] else no, following)

    def changes(self, it: Insn) -> list[tuple[int, bool]]:
        """The lengths from which on the comparison holds, or does not."""
        offset, k = self.lengths.offset[it.at] or 0, it.k
        edges = {(edge - offset + more) & WORD for edge in (k, 0) for more in (0, 1)} | {0}
        truths = []
        for length in sorted(edge for edge in edges if edge <= MOST):
            number = (length + offset) & WORD
            truths.append((length, {JEQ: number == k, JGT: number > k, JGE: number >= k}[it.op]))
        return truths[:1] + [pair for before, pair in zip(truths, truths[1:]) if pair[1] != before[1]]


def translated(program: Program, title: str, options: Options) -> str:
    """The program text of a classic program, under a title."""
    head = "".join(f"# {line}\n" for line in title.splitlines())
    return head + Translator(program, options).translated()


def of_expression(expression: str, options: Options) -> str:
    """The program text of an expression."""
    title = "Made by filter.py of the expression\n    " + " ".join(expression.split())
    return translated(classic_program(compiled(expression)), title, options)
