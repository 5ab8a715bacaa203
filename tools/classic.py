"""Programs of the classic packet filter, as `tcpdump -ddd` writes them, and what tcpdump makes of an expression.

The instructions are those of bpf(4) of the BSDs and of the kernel's page on the classic packet filter
(Documentation/networking/filter.rst).
"""

import shutil
import subprocess

WORD = (1 << 32) - 1
LD, LDX, ST, STX, ALU, JMP, RET, MISC = range(8)
SIZES = {0x00: 4, 0x08: 2, 0x10: 1}
IMM, ABS, IND, MEM, LEN, MSH = 0x00, 0x20, 0x40, 0x60, 0x80, 0xA0
ADD, SUB, MUL, DIV, OR, AND, LSH, RSH, NEG, MOD, XOR = (number << 4 for number in range(11))
JA, JEQ, JGT, JGE, JSET = 0x00, 0x10, 0x20, 0x30, 0x40
TAX, TXA = 0x07, 0x87
BYTE, BY_X, RET_A = 0x10, 0x08, 0x10
NAMES = {ADD: "add", SUB: "sub", MUL: "mul", DIV: "div", OR: "or", AND: "and", LSH: "lsh", RSH: "rsh", NEG: "neg"}
NAMES.update({MOD: "mod", XOR: "xor"})
TESTS = {JEQ: "jeq", JGT: "jgt", JGE: "jge", JSET: "jset"}
CELLS = 16  # of the memory M
ANCILLARY, PLACES = 0xFFFFF000, 64  # SKF_AD_OFF: absolute loads of the places from here on ask the kernel
MOST = (65535, 255, 255, WORD)  # of the four numbers of an instruction


class Failed(Exception):
    """The expression or the program is not taken; the message says why."""


def signed(number: int) -> int:
    return number - (1 << 32) if number >> 31 else number


class Insn:
    """An instruction, taken apart."""

    def __init__(self, at: int, code: int, jt: int, jf: int, k: int) -> None:
        self.at, self.code, self.k = at, code, k
        self.kind, self.size, self.mode = code & 7, SIZES.get(code & 0x18, 0), code & 0xE0
        self.op, self.by_x = code & 0xF0, bool(code & BY_X)
        self.next: list[int] = []  # where it goes: of a jump the target where the test holds first
        if self.kind == JMP:
            self.next = [at + 1 + signed(k)] if self.op == JA else [at + 1 + jt, at + 1 + jf]
        elif self.kind != RET:
            self.next = [at + 1]
        self.is_test = self.kind == JMP and self.op != JA
        self.is_back = self.kind == JMP and self.op == JA and self.next[0] <= at
        self.is_forward = self.kind == JMP and self.op == JA and self.next[0] > at

    def loads(self, mode: int) -> bool:
        """Whether it loads A by this mode, from the frame or its length."""
        return self.kind == LD and self.mode == mode and not self.asks()

    def asks(self) -> bool:
        """Whether it loads what the kernel knows of the frame, in place of bytes of it."""
        return self.kind == LD and self.mode == ABS and 0 <= self.k - ANCILLARY < PLACES

    def is_loading(self) -> bool:
        return self.kind in (LD, LDX)

    def names_cell(self) -> bool:
        """Whether it reads or writes the cell k of M."""
        return self.kind in (ST, STX) or self.mode == MEM and self.is_loading()

    def sets_a(self) -> bool:
        return self.kind in (LD, ALU) or self.code == TXA

    def sets_x(self) -> bool:
        return self.kind == LDX or self.code == TAX

    def uses_a(self) -> bool:
        returns_a = self.kind == RET and self.code & 0x18 == RET_A
        return self.kind in (ST, ALU) or self.code == TAX or self.is_test or returns_a

    def uses_x(self) -> bool:
        if self.kind == STX or self.code == TXA or self.loads(IND):
            return True
        return self.by_x and (self.kind == ALU and self.op != NEG or self.is_test)

    def compares_length(self) -> bool:
        """Whether it compares A with a constant, as the length may be compared."""
        return self.is_test and not self.by_x and self.op != JSET

    def moves_length(self) -> bool:
        """Whether it adds a constant to A or subtracts one, so that a length stays one plus a constant."""
        return self.kind == ALU and not self.by_x and self.op in (ADD, SUB)

    def __str__(self) -> str:
        """As tcpdump -d writes it."""
        k, end = self.k, {4: "", 2: "h", 1: "b"}.get(self.size, "")
        if self.is_loading():
            name = ("ld" if self.kind == LD else "ldx") + end
            places = {IMM: f"#0x{k:x}", ABS: f"[{k}]", IND: f"[x + {k}]", MEM: f"M[{k}]", LEN: "#pktlen"}
            return f"{name} {places.get(self.mode, f'4*([{k}]&0xf)')}"
        if self.kind in (ST, STX):
            return f"{'st' if self.kind == ST else 'stx'} M[{k}]"
        if self.kind == ALU:
            operand = "" if self.op == NEG else " x" if self.by_x else f" #{k}" if k < 65536 else f" #0x{k:x}"
            return NAMES[self.op] + operand
        if self.kind == JMP:
            if self.op == JA:
                return f"ja {self.next[0]}"
            return f"{TESTS[self.op]} {'x' if self.by_x else f'#0x{k:x}'} jt {self.next[0]} jf {self.next[1]}"
        if self.kind == RET:
            return "ret a" if self.code & 0x18 == RET_A else f"ret #{k}"
        return "tax" if self.code == TAX else "txa"


Program = list[Insn]
LOADS = {LD | size | mode for size in SIZES for mode in (ABS, IND)} | {LD | mode for mode in (IMM, MEM, LEN)}
LOADS_OF_X = {LDX | mode for mode in (IMM, MEM, LEN)} | {LDX | MSH | BYTE}
COUNTS = {ALU | op | by for op in NAMES if op != NEG for by in (0, BY_X)} | {ALU | NEG}
JUMPS = {JMP | op | by for op in TESTS for by in (0, BY_X)} | {JMP | JA}
KNOWN = LOADS | LOADS_OF_X | COUNTS | JUMPS | {ST, STX, TAX, TXA, RET, RET | RET_A}


def classic_program(text: str) -> Program:
    """The instructions that `tcpdump -ddd` has written."""
    lines = text.split("\n")
    try:
        count = int(lines[0])
        rows = [[int(word) for word in line.split()] for line in lines[1 : 1 + count]]
        if len(rows) != count or not rows or any(len(row) != len(MOST) for row in rows):
            raise ValueError
        if any(not 0 <= number <= most for row in rows for number, most in zip(row, MOST)):
            raise ValueError
    except ValueError:
        raise Failed("this is not what `tcpdump -ddd` writes: a count, and then four numbers on each line") from None
    program = [Insn(at, *row) for at, row in enumerate(rows)]
    for it in program:
        if it.code not in KNOWN:
            raise Failed(f"instruction {it.at} has the code 0x{it.code:x}, which is none of the classic packet filter")
        if any(not 0 <= to < count for to in it.next):
            raise Failed(f"instruction {it.at} leads out of the program")
        if it.names_cell() and it.k >= CELLS:
            raise Failed(f"instruction {it.at} names M[{it.k}], and there are {CELLS}")
    return program


def compiled(expression: str, optimizes: bool = True) -> str:
    """What tcpdump makes of the expression, for Ethernet."""
    if not shutil.which("tcpdump"):
        raise Failed("there is no tcpdump to compile the expression; Debian's package tcpdump has it")
    words = ["tcpdump", "-y", "EN10MB", "-ddd", *([] if optimizes else ["-O"]), "--", expression]
    ran = subprocess.run(words, stdin=subprocess.DEVNULL, capture_output=True, text=True, errors="replace", check=False)
    if ran.returncode:
        said = ran.stderr.strip().splitlines() or ["it fails"]
        raise Failed(f"{expression!r}: " + said[-1].removeprefix("tcpdump: "))
    return ran.stdout


def asks_for_length(program: Program) -> bool:
    """Whether the program reads the frame's length."""
    return any(it.is_loading() and it.mode == LEN for it in program)
