"""Says what the Linux kernel refuses of a program that xdpvm accepts, each with its row of docs/DECISIONS.md.

By rules that need only the image, and by loading it where bpf(2) is allowed.
"""

import re
import struct
from typing import NamedTuple

from object_image import Program, Slot

STACK = 512  # MAX_BPF_STACK (linux/filter.h): of all call frames together
CALL_FRAMES = 8  # MAX_CALL_FRAMES (linux/bpf_verifier.h)
JUMPS = 8192  # BPF_COMPLEXITY_LIMIT_JMP_SEQ (kernel/bpf/verifier.c)
WITH_JIT, WITHOUT = 16, 32  # what round_up_stack_depth (kernel/bpf/verifier.c) rounds a function's stack up to
# opcodes: classes and operations of RFC 9669
LDX, ST, STX, ALU, JMP, JMP32, ALU64 = 1, 2, 3, 4, 5, 6, 7
ATOMIC, ADD, SUBTRACT, DIV, LEFT, RIGHT, MODULO, MOVE, ARITHMETIC = 0xC0, 0, 1, 3, 6, 7, 9, 11, 12
GOTO, CALL, EXIT = 0, 8, 9
SIZES = {0x00: 4, 0x08: 2, 0x10: 1, 0x18: 8}
FRAME, LAST_ARGUMENT = 10, 5  # r10, r5


class Row(NamedTuple):
    """A row of the table `less strict here`: both columns, and the words of the kernel's refusals that it is about."""

    here: str
    linux: str
    words: str


ROWS = [
    Row(
        "a shift by a constant over the width, and a division by the constant 0, have the RFC's meaning",
        "`invalid shift`, `div by zero`",
        "invalid shift|div by zero",
    ),
    Row(
        "a pointer may move by any number; what it may access is tested at the access",
        "`math between .. pointer and register with unbounded min value`",
        "math between|offset is outside of the packet|pointer offset .* is not allowed|pointer be out of bounds",
    ),
    Row(
        "a pointer may move back by a number; of remainders, quotients and other operations more limits are kept",
        "`min value is negative`, `unbounded memory access`",
        "min value is negative|unbounded memory access|outside of the allowed memory range|invalid access to",
    ),
    Row(
        "a stack pointer may be moved by a subtraction",
        "`subtraction from stack pointer prohibited`",
        "subtraction from stack pointer",
    ),
    Row(
        "a function may end with a pointer into its own call frame in r0: the caller finds r0 unset",
        "`cannot return stack pointer to the caller`",
        "cannot return stack pointer",
    ),
    Row(
        "a jump is known to go one way by both limits and bits, after more operations",
        "takes both ways, and may refuse what cannot be reached",
        "!read_ok|invalid bpf_context access|invalid (write to|read from) stack|32-bit pointer arithmetic prohibited"
        "|invalid mem access '(scalar|map_value_or_null)'|pointer arithmetic on (map_value_or_null|pkt_end) prohibited"
        "|misaligned stack access|invalid size of register spill|bpf_unspec#0",
    ),
    Row(
        "a loop has an end that the limits and bits kept here show",
        "`infinite loop detected`",
        "infinite loop detected",
    ),
    Row(
        "loops and branches are counted only in explored instructions, 1,000,000 of them",
        "also `The sequence of 8193 jumps is too complex`",
        "jumps is too complex|BPF program is too large",
    ),
    Row(
        "each call frame has 512 bytes of its own",
        "`combined stack size of N calls is N. Too large`: 512 bytes for all",
        "combined stack size",
    ),
    Row(
        "a function may call itself, while at most 8 call frames are live",
        "`the call stack of 8 frames is too deep`: by the calls that the code has, not those that are made",
        "call stack of .* frames is too deep",
    ),
    Row(
        "an atomic instruction on a map value may be at any offset",
        "`misaligned value access`: at a multiple of its size",
        "misaligned value access",
    ),
    Row(
        "a load or store may reach the context on one path, and other memory on another",
        "`same insn cannot be used with different pointers`",
        "same insn cannot be used",
    ),
    Row(
        "nothing is required because of speculation",
        "without CAP_PERFMON `pointer arithmetic with it prohibited for !root`",
        "prohibited for !root",
    ),
]
CONSTANTS, SUBTRACTIONS, BRANCHES, FRAMES, DEPTH, ATOMICS = ROWS[0], ROWS[3], ROWS[7], ROWS[8], ROWS[9], ROWS[10]


class Finding(NamedTuple):
    """What the kernel refuses, or may refuse."""

    is_sure: bool
    said: str
    row: Row


def row_of(words: str) -> Row | None:
    """The row that a refusal of the kernel is about, if there is one."""
    return next((row for row in ROWS if re.search(row.words, words)), None)


def told(row: Row | None) -> str:
    """A row in a line."""
    if row is None:
        return "  no row of docs/DECISIONS.md says this"
    return f"  here: {row.here}; Linux: {row.linux} (docs/DECISIONS.md)"


def findings(program: Program, bound: int | None) -> list[Finding]:
    """What the rules find. `bound` is that of `verify`, if it is known."""
    return constants(program) + subtractions(program) + atomics(program) + stack(program) + jumps(program, bound)


def constants(program: Program) -> list[Finding]:
    """Shifts and divisions by constants that the kernel does not take (check_alu_op)."""
    found = []
    for slot in program.instructions:
        it = program.slot(slot)
        kind, operation, width = it.opcode & 7, it.opcode >> 4, 64 if it.opcode & 7 == ALU64 else 32
        if kind not in (ALU, ALU64) or it.opcode & 8:
            continue
        if operation in (LEFT, RIGHT, ARITHMETIC) and not 0 <= it.imm < width:
            found.append(Finding(True, f"slot {slot} shifts {width} bits by {it.imm}", CONSTANTS))
        elif operation in (DIV, MODULO) and it.imm == 0:
            found.append(Finding(True, f"slot {slot} divides by 0", CONSTANTS))
    return found


def atomics(program: Program) -> list[Finding]:
    """Atomic instructions at an offset that is no multiple of their size."""
    found = []
    for slot in program.instructions:
        it = program.slot(slot)
        if it.opcode & 7 == STX and it.opcode & 0xE0 == ATOMIC and it.destination != FRAME:
            size = SIZES[it.opcode & 0x18]
            if it.offset % size:
                found.append(Finding(False, f"slot {slot} has an atomic instruction of {size} bytes at {it.offset:+}", ATOMICS))
    return found


class Stack:
    """How far down each function uses its stack, by the slot where it begins: through r10, and through copies of it
    that are moved by constants. A copy is followed up to the next slot that a jump leads to."""

    def __init__(self, program: Program) -> None:
        self.program, self.depths = program, dict.fromkeys(program.begins, 0)
        self.subtractions: list[int] = []
        self.copies = {FRAME: 0}
        targets = {slot + 1 + distance(it) for slot in program.instructions for it in [program.slot(slot)] if is_jump(it)}
        begin = 0
        for slot in program.instructions:
            if slot in targets or slot in self.depths:
                self.copies = {FRAME: 0}
            begin = slot if slot in self.depths else begin
            self.moved(slot, program.slot(slot))
            lowest = min(self.accessed(program.slot(slot)), *self.copies.values())
            self.depths[begin] = max(self.depths[begin], -lowest)

    def accessed(self, it: Slot) -> int:
        """The lowest byte of the stack that an instruction reads or writes, if it does."""
        base = {LDX: it.source, ST: it.destination, STX: it.destination}.get(it.opcode & 7)
        return self.copies[base] + it.offset if base is not None and base in self.copies else 0

    def moved(self, slot: int, it: Slot) -> None:
        """Keeps which registers are copies of r10, and where they point to."""
        is_wide, operation, is_register = it.opcode & 7 == ALU64, it.opcode >> 4, it.opcode & 8
        if is_wide and operation == MOVE and is_register and it.offset == 0 and it.source in self.copies:
            self.copies[it.destination] = self.copies[it.source]
        elif is_wide and operation in (ADD, SUBTRACT) and not is_register and it.destination in self.copies:
            self.copies[it.destination] += it.imm if operation == ADD else -it.imm
            self.subtractions += [slot] * (operation == SUBTRACT)
        elif it.opcode & 7 in (0, LDX, ALU, ALU64):
            self.copies.pop(it.destination, None)
        elif it.opcode & 7 == JMP and it.opcode >> 4 == CALL:
            self.copies = {register: at for register, at in self.copies.items() if register > LAST_ARGUMENT}


def is_jump(it: Slot) -> bool:
    return it.opcode & 7 in (JMP, JMP32) and it.opcode >> 4 not in (CALL, EXIT)


def distance(it: Slot) -> int:
    """How far a jump leads, from the slot after it."""
    return it.imm if it.opcode & 7 == JMP32 and it.opcode >> 4 == GOTO else it.offset


def subtractions(program: Program) -> list[Finding]:
    """Stack pointers that are moved by a subtraction."""
    return [Finding(True, f"slot {slot} subtracts from a stack pointer", SUBTRACTIONS) for slot in Stack(program).subtractions]


def callees(program: Program) -> dict[int, list[int]]:
    """The functions that each one calls, by the slots where they begin."""
    spans = {begin: range(begin, program.end(begin)) for begin in program.begins}
    return {begin: sorted({to for slot, to in program.calls.items() if slot in spans[begin]}) for begin in spans}


def stack(program: Program) -> list[Finding]:
    """Calls whose call frames have over 512 bytes together, or are too many (check_max_stack_depth)."""
    own, called = Stack(program).depths, callees(program)
    for step, is_sure, where in ((WITH_JIT, True, ""), (WITHOUT, False, " without the JIT, and in older kernels")):
        size, chain = dearest(called, {begin: rounded(size, step) for begin, size in own.items()})
        if size > STACK:
            said = f"the call frames of the functions at slots {listed(chain)} have {size:,} bytes of stack"
            return [Finding(is_sure, said + where, FRAMES), *deep(called)]
    return deep(called)


def rounded(size: int, step: int) -> int:
    return -(-max(size, step == WITHOUT) // step) * step


def listed(chain: list[int]) -> str:
    return ", ".join(map(str, chain[:-1])) + f" and {chain[-1]}"


def dearest(called: dict[int, list[int]], sizes: dict[int, int]) -> tuple[int, list[int]]:
    """The chain of at most 8 calls whose functions have most bytes of stack, and how many."""
    best = {begin: (sizes[begin], [begin]) for begin in called}
    for _ in range(CALL_FRAMES - 1):
        after: dict[int, tuple[int, list[int]]] = {
            begin: max((best[to] for to in called[begin]), default=(0, [])) for begin in called
        }
        best = {begin: (sizes[begin] + more, [begin, *chain]) for begin, (more, chain) in after.items()}
    return best[0]


def deep(called: dict[int, list[int]]) -> list[Finding]:
    """A chain of over 8 calls, if the code has one."""
    longest = {begin: [begin] for begin in called}
    for _ in range(CALL_FRAMES):
        after: dict[int, list[int]] = {begin: max((longest[to] for to in called[begin]), key=len, default=[]) for begin in called}
        longest = {begin: [begin, *chain] for begin, chain in after.items()}
    chain = longest[0]
    return (
        [Finding(True, f"the functions at slots {listed(chain)} are a chain of calls", DEPTH)] if len(chain) > CALL_FRAMES else []
    )


def jumps(program: Program, bound: int | None) -> list[Finding]:
    """Loops with a jump that may go either way, in a program whose runs may take more jumps than the kernel keeps."""
    if bound is None or bound <= JUMPS:
        return []
    for slot in program.instructions:
        if is_jump(program.slot(slot)) and distance(program.slot(slot)) < 0:
            words = f"a run may take {bound:,} instructions, with the loop that ends at slot {slot}: it is refused if"
            return [Finding(False, f"{words} over {JUMPS:,} jumps of one run may go either way", BRANCHES)]
    return []


class Answer(NamedTuple):
    """What the kernel said to a test load."""

    is_asked: bool
    is_loaded: bool
    words: str


def asked(image: bytes) -> Answer:
    """Loads the program and closes it again, where bpf(2) is allowed."""
    import kernel_calls

    try:
        with kernel_calls.Kernel(image) as there:
            return Answer(True, there.refusal is None, there.refusal or "ok")
    except (kernel_calls.NoKernel, OSError, struct.error) as why:
        return Answer(False, False, str(why))


def checked(program: Program, image: bytes, bound: int | None) -> bool:
    """Prints what is found; the result is whether the kernel takes the program, as far as that is known."""
    found = findings(program, bound)
    for it in found:
        print(f"{'rule' if it.is_sure else 'rule, perhaps'}: {it.said}", told(it.row), sep="\n")
    answer = asked(image)
    if not answer.is_asked:
        print(f"kernel: not asked, since {answer.words}")
        return not any(it.is_sure for it in found)
    if answer.is_loaded:
        print("kernel: ok")
        return True
    print(f"kernel: refused: {answer.words}", told(row_of(answer.words)), sep="\n")
    return False
