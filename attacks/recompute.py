#!/usr/bin/env python3
"""Recomputes what the definitions of crates/isa_model say, from RFC 9669 and bpf(2) alone, and lets the checker compare.

usage: python3 attacks/recompute.py [--keep FOLDER]

The functions of this script are written from the text of RFC 9669 (sections 4.1 to 4.3 and 5) and of bpf(2), and not from
the definitions. It computes arithmetic, comparisons, sign extension and byte order on numbers at the ends of their
ranges, whole runs of random programs over numbers and the stack, and the answers and contents of maps after lists of
commands; writes them as equations into a crate of its own beside isa_model; and has `rt check` decide each of them. The
exit status is rt's. An equation that is changed is refused (--keep leaves the crate to try that).
Takes some three processor minutes if isa_model is proved. Run by hand.
"""
import operator
import os
import random
import shutil
import subprocess
import sys
import tempfile
from collections.abc import Callable, Iterable
from functools import partial

sys.path.insert(0, os.path.join(os.path.dirname(os.path.abspath(__file__)), "../checks"))
from common import TOP, command_line

WIDTHS = {"Low32": 32, "Full64": 64}
# The ends of signed and unsigned ranges of 8 to 64 bits, small numbers of either sign, and two without a pattern.
OPERANDS = sorted(
    {n % 2**64 for bits in (8, 16, 32, 63, 64) for n in (2**bits - 1, 2**bits, 2 ** (bits - 1))}
    | {n % 2**64 for n in (0, 1, 2, 7, 33, -2, -7, -(2**31), -(2**31) - 1)}
    | {0x0123456789ABCDEF, 0xFEDCBA9876543210}
)
PER_FILE = 40
Octets = tuple[int, ...]


def signed(n: int, bits: int) -> int:
    n %= 1 << bits
    return n - (1 << bits) if n >> bits - 1 else n


def truncated(a: int, b: int) -> int:
    """a / b, cut toward zero."""
    return abs(a) // abs(b) * (1 if (a < 0) == (b < 0) else -1)


def arithmetic(op: str, bits: int, dst: int, src: int) -> int:
    """RFC 9669, section 4.1. With 32 bits the upper half of the result is zero."""
    a, b = dst % (1 << bits), src % (1 << bits)
    s, t = signed(dst, bits), signed(src, bits)
    shift = src & (bits - 1)
    results: dict[str, Callable[[], int]] = {
        "Add": lambda: a + b,
        "Sub": lambda: a - b,
        "Mul": lambda: a * b,
        "Div": lambda: a // b if b else 0,
        "SignedDiv": lambda: truncated(s, t) if b else 0,
        "Or": lambda: a | b,
        "And": lambda: a & b,
        "Lsh": lambda: a << shift,
        "Rsh": lambda: a >> shift,
        "Mod": lambda: a % b if b else a,
        "SignedMod": lambda: s - t * truncated(s, t) if b else a,
        "Xor": lambda: a ^ b,
        "Mov": lambda: b,
        "Arsh": lambda: s >> shift,
    }
    return results[op]() % (1 << bits)


OPS = "Add Sub Mul Div SignedDiv Or And Lsh Rsh Mod SignedMod Xor Mov Arsh".split()


def condition(op: str, bits: int, dst: int, src: int) -> bool:
    """RFC 9669, section 4.3."""
    a, b, s, t = dst % (1 << bits), src % (1 << bits), signed(dst, bits), signed(src, bits)
    holds: dict[str, bool] = {
        "Equal": a == b,
        "NotEqual": a != b,
        "Greater": a > b,
        "GreaterEqual": a >= b,
        "Less": a < b,
        "LessEqual": a <= b,
        "AnyBit": a & b != 0,
        "SignedGreater": s > t,
        "SignedGreaterEqual": s >= t,
        "SignedLess": s < t,
        "SignedLessEqual": s <= t,
    }
    return holds[op]


CONDITIONS = (
    "Equal NotEqual Greater GreaterEqual Less LessEqual AnyBit SignedGreater SignedGreaterEqual SignedLess SignedLessEqual".split()
)
EXTENSIONS = {"Low8": (8, 32), "Low16": (16, 32), "Full8": (8, 64), "Full16": (16, 64), "Full32": (32, 64)}
SPANS = {"B16": 16, "B32": 32, "B64": 64}


def byte_order(order: str, bits: int, n: int) -> int:
    """RFC 9669, section 4.2, on a machine with the low byte first."""
    octets = (n % 2**bits).to_bytes(bits // 8, "little")
    return int.from_bytes(octets, "little" if order == "Little" else "big")


class Map:
    """A map as bpf(2) describes it: keys and values are tuples of bytes. Errors are numbers of 64
    bits."""

    ERRORS = {"ENOENT": 2, "E2BIG": 7, "EEXIST": 17, "EINVAL": 22}

    def __init__(self, kind: str, key_size: int, value_size: int, entries: int) -> None:
        self.kind, self.key_size, self.value_size, self.entries = kind, key_size, value_size, entries
        self.values = {}
        if kind == "Array":
            self.values = {tuple(k.to_bytes(4, "little")): (0,) * value_size for k in range(entries)}

    def update(self, key: Octets, value: Octets, flags: int) -> int:
        if flags > 2:
            return self.error("EINVAL")
        if self.kind == "Array" and key not in self.values:
            return self.error("E2BIG")
        if flags == 1 and key in self.values:
            return self.error("EEXIST")
        if flags == 2 and key not in self.values:
            return self.error("ENOENT")
        if key not in self.values and len(self.values) == self.entries:
            return self.error("E2BIG")
        self.values[key] = value
        return 0

    def delete(self, key: Octets) -> int:
        if self.kind == "Array":
            return self.error("EINVAL")
        if key not in self.values:
            return self.error("ENOENT")
        del self.values[key]
        return 0

    def error(self, name: str) -> int:
        return 2**64 - self.ERRORS[name]


def listed(items: Iterable[str]) -> str:
    return " ∷ ".join([*items, "[]"])


def bytes_text(octets: Octets) -> str:
    return f"({listed(map(str, octets))})"


class Equations:
    """Equations of one subject, some in each file."""

    def __init__(self, name: str, imports: str, unfolding: str) -> None:
        self.name, self.imports, self.unfolding = name, imports, unfolding
        self.rows: list[str] = []
        self.numbers = 0

    def add(self, left: str, right: str, numbers: int) -> None:
        self.rows.append(f"{left}\n    ≡ {right}")
        self.numbers += numbers

    def write(self, folder: str) -> list[str]:
        """Writes the files, and returns their names."""
        names = []
        for at in range(0, len(self.rows), PER_FILE):
            name = f"{self.name}{at // PER_FILE}"
            with open(f"{folder}/{name}.antt", "w", encoding="utf-8") as file:
                file.write("-- Equations that attacks/recompute.py wrote.\n" + self.imports)
                for k, row in enumerate(self.rows[at : at + PER_FILE]):
                    file.write(f"\npub row{k} : {row}\n{self.unfolding}\nrow{k} = refl\n")
            names.append(name)
        return names


PRELUDE = "use Rattle.std.specs.Prelude.{◌≡◌, ℕ, true, false, List, [], ◌∷◌, refl}\n"
DECLARED = "use Rattle.isa_model.specs.declared"
NUMBERS = "use Rattle.isa_model.specs.Code.Numbers"


def numbers() -> list[Equations]:
    """Arithmetic and comparisons of each pair of operands."""
    arithmetics = Equations(
        "Arithmetic",
        f"{PRELUDE}{DECLARED}.sizes.Width.TheVariants.{{Low32, Full64}}\n"
        f"{DECLARED}.instructions.AluOp.TheVariants.{{{', '.join(OPS)}}}\n{NUMBERS}.{{alu}}\n",
        "unfolding alu",
    )
    comparisons = Equations(
        "Comparisons",
        f"{PRELUDE}{DECLARED}.sizes.Width.TheVariants.{{Low32, Full64}}\n"
        f"{DECLARED}.instructions.Comparison.TheVariants.{{{', '.join(CONDITIONS)}}}\n{NUMBERS}.{{holds}}\n",
        "unfolding holds",
    )
    for width, bits in WIDTHS.items():
        for a in OPERANDS:
            for op in OPS:
                left = listed(f"alu {op} {width} {a} {b}" for b in OPERANDS)
                arithmetics.add(left, listed(str(arithmetic(op, bits, a, b)) for b in OPERANDS), len(OPERANDS))
            for op in CONDITIONS:
                left = listed(f"holds {op} {width} {a} {b}" for b in OPERANDS)
                right = listed(str(condition(op, bits, a, b)).lower() for b in OPERANDS)
                comparisons.add(left, right, len(OPERANDS))
    return [arithmetics, comparisons]


def forms() -> list[Equations]:
    extensions = Equations(
        "Extensions",
        f"{PRELUDE}{DECLARED}.sizes.Extension.TheVariants.{{{', '.join(EXTENSIONS)}}}\n{NUMBERS}.{{sign_extended}}\n",
        "unfolding sign_extended",
    )
    for name, (low, bits) in EXTENSIONS.items():
        left = listed(f"sign_extended {name} {n}" for n in OPERANDS)
        extensions.add(left, listed(str(signed(n, low) % 2**bits) for n in OPERANDS), len(OPERANDS))
    orders = Equations(
        "Orders",
        f"{PRELUDE}{DECLARED}.sizes.SwapWidth.TheVariants.{{B16, B32, B64}}\n"
        f"{DECLARED}.sizes.ByteOrder.TheVariants.{{Little, Big, Swap}}\n{NUMBERS}.{{reordered}}\n",
        "unfolding reordered",
    )
    for order in ("Little", "Big", "Swap"):
        for span, bits in SPANS.items():
            left = listed(f"reordered {order} {span} {n}" for n in OPERANDS)
            orders.add(left, listed(str(byte_order(order, bits, n)) for n in OPERANDS), len(OPERANDS))
    return [extensions, orders]


MAP_IMPORTS = (
    "use Rattle.std.specs.Prelude.{◌≡◌, ℕ, List, [], ◌∷◌, refl}\n"
    f"{DECLARED}.map_defs.MapDef.{{MapDef}}\n{DECLARED}.map_defs.MapType.TheVariants.{{Array, Hash}}\n"
    "use Rattle.isa_model.specs.Machine.MapContents.{update_answer, delete_answer, after_update, after_delete}\n"
    "\n-- the answer, and the content that is left\n"
    "abbrev updated : MapDef → List (List ℕ × List ℕ) → List ℕ → List ℕ → ℕ → ℕ × List (List ℕ × List ℕ)\n"
    "updated row content key value flags ="
    " (update_answer row content key flags, after_update row content key value flags)\n"
    "\nabbrev deleted : MapDef → List (List ℕ × List ℕ) → List ℕ → ℕ × List (List ℕ × List ℕ)\n"
    "deleted row content key = (delete_answer row content key, after_delete row content key)\n"
)


def content_text(it: Map) -> str:
    return f"({listed(f'({bytes_text(k)}, {bytes_text(it.values[k])})' for k in sorted(it.values))})"


def commands() -> list[Equations]:
    """Lists of commands over maps of some shapes, each with the content that it finds and leaves."""
    maps = Equations("Maps", MAP_IMPORTS, "")
    chance = random.Random(9669)
    for kind, key_size, value_size, entries in [
        ("Array", 4, 1, 1),
        ("Array", 4, 2, 3),
        ("Hash", 1, 1, 1),
        ("Hash", 2, 3, 3),
        ("Hash", 4, 2, 5),
    ] * 3:
        it = Map(kind, key_size, value_size, entries)
        row = f"(record {{ kind = {kind}; key_size = {key_size}; value_size = {value_size}; entries = {entries} }})"
        keys = [tuple(k.to_bytes(4, "little"))[:key_size] for k in (0, 1, 2, 3, 255)]
        keys += [tuple(chance.randrange(256) for _ in range(key_size)) for _ in range(3)]
        for _ in range(40):
            key, before = chance.choice(keys), content_text(it)
            if chance.random() < 0.3:
                answer, call = it.delete(key), f"deleted {row} {before} {bytes_text(key)}"
            else:
                value = tuple(chance.randrange(256) for _ in range(value_size))
                flags = chance.choice([0, 0, 0, 1, 2, 3, 2**32, 2**64 - 1])
                answer = it.update(key, value, flags)
                call = f"updated {row} {before} {bytes_text(key)} {bytes_text(value)} {flags}"
            size = len(it.values) * (key_size + value_size)
            maps.add(call, f"({answer}, {content_text(it)})", 1 + size)
    return [maps]


class Run:
    """A random program of jumps forward, over numbers in r0 and r2 to r9 and the stack, and its run: RFC 9669, 3 to 5."""

    SIZES = {"U8": 1, "U16": 2, "U32": 4, "U64": 8}
    ATOMICS = {"Add": operator.add, "Or": operator.or_, "And": operator.and_, "Xor": operator.xor}
    REGISTERS = (0, 2, 3, 4, 5, 6, 7, 8, 9)

    def __init__(self, chance: random.Random) -> None:
        self.chance, self.steps, self.stack = chance, 0, bytearray(64)
        self.code: list[str] = []
        self.registers: dict[int, int] = {}
        for r in self.REGISTERS:
            number = chance.choice(OPERANDS)
            self.do(f"insn.LoadNumber R{r} {number}", partial(self.set, r, number))
        for at in range(8):
            r = self.any()
            self.do(f"insn.Store U64 (below R10 {64 - 8 * at}) R{r}", partial(self.put, 8 * at, 8, self.registers[r]))
        skipped = 0
        for left in range(16, 0, -1):
            skipped = self.instruction(skipped > 0, left) if skipped == 0 else self.instruction(True, left) or skipped - 1
        for r in self.REGISTERS[1:] + (0,) * 2:
            self.alu("Full64", "Mul", 0, 31, "Constant (pos 31)", False)
            self.alu("Full64", "Xor", 0, self.registers[r], f"Register R{r}", False)
        for at in range(8):
            self.load("U64", 2, at * 8, False)
            self.alu("Full64", "Add", 0, self.registers[2], "Register R2", False)
        self.do("insn.Exit", lambda: None)

    def any(self) -> int:
        return self.chance.choice(self.REGISTERS)

    def do(self, text: str, effect: Callable[[], object], skip: bool = False) -> None:
        self.code.append(text)
        if not skip:
            self.steps += 1
            effect()

    def put(self, at: int, size: int, number: int) -> None:
        self.stack[at : at + size] = (number % 2 ** (8 * size)).to_bytes(size, "little")

    def get(self, at: int, size: int) -> int:
        return int.from_bytes(self.stack[at : at + size], "little")

    def set(self, r: int, number: int) -> None:
        self.registers[r] = number % 2**64

    def operand(self) -> tuple[int, str]:
        """A constant or a register, as a number and as a text."""
        if self.chance.random() < 0.4:
            k = self.chance.choice([0, 1, 7, 63, 2**31 - 1, -1, -2, -(2**31)])
            return k % 2**64, f"Constant ({f'pos {k}' if k >= 0 else f'negsuc {-k - 1}'})"
        r = self.any()
        return self.registers[r], f"Register R{r}"

    def alu(self, width: str, op: str, r: int, number: int, text: str, skip: bool) -> None:
        words = f"insn.Alu {width} {op} R{r} ({text})"
        self.do(words, lambda: self.set(r, arithmetic(op, WIDTHS[width], self.registers[r], number)), skip)

    def load(self, size: str, r: int, at: int, skip: bool) -> None:
        self.do(f"insn.Load {size} R{r} (below R10 {64 - at})", lambda: self.set(r, self.get(at, self.SIZES[size])), skip)

    def instruction(self, skip: bool, left: int) -> int:
        """Makes one more, which is run unless a jump skips it. Returns how many are skipped after
        it."""
        r, q, width = self.any(), self.any(), self.chance.choice(list(WIDTHS))
        form = self.chance.randrange(9)
        if form < 3:
            self.alu(width, self.chance.choice(OPS), r, *self.operand(), skip)
        elif form == 3:
            name = self.chance.choice(list(EXTENSIONS))
            low, bits = EXTENSIONS[name]
            self.do(f"insn.MovSx {name} R{r} R{q}", lambda: self.set(r, signed(self.registers[q], low) % 2**bits), skip)
        elif form == 4:
            order, span = self.chance.choice(["Little", "Big", "Swap"]), self.chance.choice(list(SPANS))
            text = f"insn.ByteSwap {order} {span} R{r}"
            self.do(text, lambda: self.set(r, byte_order(order, SPANS[span], self.registers[r])), skip)
        elif form == 5:
            self.do(f"insn.Neg {width} R{r}", lambda: self.set(r, -self.registers[r] % 2 ** WIDTHS[width]), skip)
        elif form == 6:
            self.memory(r, width, skip)
        elif form == 7 and left > 1:
            return self.jump(r, width, min(self.chance.randrange(1, 4), left - 1), skip)
        else:
            size = self.chance.choice(list(self.SIZES))
            self.load(size, r, self.chance.randrange(64 - self.SIZES[size] + 1), skip)
        return 0

    def memory(self, r: int, width: str, skip: bool) -> None:
        size = self.chance.choice(list(self.SIZES))
        at = self.chance.randrange(64 - self.SIZES[size] + 1)
        if self.chance.random() < 0.5:
            text = f"insn.Store {size} (below R10 {64 - at}) R{r}"
            return self.do(text, lambda: self.put(at, self.SIZES[size], self.registers[r]), skip)
        octets, place = WIDTHS[width] // 8, self.chance.randrange(8) * 8
        form = self.chance.choice([*self.ATOMICS, "Exchange", "CompareExchange"])
        where = f"{width} (below R10 {64 - place})"
        if form == "Exchange":
            text = f"insn.Exchange {where} R{r}"
        elif form == "CompareExchange":
            text = f"insn.CompareExchange {where} R{r}"
        else:
            fetch = self.chance.choice(["true", "false"])
            text = f"insn.Atomic {width} atomic.{form} {fetch} (below R10 {64 - place}) R{r}"
        return self.do(text, lambda: self.atomic(form, r, place, octets, "true" in text), skip)

    def atomic(self, form: str, r: int, place: int, octets: int, fetch: bool) -> None:
        """RFC 9669, section 5.3."""
        old = self.get(place, octets)
        if form == "Exchange":
            self.put(place, octets, self.registers[r])
            self.set(r, old)
        elif form == "CompareExchange":
            if old == self.registers[0] % 2 ** (8 * octets):
                self.put(place, octets, self.registers[r])
            self.set(0, old)
        else:
            self.put(place, octets, self.ATOMICS[form](old, self.registers[r]))
            if fetch:
                self.set(r, old)

    def jump(self, r: int, width: str, by: int, skip: bool) -> int:
        """A jump forward over some instructions; returns how many are skipped."""
        op, (number, text) = self.chance.choice(CONDITIONS), self.operand()
        test = f"record {{ width = {width}; comparison = {op}; register = R{r}; operand = {text} }}"
        goes = not skip and condition(op, WIDTHS[width], self.registers[r], number)
        self.do(f"insn.JumpIf ({test}) (pos {by})", lambda: None, skip)
        return by if goes else 0


RUN_IMPORTS = (
    "use Rattle.std.specs.Prelude.{◌≡◌, ℕ, pos, negsuc, true, false, List, [], ◌∷◌, refl}\n"
    f"{DECLARED}.sizes.Width.TheVariants.{{Low32, Full64}}\n"
    f"{DECLARED}.sizes.Size.TheVariants.{{U8, U16, U32, U64}}\n"
    f"{DECLARED}.sizes.Extension.TheVariants.{{{', '.join(EXTENSIONS)}}}\n"
    f"{DECLARED}.sizes.SwapWidth.TheVariants.{{B16, B32, B64}}\n"
    f"{DECLARED}.sizes.ByteOrder.TheVariants.{{Little, Big, Swap}}\n"
    f"{DECLARED}.registers.Reg.TheVariants.{{R0, R2, R3, R4, R5, R6, R7, R8, R9, R10}}\n"
    f"{DECLARED}.instructions.AluOp.TheVariants.{{{', '.join(OPS)}}}\n"
    f"{DECLARED}.instructions.AtomicOp.TheVariants as atomic\n"
    f"{DECLARED}.instructions.Comparison.TheVariants.{{{', '.join(CONDITIONS)}}}\n"
    f"{DECLARED}.instructions.Operand.TheVariants.{{Constant, Register}}\n"
    f"{DECLARED}.instructions.Insn.TheVariants as insn\n"
    f"{DECLARED}.ends.End.TheVariants.{{Exit}}\n"
    f"{NUMBERS}.{{alu, holds, sign_extended, reordered}}\n"
    "use Rattle.isa_model.specs.Machine.States.{new_call_frame}\n"
    "use Rattle.isa_model.specs.Machine.Steps.{act, step}\n"
    "use Rattle.isa_model.specs.Running.Runs.{start_state, progress, turn}\n"
    "use Rattle.isa_model.specs.Worked.Examples.{end_on, below}\n"
)


def runs() -> list[Equations]:
    """Whole runs: what each returns, mixed from all registers and 64 bytes of the stack, and its steps."""
    programs = Equations(
        "Runs", RUN_IMPORTS, "unfolding turn progress start_state new_call_frame step act alu holds sign_extended reordered"
    )
    chance = random.Random(4)
    for _ in range(300):
        it = Run(chance)
        programs.add(f"end_on ({listed(it.code)}) [] 100", f"Exit {it.registers[0]} {it.steps}", 2)
    return [programs]


def write_crate(folder: str, subjects: list[Equations]) -> None:
    crate = f"{folder}/crates/recomputed"
    for name in ("src", "specs"):
        os.makedirs(f"{crate}/{name}")
    shutil.copytree(f"{TOP}/crates/isa_model", f"{folder}/crates/isa_model", symlinks=True)
    with open(f"{TOP}/crates.txt", encoding="utf-8") as file:
        model = next(line for line in file if line.startswith("isa_model:"))
    with open(f"{folder}/crates.txt", "w", encoding="utf-8") as file:
        file.write(f"{model.rstrip()}\nrecomputed: isa_model\n")
    files = [name for it in subjects for name in it.write(f"{crate}/specs")]
    with open(f"{crate}/specs/Lib.antt", "w", encoding="utf-8") as file:
        file.write("".join(f"pub mod {name}\n" for name in files))
    with open(f"{crate}/src/lib.rt", "w", encoding="utf-8") as file:
        file.write("//! Equations that attacks/recompute.py wrote.\n#![tactic(auto)]\n")


def main() -> int:
    parser = command_line()
    parser.add_argument("--keep", metavar="FOLDER", help="write the crate into this new folder, and leave it there")
    words = parser.parse_args()
    subjects = numbers() + forms() + runs() + commands()
    with tempfile.TemporaryDirectory() as made:
        folder = words.keep or f"{made}/recomputed"
        write_crate(folder, subjects)
        status = subprocess.run(["rt", "check"], cwd=f"{folder}/crates/recomputed", check=False).returncode
    for it in subjects:
        print(f"{it.name}: {len(it.rows)} equations, {it.numbers} numbers")
    print(f"{sum(it.numbers for it in subjects)} numbers: {'all as recomputed' if status == 0 else 'REFUSED'}")
    return status


if __name__ == "__main__":
    sys.exit(main())
