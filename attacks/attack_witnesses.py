"""Programs that go wrong or run long on one frame, as texts, for attacks.py: their first line names
that frame, the witness. The result of each instruction on it is computed too (recompute.py), so
each test goes the way of the witness, and limits are wrong near the numbers that it has.
`witnesses` are never right: where their last test sends the frame an access is not allowed, so
`verify` may accept none. `loops` send it the longest way, and some never end."""
import random
from collections.abc import Callable
from attack_programs import SIZES, program
from recompute import arithmetic, byte_order, condition, signed

SIGNS = {
    "+=": "Add",
    "-=": "Sub",
    "*=": "Mul",
    "/=": "Div",
    "s/=": "SignedDiv",
    "|=": "Or",
    "&=": "And",
    "<<=": "Lsh",
    ">>=": "Rsh",
    "%=": "Mod",
    "s%=": "SignedMod",
    "^=": "Xor",
    "s>>=": "Arsh",
    "=": "Mov",
}
TESTS = {
    "==": "Equal",
    "!=": "NotEqual",
    ">": "Greater",
    ">=": "GreaterEqual",
    "<": "Less",
    "<=": "LessEqual",
    "&": "AnyBit",
    "s>": "SignedGreater",
    "s>=": "SignedGreaterEqual",
    "s<": "SignedLess",
    "s<=": "SignedLessEqual",
}
HEAD = 24  # bytes of the packet that are numbers
ENDS = [0, 2**7, 2**8, 2**15, 2**16, 2**31, 2**32, 2**33, 2**62, 2**63, 2**64]


def some_number(chance: random.Random) -> int:
    """A number of 64 bits: near an end of a range, with a small upper half, with few bits, or any."""
    kinds: list[Callable[[], int]] = [
        lambda: chance.choice(ENDS) + chance.randrange(-70, 70),
        lambda: (chance.randrange(4) << 32) + chance.randrange(-70, 70),
        lambda: chance.randrange(70),
        lambda: sum(1 << chance.randrange(64) for _ in range(3)),
        lambda: chance.randrange(2**64),
        lambda: chance.randrange(2**32),
        lambda: -chance.randrange(2**31),
    ]
    return chance.choice(kinds)() % 2**64


def close_to(chance: random.Random, number: int) -> int:
    """A number that is this one, or near it, a few upper halves away, or beyond it up to an end."""
    kinds: list[Callable[[], int]] = [
        lambda: number,
        lambda: number + chance.choice([1, -1]),
        lambda: number + chance.randrange(-9, 10),
        lambda: number + (chance.choice([1, 1, 2, -1]) << 32) + chance.randrange(-70, 70),
        lambda: number | (1 << chance.randrange(64)) - 1,
        lambda: number & -(1 << chance.randrange(64)),
        lambda: some_number(chance),
    ]
    return chance.choice(kinds)() % 2**64


class Way:
    """A program along the way of its witness, and the numbers of r2, r3 and r4 there."""

    def __init__(self, chance: random.Random) -> None:
        self.chance = chance
        self.lines: list[str] = []
        self.has: dict[int, int] = {}

    def load(self, register: int, place: int, number: int) -> None:
        """Loads some of the packet's bytes at an offset, which have this number."""
        size = self.chance.choice(["u64", "u64", "u64", "u32", "u32", "u16", "u8", "s32", "s16", "s8"])
        bits = int(size[1:])
        self.lines.append(f"r{register} = *({size} *)(r6 + {place})")
        self.has[register] = (signed(number, bits) if size[0] == "s" else number % 2**bits) % 2**64

    def operand(self, width: int, number: int) -> str:
        """A number as one that an instruction of this width can hold, or else in r5."""
        narrow = signed(number, 32)
        if (number - narrow) % 2**width == 0:
            return str(narrow)
        self.lines.append(f"r5 = {number} ll")
        return "rw"[width == 32] + "5"

    def change(self) -> None:
        """Arithmetic on one of the numbers."""
        chance, register, width = self.chance, self.chance.choice([2, 2, 2, 3, 4]), self.chance.choice([64, 64, 32])
        name, kind = f"{'rw'[width == 32]}{register}", self.chance.randrange(12)
        old = self.has[register]
        if kind == 0:
            self.lines.append(f"{name} = -{name}")
            self.has[register] = -old % 2**width
        elif kind == 1:
            bits = chance.choice([16, 32, 64])
            order = chance.choice(["be", "le", "bswap"])
            self.lines.append(f"r{register} = {order}{bits} r{register}")
            self.has[register] = byte_order("Little" if order == "le" else "Big", bits, old)
        elif kind == 2:
            bits = chance.choice([8, 16, 32] if width == 64 else [8, 16])
            self.lines.append(f"{name} = (s{bits}){name}")
            self.has[register] = signed(old, bits) % 2**width
        else:
            sign = chance.choice(["+=", "+=", "+=", "-=", "-=", "*=", *SIGNS])
            other = chance.choice([2, 3, 4])
            number, by = self.has[other], f"{name[0]}{other}"
            if chance.random() < 0.4:
                number = chance.choice([chance.randrange(1, 9), chance.randrange(64), some_number(chance), close_to(chance, -old)])
                number = number % width if sign[-3:-1] in ("<<", ">>") else number % 2**width or 1
                by = self.operand(width, number)
            self.lines.append(f"{name} {sign} {by}")
            self.has[register] = arithmetic(SIGNS[sign], width, old, number)

    def test(self, register: int | None = None, sign: str | None = None) -> None:
        """A test of a number, by one near it or by another; the witness goes on, and what does not goes out."""
        chance, register, width = self.chance, register or self.chance.choice([2, 2, 3, 4]), self.chance.choice([64, 64, 32])
        sign, name = sign or self.chance.choice(list(TESTS)), f"{'rw'[width == 32]}{register}"
        other = chance.choice([2, 3, 4])
        number, by = self.has[other], f"{name[0]}{other}"
        if chance.random() < 0.8:
            number = close_to(chance, self.has[register])
            by = self.operand(width, number)
        holds = condition(TESTS[sign], width, self.has[register], number)
        self.lines += [f"if {name} {sign} {by} goto +1", "goto out"] if holds else [f"if {name} {sign} {by} goto out"]

    def limits(self) -> None:
        """One or two tests that leave a number between two others."""
        register, signs = self.chance.choice([2, 2, 3]), self.chance.choice([[">", "<"], ["s>", "s<"], [">="], ["<"], ["s<="]])
        for sign in signs:
            self.test(register, sign)


def named(interface: int, queue: int, body: bytes) -> str:
    """The line that names a witness."""
    return f"# witness {interface} {queue} {body.hex()}"


def witness_of(lines: list[str]) -> tuple[tuple[int, int, int], bytes] | None:
    """The interface, the queue and the bytes of the witness that one of these lines names, if one does."""
    for line in lines:
        if line.startswith("# witness "):
            interface, queue, *body = line.split()[2:]
            return (0, int(interface), int(queue)), bytes.fromhex("".join(body))
    return None


def read_beyond(way: Way, register: int) -> tuple[list[str], list[str], int]:
    """The map lines and the instructions of an access that the number of this register moves one
    byte too far, and how long a packet that needs; or of one through the number itself."""
    number, chance = way.has[register], way.chance
    if not 1 <= number <= 256 or chance.random() < 0.4:
        way.test(register, chance.choice(["==", ">=", "<=", "s>=", "s<="]))
        return [], [f"r0 = *(u8 *)(r{register} + 0)"], HEAD
    size = chance.choice([name for name, most in SIZES.items() if most <= number])
    access = [f"r7 += r{register}", f"r0 = *({size} *)(r7 - {SIZES[size] - 1})".replace("- 0", "+ 0")]
    if number < HEAD or chance.random() < 0.5:
        return [f"map array 4 {number} 1"], ["r7 = map_val(map_by_idx(0)) + 0", *access], HEAD
    return [], ["r8 = r6", f"r8 += {number}", "if r8 > r7 goto out", "r7 = r6", *access], number


def witnesses(chance: random.Random) -> list[str]:
    """Numbers of the packet with limits, changed and tested, in all orders. The last test or move is wrong on the witness."""
    way, body = Way(chance), b""
    way.lines += ["r6 = *(u32 *)(r1 + 0)", "r7 = *(u32 *)(r1 + 4)", "r8 = r6", f"r8 += {HEAD}", "if r8 > r7 goto out"]
    for register in (2, 3, 4):
        number = some_number(chance)
        way.load(register, len(body), number)
        body += number.to_bytes(8, "little")
    steps: list[Callable[[], None]] = [way.change, way.change, way.test, way.limits]
    for _ in range(chance.randrange(1, 9)):
        chance.choice(steps)()
    maps, last, length = read_beyond(way, chance.choice([2, 2, 3, 4]))
    return program(maps, [named(0, 0, body.ljust(length, b"\0")), *way.lines, *last], {})


class Loops:
    """Blocks of a program that asks for bits of r9, the interface; labels and counters of its loops."""

    def __init__(self, chance: random.Random, interface: int) -> None:
        self.chance, self.interface, self.labels, self.counters = chance, interface, 0, ["r6", "r7", "r8"]

    def label(self) -> str:
        self.labels += 1
        return f"l{self.labels}"

    def filler(self, most: int) -> list[str]:
        return [
            self.chance.choice(["r3 = 0", "r3 ^= 1", "r0 = r9", "r4 = r9", "r4 &= 3", "r2 = 7"])
            for _ in range(self.chance.randrange(most + 1))
        ]

    def bit(self) -> tuple[int, bool]:
        """A mask of some bit, and whether the witness has it."""
        mask = 1 << self.chance.randrange(6)
        return mask, self.interface & mask != 0

    def fork(self, depth: int) -> list[str]:
        """Two ways by a bit, of which the witness mostly takes the longer one."""
        mask, has = self.bit()
        near, far = sorted((self.block(depth - 1), self.block(depth - 1)), key=len)
        if self.chance.random() < 0.2:
            near, far = far, near
        taken, other = (far, near) if has else (near, far)
        there, end = self.label(), self.label()
        return [f"if r9 & {mask} goto {there}", *other, f"goto {end}", f"{there}: r5 = 0", *taken, f"{end}: r5 = 0"]

    def only(self, mask: int, statement: str) -> list[str]:
        """A statement that is done where a bit is set."""
        there, end = self.label(), self.label()
        return [f"if r9 & {mask} goto {there}", f"goto {end}", f"{there}: {statement}", f"{end}: r5 = 0"]

    def slip(self, counter: str) -> list[str]:
        """What keeps a counter from its end where a bit is set, or always."""
        mask = self.bit()[0]
        return self.chance.choice(
            [
                self.only(mask, f"{counter} = 0"),
                self.only(mask, f"{counter} += -1"),
                self.only(mask, f"{counter} &= 1"),
                self.only(mask, f"{counter} = 1"),
                [f"{counter} &= {self.chance.choice([1, 3, 7])}"],
            ]
        )

    def loop(self, depth: int) -> list[str]:
        """A loop of some turns, whose counter may be wrong."""
        if not self.counters:
            return self.filler(3)
        counter, again = self.counters.pop(), self.label()
        body, count = self.block(depth - 1), self.chance.choice([2, 3, 4, 5, 8])
        slip = self.slip(counter) if self.chance.random() < 0.3 else []
        test = self.chance.choice(
            [
                f"if {counter} < {count} goto {again}",
                f"if {counter} != {count} goto {again}",
                f"if {counter} s< {count} goto {again}",
            ]
        )
        rare = [] if slip else [self.only(self.bit()[0], f"{counter} += 1")]
        step = self.chance.choice([[f"{counter} += 1"]] * 4 + rare)
        order = self.chance.choice([[*step, *body, *slip], [*body, *step, *slip], [*slip, *body, *step]])
        self.counters.append(counter)
        return [f"{counter} = 0", f"{again}: r5 = 0", *order, test]

    def while_some(self, _: int) -> list[str]:
        """A loop that goes on while a bit is set, of a number that is not changed, or is halved in each turn."""
        mask, again = self.bit()[0], self.label()
        halved = self.chance.random() < 0.7
        return [
            *(["r1 = r9", "r1 &= 63"] if halved else ["r1 = r9"]),
            f"{again}: r5 = 0",
            *self.filler(2),
            *(["r1 >>= 1"] if halved else []),
            f"if r1 & {mask} goto {again}",
        ]

    def block(self, depth: int) -> list[str]:
        """Some statements, loops and forks."""
        parts = [self.filler(4)]
        for _ in range(self.chance.choice([0, 1, 1, 2]) if depth else 0):
            parts.append(self.chance.choice([self.fork, self.fork, self.loop, self.loop, self.while_some, self.called])(depth))
        return sum(parts, []) + ["r5 = 0"]

    def called(self, _: int) -> list[str]:
        """A call of a function with a loop of its own."""
        return ["r1 = r9", "call turns", *(f"r{number} = 0" for number in range(1, 6))]


def loops(chance: random.Random) -> list[str]:
    """Loops in loops and forks of different lengths; some never end on the witness, and on the
    others it runs long."""
    interface = chance.choice([0, 63, 2**32 - 1, chance.randrange(64), chance.randrange(64)])
    made = Loops(chance, interface)
    lines = ["r9 = *(u32 *)(r1 + 12)", "r0 = 0", *(f"r{number} = 0" for number in range(2, 6))]
    turns = ["r0 = 0", "r1 &= 3", "turn: r0 += 1", "if r1 & 1 goto +1", "r0 += 0", f"if r0 < {chance.choice([2, 3, 4])} goto turn"]
    return program([], [named(interface, 0, b""), *lines, *made.block(3)], {"turns": turns})
