"""Programs that attack one rule of the verifier each, as texts, for attacks.py: each function of
FAMILIES makes one from a random generator, with the numbers that its frames should be near. They
are right except for a limit, a size or an offset that may be wrong by one, or of the wrong sign,
width or call frame."""
import random

# The alternatives are tables, with several in a line.
# fmt: off
# pylint: disable=line-too-long

SIZES = {"u8": 1, "u16": 2, "u32": 4, "u64": 8}
TESTS = ["==", "!=", ">", ">=", "<", "<=", "s>", "s>=", "s<", "s<=", "&"]
EDGES = [0, 1, 2**31 - 1, 2**31, 2**32 - 1, 2**32 - 64, 63, 64, 127, 128, 255, 256, 32767, 32768, 65535, 65536]
CORNERS = [0, 2**31 - 1, 2**31, 2**32 - 1]
NUMBERS = ["r2 = *(u32 *)(r1 + 12)", "r3 = *(u32 *)(r1 + 16)"]


def program(maps: list[str], lines: list[str], functions: dict[str, list[str]]) -> list[str]:
    """The lines with an end where `out` is, if one jumps there, and with those functions that are called."""
    lines = [*maps, *lines, "out: r0 = 2" if any("goto out" in line for line in lines) else "r0 = 2", "exit"]
    for _ in functions:
        for name, body in functions.items():
            if f"call {name}" in lines and f"{name}: {body[0]}" not in lines:
                lines += [f"{name}: {body[0]}", *body[1:], "exit"]
    return lines


def register(chance: random.Random, number: int) -> str:
    return f"{chance.choice('rrrw')}{number}"


def constant(chance: random.Random, around: list[int]) -> int:
    """A number that an instruction can hold, near one of these."""
    return max(-2**31, min(2**31 - 1, chance.choice(around) + chance.choice([0, 0, 0, -1, 1])))


def change(chance: random.Random) -> str:
    """Arithmetic on r2 that may wrap, cut or turn its sign."""
    target, kind = register(chance, 2), chance.randrange(8)
    if kind == 0:
        return f"r2 = (s{chance.choice([8, 16, 32])})r2"
    if kind == 1:
        return f"{target} = -{target}"
    if kind == 2:
        return f"r2 = {chance.choice(['be', 'le', 'bswap'])}{chance.choice([16, 32, 64])} r2"
    if kind == 3:
        shift = chance.choice([1, 2, 16, 24, 26, 30, 31] + ([32, 48, 58, 63] if target == "r2" else []))
        return f"{target} {chance.choice(['<<=', '>>=', 's>>='])} {shift}"
    if kind == 4:
        return f"{target} {chance.choice(['+=', '-=', '&=', '|=', '^=', '*='])} {target[0]}3"
    sign = chance.choice(["+=", "+=", "-=", "*=", "&=", "&=", "|=", "^=", "%=", "/=", "s%=", "s/="])
    return f"{target} {sign} {constant(chance, [1, 2, 7, 63, 64, 2**31 - 1, -2**31, -1, -64, 65536]) or 1}"


def limit(chance: random.Random, number: int=2) -> list[str]:
    """One or two tests that leave small numbers, if sign and width are right."""
    target, other = register(chance, number), register(chance, number)
    return chance.choice([
        [f"if {target} > {constant(chance, [63, 31])} goto out"],
        [f"if {target} >= {constant(chance, [64, 32])} goto out"],
        [f"if {target} s> {constant(chance, [63, 31])} goto out"],
        [f"if {target} s> {constant(chance, [63])} goto out", f"if {other} s< {constant(chance, [0])} goto out"],
        [f"if {target} s< {constant(chance, [0])} goto out", f"if {other} > {constant(chance, [63])} goto out"],
        [f"if {target} < {constant(chance, [64])} goto +1", "goto out"],
        [f"if {target} & {constant(chance, [-64, -32, 2**31 - 64])} goto out"],
        [f"{target} &= {constant(chance, [63, 31, 15])}"],
        [f"{target} %= {constant(chance, [64, 32])}"],
        [f"if {target} {chance.choice(TESTS)} {constant(chance, [63, 0, -1, -64])} goto out",
         f"{other} &= {constant(chance, [127, 63])}"],
    ])


def both_halves(chance: random.Random) -> list[str]:
    """Tests of the low half, and a limit of the whole number whose low half may be below all that the first one leaves."""
    whole = (chance.randrange(3) << 32) + chance.choice([0, 5, 63, 64])
    lines = [[f"if w2 < {constant(chance, [32, 16])} goto out", f"if w2 > {constant(chance, [63])} goto out"],
             [f"r7 = {whole} ll", f"if r2 {chance.choice(['>', '>='])} r7 goto out"]]
    return sum(chance.sample(lines, 2), [])


def sums(chance: random.Random) -> list[str]:
    """Sums that wrap, masks, signs mixed: a number reaches a value of 64 bytes, or 64 bytes of the stack."""
    lines = NUMBERS + chance.choice([[], ["r2 <<= 32", "r2 |= r3"], ["r3 <<= 32"], limit(chance, 3)])
    lines += chance.choice([[], ["if r2 s< 0 goto out"], ["if r2 s>= 0 goto out"], ["if w2 s< 0 goto out"]])
    lines += chance.choice([[], [f"r3 = {chance.choice([2**31, 2**62, 2**63 - 64, 2**63, 2**64 - 64])} ll"]])
    lines += [change(chance) for _ in range(chance.randrange(3))] + (both_halves(chance) if chance.random() < 0.2 else limit(chance))
    lines += [change(chance) for _ in range(chance.choice([0, 0, 0, 1]))]
    size = chance.choice(list(SIZES))
    place = chance.choice([0, 0, 0, 1, -1, 1 - SIZES[size]])
    lines += chance.choice([["r4 = map_val(map_by_idx(0)) + 0"], ["r4 = r10", "r4 += -64"]])
    lines += chance.choice([["r4 += r2"], ["r4 += r2"], ["r4 -= r2", "r4 += 63"], ["r4 += r2", "r4 += r3", "r4 -= r3"]])
    at = f"*({size} *)(r4 + {place})".replace("+ -", "- ")
    lines.append(chance.choice([f"r0 = {at}", f"{at} = r3"]))
    fill = [f"*(u64 *)(r10 - {at}) = 0" for at in range(8, 65, 8)]
    return program(["map array 4 64 1"], fill + lines, {})


def lengths(chance: random.Random) -> list[str]:
    """What a test of the packet proves of pointers that were moved or copied before or after it."""
    lines = ["r2 = *(u32 *)(r1 + 0)", "r3 = *(u32 *)(r1 + 4)", "r5 = *(u32 *)(r1 + 16)", "r4 = r2", "r8 = r2"]
    unknown = [f"r5 &= {constant(chance, [1, 7, 15, 255])}", f"r{chance.choice([2, 4, 4, 4, 8])} += r5"]
    lines += chance.choice([[], unknown, unknown + ["r8 = r4"]])
    size = chance.randrange(1, 24)
    lines += [f"r4 += {size}"] + chance.choice([[], [], [], ["r4 += r5"], ["r8 = r4"]])
    lines += chance.choice([
        ["if r4 > r3 goto out"], ["if r3 < r4 goto out"], ["if r4 >= r3 goto out"], ["if r3 <= r4 goto out"],
        ["if r4 <= r3 goto +1", "goto out"], ["if r3 >= r4 goto +1", "goto out"], ["if r4 < r3 goto +1", "goto out"],
    ])
    moves = [["r8 += 1"], ["r4 += -1"], ["r4 -= r5"], ["r8 += r5"], ["r5 &= 3", "r8 += r5"], ["r7 = r4", "r7 += -4", "r4 = r7"],
             ["*(u64 *)(r10 - 8) = r4", "r4 += 8", "r4 = *(u64 *)(r10 - 8)"], ["r8 = r4", "r8 += r5"], ["r8 = r2"]]
    lines += sum((chance.choice(moves) for _ in range(chance.choice([0, 0, 1, 1, 2]))), [])
    read = chance.choice(list(SIZES))
    base = chance.choice([2, 4, 4, 8])
    last = (-1 if base == 4 else size - 1) - SIZES[read] + 1 + chance.choice([0, 0, 0, 1, -1, -size])
    lines += [f"r0 = *({read} *)(r{base} + {last})".replace("+ -", "- ")]
    return program([], lines, {})


def pointer(chance: random.Random) -> list[str]:
    """Instructions that put some pointer into r6, of which a byte can be read."""
    return chance.choice([["r6 = r10", "r6 += -16"], ["r6 = map_val(map_by_idx(0)) + 8"], ["r6 = r1"], ["r6 = r10"],
                          ["r6 = *(u32 *)(r1 + 0)", "r2 = *(u32 *)(r1 + 4)", "r3 = r6", "r3 += 4", "if r3 > r2 goto out"]])


def spills(chance: random.Random) -> list[str]:
    """Pointers on the stack that are overwritten in part, by all kinds of stores, and loaded again."""
    lines = ["*(u64 *)(r10 - 16) = 5", "*(u64 *)(r10 - 24) = 5"] + pointer(chance) + ["*(u64 *)(r10 - 8) = r6"]
    size, place = chance.choice(list(SIZES)), chance.choice([-8, -8, -7, -4, -2, -1, -9, -12, -16])
    if place + SIZES[size] > 0:
        place = -SIZES[size]
    at = f"r10 - {-place}"
    lines += chance.choice([
        [], [f"*({size} *)({at}) = 7"], ["r2 = 7", f"*({size} *)({at}) = r2"], ["r2 = 1", f"lock *(u32 *)({at}) += r2"],
        ["r2 = r10", f"r2 += {place}", "r3 = 9", f"*({size} *)(r2 + 0) = r3"],
        ["r2 = *(u32 *)(r1 + 16)", "r2 &= 7", "r3 = r10", f"r3 += {place - 7}", "r3 += r2", "*(u8 *)(r3 + 0) = 1"],
        ["r1 = r10", f"r1 += {place}", "call write"], ["r2 = 0", "r2 = xchg_64(r10 - 8, r2)", "*(u64 *)(r10 - 16) = r2"],
    ])
    back, size = chance.choice(["u64", "u64", "u64", "u32"]), chance.choice(["u8", "u32"])
    lines.append(f"r7 = *({back} *)(r10 - {chance.choice([8, 8, 8, 16])})")
    read = f"r0 = *({size} *)(r7 - {chance.choice([0, 0, 1, 8])})"
    lines.append(chance.choice([read, read, "r0 = r7"]))
    return program(["map array 4 64 1"], lines, {"write": ["*(u8 *)(r1 + 0) = 3", "r0 = 0"]})


def freed(chance: random.Random) -> list[str]:
    """Pointers to values that are deleted, replaced or not found, kept in registers, on the stack
    and in other call frames."""
    key = chance.choice(["r2 = r10;  r2 += -4", "r2 = r10;  r2 += -8"])

    def find(of: int) -> list[str]:
        return [f"r1 = map_by_idx({of})", key, "call 1"]

    def put(of: int) -> list[str]:
        return [f"r1 = map_by_idx({of})", key, "r3 = r10", "r3 += -24", f"r4 = {chance.choice([0, 0, 1, 2])}", "call 2"]

    def delete(of: int) -> list[str]:
        return [f"r1 = map_by_idx({of})", key, "call 3"]

    maps = [0, 0, 0, 1, 2]
    own = chance.choice(maps)
    fill = ["*(u64 *)(r10 - 8) = 0", "*(u64 *)(r10 - 24) = 1", "*(u64 *)(r10 - 32) = 2", "*(u64 *)(r10 - 40) = 0"]
    first = put(own)
    lines = [*fill, *(first if chance.choice([True, False]) else []), *find(own)]
    found = ["if r0 == 0 goto out"]
    lines += chance.choice([found, found, ["if r0 != 0 goto +1", "goto out"], [], ["r9 = r0", "if r9 == 0 goto out"]])
    lines += chance.choice([["r7 = r0"], ["*(u64 *)(r10 - 40) = r0"], ["r7 = r0", "*(u64 *)(r10 - 40) = r0"]])
    between: list[list[str]] = [[], delete(chance.choice(maps)), put(chance.choice(maps)), find(own) + ["r7 = r0"], find(own), ["call remove"],
               find(chance.choice(maps)) + ["if r0 == 0 goto out"], find(2) + ["if r0 == 0 goto out"], ["call 5"]]
    for _ in range(chance.choice([1, 1, 2])):
        lines += chance.choice(between)
    lines += chance.choice([[], ["r7 = *(u64 *)(r10 - 40)"], ["r7 = r0"], ["r7 = r0", "if r7 == 0 goto out"]])
    size = chance.choice(list(SIZES))
    lines += [f"r0 = *({size} *)(r7 + {chance.choice([0, 8 - SIZES[size], 9 - SIZES[size]])})"]
    remove = ["*(u32 *)(r10 - 4) = 0", f"r1 = map_by_idx({chance.choice(maps)})", "r2 = r10", "r2 += -4", "call 3"]
    return program(["map hash 4 8 4", "map hash 4 8 4", "map array 4 8 2"], lines, {"remove": remove})


def stored_in(chance: random.Random) -> list[str]:
    """A pointer in a caller's call frame, which the function that is called overwrites, in part or
    beside it."""
    size = chance.choice(list(SIZES))
    place = chance.choice([0, 0, 0, 8, 8 - SIZES[size], -8])
    lines = ["*(u64 *)(r10 - 32) = 4", "*(u64 *)(r10 - 24) = 4", "*(u64 *)(r10 - 8) = r10", "*(u64 *)(r10 - 16) = r10", "r1 = r10",
             f"r1 += -{chance.choice([8, 16])}", "call store", f"r7 = *(u64 *)(r10 - {chance.choice([8, 16])})", "r0 = *(u64 *)(r7 - 32)"]
    return program([], lines, {"store": [f"*({size} *)(r1 + {place}) = 3".replace("+ -", "- "), "r0 = 0"]})


def frames(chance: random.Random) -> list[str]:
    """Pointers into call frames that have ended, or into a call frame of the same depth that came
    later, registers over calls, and stores in a caller's call frame."""
    keep = ["r6 = r10", "*(u64 *)(r10 - 8) = 4", "*(u64 *)(r10 - 16) = 4"]
    if chance.random() < 0.3:
        return stored_in(chance)
    give: list[list[str]] = [["r1 = r10", "r1 += -8"], ["r1 = r10", "r1 += -16"], ["r1 = r10", "r1 += -16"], ["r1 = r6"], []]
    lines = [*keep, *chance.choice(give), "call first"]
    again = ["r1 = r0", "call second"]
    stored = ["r7 = *(u64 *)(r10 - 8)", "r1 = r7", "call second"]
    lines += chance.choice([[], again, again, chance.choice(give) + ["call second"], stored])
    lines += chance.choice([
        ["r7 = r0"], ["r7 = *(u64 *)(r10 - 8)"], ["r7 = r6"], ["r7 = r6", "r7 += -8"], ["r7 = r9"],
    ])
    lines += chance.choice([[], [f"r0 = *(u64 *)(r7 - {chance.choice([0, 8, 8, 16])})"]])
    first = chance.choice([
        ["r0 = r10"], ["r0 = r10", "r0 += -8"], ["r0 = r10", "r0 += -8"], ["r0 = r1", "r0 += 8"], ["r0 = r1"],
        ["*(u64 *)(r10 - 8) = 3", "r0 = r10"], ["*(u64 *)(r1 + 0) = r10", "r0 = 0"], ["r0 = 3", "*(u64 *)(r1 + 0) = 3"],
        ["r2 = r10", "r2 += -8", "*(u64 *)(r2 + 0) = 6", "*(u64 *)(r1 + 0) = r2", "r0 = 1"],
        ["r9 = r10", "r0 = r1"], ["r6 = r1", "r0 = 0"], ["*(u64 *)(r10 - 8) = 1", "r1 = r10", "r1 += -8", "call second"],
    ])
    second = chance.choice([
        ["r0 = *(u64 *)(r1 + 0)"], ["*(u64 *)(r10 - 8) = 1", "r0 = *(u64 *)(r1 + 0)"], ["r0 = *(u64 *)(r1 - 8)"],
        ["*(u64 *)(r1 + 0) = 9", "r0 = 0"], ["r0 = *(u64 *)(r10 - 8)"], ["r0 = r1"],
        ["r0 = *(u64 *)(r1 + 0)", "r0 = *(u64 *)(r0 + 0)"], ["r0 = *(u8 *)(r6 + 0)"],
    ])
    return program([], lines, {"first": first, "second": second})


def answers(chance: random.Random) -> list[str]:
    """r0 of a program of version 2, whose low half is at most 4, or a little more, by a mask, a
    test, a shift or a sum."""
    lines = [*NUMBERS, f"r0 = {chance.choice(['r2', 'r3'])}"]
    for _ in range(chance.randrange(1, 4)):
        target = register(chance, 0)
        lines += chance.choice([
            [f"{target} &= {constant(chance, [3, 4, 7])}"], [f"{target} %= {constant(chance, [5])}"],
            [f"{target} >>= {constant(chance, [30])}"], ["r0 >>= 62"], [f"{target} += {constant(chance, [1, -1])}"],
            [f"{target} |= {chance.choice([1, 2, 4, 8])}"], ["r0 <<= 32", f"r0 |= {chance.randrange(6)}"],
            [f"if {target} > {constant(chance, [4, 5])} goto out"], [f"if {target} s> {constant(chance, [4])} goto out"],
            [f"if {target} >= {constant(chance, [5])} goto out"], [f"if {target} != {constant(chance, [3])} goto out"],
            [f"if {target} & {constant(chance, [-8, -4])} goto out"], ["w0 = w0"], ["r0 = (s32)r0"], ["r0 = be32 r0"],
            ["*(u64 *)(r10 - 8) = r0", "r0 = *(u64 *)(r10 - 8)"], ["*(u64 *)(r10 - 8) = r0", "r0 = *(u8 *)(r10 - 8)"],
        ])
    return [*lines, "exit", *(["out: r0 = 2", "exit"] if any("goto out" in line for line in lines) else [])]


def reached(chance: random.Random, lines: list[str], spare: int) -> list[str]:
    """Where r2 is at most `spare`, or a little more, it moves a pointer to bytes of which so many and one are spare, in the
    packet, in a value or on the stack."""
    size = chance.choice(list(SIZES))
    last = spare + SIZES[size] + chance.choice([0, 0, 0, 0, -1, 1])
    back = chance.choice([False, False, False, True])
    move = ["r6 += r2"] if not back else [f"r6 += {spare}", "r6 -= r2"]
    place = chance.choice([0, 0, 0, 0, -1, 1]) if back else chance.choice([0, 0, 0, 0, 0, -1])
    at = f"*({size} *)(r6 + {place})".replace("+ -", "- ")
    packet = ["r6 = *(u32 *)(r1 + 0)", "r3 = *(u32 *)(r1 + 4)", "r7 = r6", f"r7 += {last}", "if r7 > r3 goto out"]
    value = ["r6 = map_val(map_by_idx(0)) + 0"]
    base = chance.choice([packet, packet, value])
    maps = [f"map array 4 {-(-last // 8) * 8} 1"] if base is value else []
    order = [*base, *lines] if base is value or chance.random() < 0.7 else [*lines, *base]
    return program(maps, [*order, *move, chance.choice([f"r0 = {at}", f"{at} = r2"])], {})


def moves(chance: random.Random) -> list[str]:
    """Packet pointers moved by numbers on and back, with fixed moves and tests between: what is proved of the last one."""
    lines = ["r6 = *(u32 *)(r1 + 0)", "r3 = *(u32 *)(r1 + 4)", "r2 = *(u32 *)(r1 + 12)", "r5 = *(u32 *)(r1 + 16)"]
    near, far = chance.choice([(0, 3), (0, 7), (0, 15), (0, 31), (-4, 3), (-8, 7), (2, 9)])
    lines += [f"r5 &= {far - near}"] + [f"r5 += {near}"] * (near != 0)
    second = chance.choice([0, 3, 7])
    lines += [f"r2 &= {second}"]
    proved = chance.choice([8, 16, 24, 32, 40])

    def test(of: int, by: int) -> list[str]:
        return [f"r7 = r{of}", f"r7 += {by}", "if r7 > r3 goto out"]

    step = chance.choice([0, 1, 4, 8, -2])
    moved = chance.choice([["r6 += r5"], ["r6 += r5"], ["r6 -= r5"], ["r5 += r6", "r6 = r5"]])
    lines += chance.choice([test(6, proved), test(6, proved), [], test(6, proved) + ["*(u64 *)(r10 - 8) = r6"]])
    lines += [f"r6 += {step}"] * (step != 0) + moved
    lines += chance.choice([[], [], [f"r6 += {chance.choice([1, 4, -1, -4])}"], ["r6 += r2"], ["r6 -= r2"], ["r8 = r6", "r6 += r2"]])
    lines += chance.choice([[], [], test(6, chance.choice([1, 4, 8])), ["if r6 > r3 goto out"], ["if r6 >= r3 goto out"]])
    size = chance.choice(list(SIZES))
    grown = far if moved == ["r6 += r5"] else -near
    place = chance.choice([proved - grown - step - SIZES[size], proved - grown - step - second - SIZES[size], -near - step, far - step,
                           -SIZES[size], -step, 0]) + chance.choice([0, 0, 0, 1, -1])
    return program([], [*lines, f"r0 = *({size} *)(r6 + {max(-64, min(64, place))})".replace("+ -", "- ")], {})


def reversals(chance: random.Random) -> list[str]:
    """Known bits whose bytes are reversed, at each size, from both sides."""
    size = chance.choice([16, 32, 64])
    byte = chance.randrange(size // 8)
    wide = chance.choice([size // 8, size // 8, 8])
    mask = chance.choice([7, 15, 31]) << 8 * chance.choice([byte, size // 8 - 1, size // 8 - 1, 0])
    lines = NUMBERS + chance.choice([["r2 <<= 32", "r2 |= r3"], [], []]) + [f"r4 = {mask} ll", "r2 &= r4"]
    lines += chance.choice([[], [], ["r2 |= 1"], [f"r5 = {1 << chance.randrange(64)} ll", "r2 |= r5"]])
    lines += [f"r2 = {chance.choice(['be', 'bswap', 'be', 'le'])}{chance.choice([size, size, size, 8 * wide])} r2"]
    lines += chance.choice([[], [], [f"r2 >>= {chance.choice([1, 8, size - 8])}"], [f"r2 = be{size} r2"] * 2])
    return reached(chance, lines, chance.choice([7, 15, 31, 32]))


def parts(chance: random.Random) -> list[str]:
    """Numbers with limits, spilled; of a part of them, whatever is stored between, a limit is kept or not."""
    limits = [[f"r2 &= {constant(chance, [31, 7, 0x1f00, 0x1f0000])}"], limit(chance), limit(chance), ["r2 &= 31", "r2 <<= 32"],
              ["r2 &= 15", f"r2 <<= {chance.choice([8, 16, 24, 40, 56])}"], ["r2 = (s8)r2"]]
    lines = NUMBERS + chance.choice([["r2 <<= 32", "r2 |= r3"], []]) + chance.choice(limits)
    lines += ["*(u64 *)(r10 - 8) = r2"]
    size = chance.choice(list(SIZES))
    at = chance.choice(range(-8, 0, SIZES[size]))
    other = chance.choice(["u8", "u16", "u32"])
    over = chance.choice(range(-8, 0, SIZES[other]))
    store = f"*({other} *)(r10 - {-over}) = r3"
    lines += chance.choice([[], [], [], [store], ["r3 &= 15", store], ["r4 = 1", "lock *(u64 *)(r10 - 8) += r4"]])
    lines += [f"r2 = *({size} *)(r10 - {-at})"]
    if size != "u64":
        lines += chance.choice([[], [], [f"r2 = *(s{size[1:]} *)(r10 - {-at})"]])
    lines += chance.choice([[], [], ["r2 >>= 8"], ["r2 += -20"], limit(chance)])
    return reached(chance, lines, chance.choice([7, 15, 31, 63]))


def divisions(chance: random.Random) -> list[str]:
    """Signed quotients and remainders by numbers near 0 and near the ends, at both widths."""
    starts: list[list[str]] = [
              [], ["r2 <<= 32", "r2 |= r3"], ["r2 = (s32)r2"], ["r2 = (s8)r2"], ["r2 &= 255"], ["r2 &= 255", "r2 = -r2"],
              ["r2 = (s8)r2", "if r2 s> 20 goto out"], ["r2 = (s16)r2", "if r2 s< -64 goto out"], [f"r2 = {-2**63} ll", "r2 += r3"]]
    lines = NUMBERS + chance.choice(starts) + chance.choice([[], [], limit(chance)])
    target = register(chance, 2)
    by = constant(chance, [8, 16, 32, -8, -16, -32, 1, -1, -2**31, 2**31 - 1])
    known = [f"{target} {chance.choice(['s/=', 's%='])} {by or 1}"]
    held = [f"r5 = {chance.choice([by, 0, -1, 1 << 31, 2**32 - 1, -2**63])} ll", f"{target} {chance.choice(['s/=', 's%='])} {target[0]}5"]
    some = ["r5 = r3", f"r5 &= {chance.choice([7, 15])}", f"{target} {chance.choice(['s/=', 's%='])} {target[0]}5"]
    lines += chance.choice([known, known, known, held, some])
    lines += chance.choice([[], [], [f"r2 += {constant(chance, [15, 16, 31, 7])}"], [f"w2 += {constant(chance, [15, 31])}"], ["r2 = -r2"]])
    return reached(chance, lines, chance.choice([7, 15, 30, 31, 32, 63]))


def stored(chance: random.Random, at: int) -> list[str]:
    """Stores that write all eight bytes of a stack slot, at once or in parts."""
    source = chance.choice(["r2", "r3", "r5", "7", "-1"])
    size = chance.choice(["u64", "u64", "u64", "u32", "u16", "u8"])
    return [f"*({size} *)(r10 - {at - part}) = {source}" for part in range(0, 8, SIZES[size])]


def loaded(chance: random.Random, at: int) -> list[str]:
    """Loads from a stack slot, through r10, another pointer, a function or a helper."""
    size = chance.choice(list(SIZES))
    place = at - SIZES[size] * chance.randrange(8 // SIZES[size])
    through = [f"r4 = *({size} *)(r10 - {place})"]
    pointer_to = ["r8 = r10", f"r8 += -{at}", f"r4 = *({size} *)(r8 + {at - place})"]
    function = ["*(u64 *)(r10 - 80) = r2", "*(u64 *)(r10 - 88) = r3", "r1 = r10", f"r1 += -{at}", "call leaf", "r4 = r0",
                "r2 = *(u64 *)(r10 - 80)", "r3 = *(u64 *)(r10 - 88)", "r5 = r9"]
    helper = ["*(u64 *)(r10 - 80) = r2", "*(u64 *)(r10 - 88) = r3", "r1 = map_by_idx(0)", "r2 = r10", f"r2 += -{at}", "call 1", "r4 = 0",
              "r2 = *(u64 *)(r10 - 80)", "r3 = *(u64 *)(r10 - 88)", "r5 = r9"]
    return [*chance.choice([through, through, through, through, pointer_to, function, helper]), "r5 ^= r4", "r9 = r5"]


def slots(chance: random.Random) -> list[str]:
    """Stack slots that are written, kept over joins, loops and calls, and read again, all of them after they were written,
    as all registers are: so none of these programs may be refused."""
    places = chance.sample(range(8, 73, 8), chance.choice([2, 3, 4]))
    lines, joins = [*NUMBERS, "r5 = 0", "r9 = 0"], 0
    for at in places:
        lines += stored(chance, at)
    loop = chance.random() < 0.4
    lines += ["r7 = 0", "again: r7 += 1"] if loop else []
    for _ in range(chance.choice([1, 2, 3])):
        joins += 1
        lines.append(f"if r{chance.choice([2, 3])} & {1 << chance.randrange(4)} goto join{joins}")
        at = chance.choice(places)
        lines += chance.choice([stored(chance, at), stored(chance, at)[:1], loaded(chance, at), [], loaded(chance, at) + stored(chance, at)])
        lines.append(f"join{joins}: r4 = {joins}")
        lines += sum((loaded(chance, chance.choice(places)) for _ in range(chance.choice([0, 0, 1, 2]))), [])
    lines += [f"if r7 < {chance.choice([2, 3, 5])} goto again"] if loop else []
    lines += loaded(chance, chance.choice(places))
    return program(["map hash 8 8 4"], lines, {"leaf": ["r0 = *(u64 *)(r1 + 0)", "*(u64 *)(r10 - 8) = r0", "r0 = *(u32 *)(r10 - 8)"]})


def copy_of(chance: random.Random, number: int, by: int) -> list[str]:
    """A copy of r6 that is `by` bytes further on, in one move, in two, by a known number, or over the stack."""
    r, way = f"r{number}", chance.randrange(6)
    if way == 0:
        return [f"{r} = {by}", f"{r} += r6"]
    if way == 1:
        return [f"r4 = {by}", f"{r} = r6", f"{r} += r4"]
    if way == 2:
        return [f"{r} = r6", f"{r} -= {-by}"]
    if way == 3:
        return [f"{r} = r6", f"{r} += {by + 9}", f"{r} += -9"]
    over = ["*(u64 *)(r10 - 8) = " + r, f"{r} = *(u64 *)(r10 - 8)"]
    return [f"{r} = r6", f"{r} += {by}", *(over if chance.choice([True, False]) else [])]


def fixed(chance: random.Random) -> list[str]:
    """Copies of a packet pointer that differ by their fixed parts: a test of one proves bytes of the others, less or more.
    Some have another variable part, of which such a test shows nothing."""
    lines = ["r6 = *(u32 *)(r1 + 0)", "r3 = *(u32 *)(r1 + 4)", "r5 = *(u32 *)(r1 + 16)", "r2 = *(u32 *)(r1 + 12)"]
    mask = chance.choice([1, 7, 31, 255])
    by_some = [f"r5 &= {mask}", "r6 += r5"]
    lines += chance.choice([[], by_some, by_some, by_some + ["r2 &= 7", "r6 += r2"]])
    parts = {6: 0}
    for number in (7, 8):
        parts[number] = chance.choice([0, 1, 2, 4, 8, 8, 12, 16, 24, 64, -1, -4, -8, 300, 4096, 9216, 65535])
        lines += copy_of(chance, number, parts[number])
    other = chance.choice([6, 7, 8])
    lines += chance.choice([[], [], [], [f"r{other} += r5", f"r{other} -= r5"], ["r4 = r5", "r4 &= 3", f"r{other} += r4"],
                            ["if r2 & 1 goto +1", f"r{other} += 1"]])
    tested = chance.choice([6, 7, 7, 8, 8])
    t = f"r{tested}"
    lines += chance.choice([
        [f"if {t} > r3 goto out"], [f"if r3 < {t} goto out"], [f"if {t} >= r3 goto out"], [f"if r3 <= {t} goto out"],
        [f"if {t} <= r3 goto +1", "goto out"], [f"if r3 >= {t} goto +1", "goto out"], [f"if {t} < r3 goto +1", "goto out"],
    ])
    base = chance.choice([6, 7, 8])
    later = chance.choice([0, 0, 0, 1, -4, 8])
    lines += [f"r{base} += {later}"] * (later != 0)
    size = chance.choice(list(SIZES))
    last = parts[tested] - parts[base] - later - SIZES[size]
    place = chance.choice([last, last, last, -parts[base] - later]) + chance.choice([0, 0, 0, 1, 1, -1])
    at = f"*({size} *)(r{base} + {max(-2**15, min(2**15 - 1, place))})".replace("+ -", "- ")
    return program([], [*lines, chance.choice([f"r0 = {at}", f"{at} = r2"])], {})


def held(chance: random.Random, kind: str) -> list[str]:
    """Instructions that put what is of this kind into r0; r3 is the packet's end, r6 is 8 proved bytes of it, and the key at
    -96 was written."""
    key = ["r2 = r10", "r2 += -96", "r1 = map_by_idx(0)", "call 1"]
    return {
        "small": [chance.choice(["r0 = 5", "r0 = r9", "r0 = 0"])], "any": ["r0 = r8"], "stack": ["r0 = r10", "r0 += -96"],
        "lower": ["r0 = r10", f"r0 += {chance.choice([-104, -97, -100])}"], "value": ["r0 = map_val(map_by_idx(1)) + 0"],
        "inside": [f"r0 = map_val(map_by_idx(1)) + {chance.choice([8, 56, 60])}"], "packet": ["r0 = r6"],
        "further": ["r0 = r6", f"r0 += {chance.choice([1, 4])}"], "found": key, "context": ["r0 = r7"], "map": ["r0 = map_by_idx(0)"],
    }[kind]


def used(chance: random.Random, kind: str) -> list[str]:
    """Instructions that use r4 as what is of this kind may be used, or a little more."""
    size, near = chance.choice(list(SIZES)), chance.choice([0, 0, 0, 1])

    def at(place: int) -> str:
        return f"*({size} *)(r4 + {place})".replace("+ -", "- ")

    if kind == "small":
        return ["r5 = r10", f"r5 += -{104 + near + SIZES[size] - 1}", "r5 += r4", f"r0 = *({size} *)(r5 + 0)"]
    if kind == "found":
        return ["if r4 == 0 goto out", f"r0 = {at(8 - SIZES[size] + near)}"]
    if kind in ("stack", "value", "packet"):
        return [f"r0 = {at({'stack': 8, 'value': 64, 'packet': 8}[kind] - SIZES[size] + near)}"]
    return {"lower": [f"r0 = {at(0)}"], "inside": [f"r0 = {at(0)}"], "further": [f"r0 = {at(0)}"], "any": ["r0 = r4"],
            "context": ["r0 = *(u32 *)(r4 + 12)"], "map": ["r1 = r4", "r2 = r10", "r2 += -96", "call 3"]}[kind]


KINDS = ["small", "any", "stack", "lower", "value", "inside", "packet", "further", "found", "context", "map"]
NEAR = {"small": ["any", "stack"], "stack": ["lower", "value"], "value": ["inside", "stack", "found"], "packet": ["further", "any"],
        "found": ["small", "value"], "context": ["stack"], "map": ["value"], "any": ["small"]}


def kinds(chance: random.Random) -> list[str]:
    """Places that hold one kind of value on one path and perhaps another on the next, in this or in
    an outer function, which meet where the second path comes to a state that was stored; then they
    are used as the first."""
    lines = ["r7 = r1", "r6 = *(u32 *)(r7 + 0)", "r3 = *(u32 *)(r7 + 4)", "r8 = *(u32 *)(r7 + 12)", "r9 = r8", "r9 &= 7", "r4 = r6", "r4 += 8",
             "if r4 > r3 goto out"] + [f"*(u64 *)(r10 - {at}) = 0" for at in (88, 96, 104)]
    places = chance.sample(["r10 - 8", "r10 - 16", "r10 - 24"], chance.choice([1, 2]))
    for place in places:
        kind = chance.choice(["small", "small", "stack", "value", "packet", "found", "context", "map", "any"])
        second = chance.choice([kind, kind, chance.choice(NEAR[kind]), chance.choice(NEAR[kind]), chance.choice(KINDS)])
        first, other = (held(chance, one) + [f"*(u64 *)({place}) = r0"] for one in (kind, second))
        ways = chance.choice([(first, other), (first, other), (other, first)])
        bit = 1 << chance.randrange(8, 12)
        lines += [f"if r8 & {bit} goto +{len(ways[0]) + 1 + sum('map_' in line and '=' in line for line in ways[0])}", *ways[0],
                  f"goto +{len(ways[1]) + sum('map_' in line and '=' in line for line in ways[1])}", *ways[1], "r0 = 0"]
        last = kind, place
    lines += chance.choice([[], [], ["r1 = r8", "call leaf"], ["if r8 & 4096 goto +1", "r8 += 1"], ["r0 = 0", "r0 += 1", "if r0 < 3 goto -2"]])
    lines += [f"r4 = *(u64 *)({last[1]})", *used(chance, last[0])]
    return program(["map hash 8 8 4", "map array 4 64 1"], lines, {"leaf": ["r0 = 1", "if r1 & 1 goto +1", "r0 = 2"]})


FAMILIES = {"sums": sums, "lengths": lengths, "moves": moves, "fixed": fixed, "reversals": reversals, "parts": parts,
            "divisions": divisions, "spills": spills, "slots": slots, "kinds": kinds, "freed": freed, "frames": frames, "answers": answers}
# What programs of a family may not be refused for: those of `slots` for nothing, since all that they read was set.
NEVER = {"slots": [f"V{number}" for number in range(1, 22)]}
