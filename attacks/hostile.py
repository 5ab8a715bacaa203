#!/usr/bin/env python3
"""Runs `verify` on images that are made to keep it busy or to take much memory.

usage: python3 attacks/hostile.py [PROGRAM [--few] [FAMILY ..]]

PROGRAM is an optimized xdpvm (the default: crates/xdpvm/out/xdpvm). Each family is a few images up to the limits of an
image: 4,096 slots, 8 call frames, 64 stack slots in each call frame, 16 maps. For each image it
prints the processor seconds and the peak megabytes of `verify`, which searches a second time if it
refuses for another reason than V19, and its verdict. A run that takes longer than LIMIT seconds (the default: 60) or more than
ROOM megabytes (4000) is ended. The exit status is 1 if an image took over 10 seconds or 300
megabytes. With --few, as in the gate, only those images are made that take the most time or memory
of their kinds, and each may take 30 seconds, since a machine may be slow or busy.
"""
import os
import resource
import subprocess
import sys
import tempfile
from collections.abc import Callable, Iterable, Iterator, Sequence

sys.path.insert(0, os.path.join(os.path.dirname(os.path.abspath(__file__)), "../checks"))
import common

Image = tuple[str, list[str]]  # a name, and the lines of a text
PROGRAM = common.program()
FEW = "--few" in sys.argv
CHOSEN = [it for it in sys.argv[2:] if it != "--few"]
LIMIT = int(os.environ.get("LIMIT", "60"))
ROOM = int(os.environ.get("ROOM", "4000"))
SECONDS, MEGABYTES = 30 if FEW else 10, 300
# The images of --few: comparisons of places, words that stored states take, limits of numbers, pending states.
MOST = (
    "a loop of branches below 8 frames of 58 null results",
    "18 look-ups kept on the stack",
    "signed limits of two numbers",
    "3,000 tests whether two of 8 numbers with other known bits are one",
)


# ---- pieces of programs


def unknown(register: str) -> list[str]:
    """A number of 32 bits of which nothing is known; r9 is the context."""
    return [f"{register} = *(u32 *)(r9 + 12)"]


def spilled(count: int, first: int = 8) -> list[str]:
    """Unknown numbers of 32 bits in slots of the stack, with r3 for each."""
    return [line for slot in range(count) for line in unknown("r3") + [f"*(u64 *)(r10 - {first + 8 * slot}) = r3"]]


def diamonds(count: int, then: Callable[[int], list[str]], number: str = "r2") -> list[str]:
    """Branches on the bits of an unknown number, each of which may do what `then` says of the bit."""
    lines = []
    for bit in range(count):
        body = then(bit)
        lines += [f"if {number} & {1 << bit} goto +{len(body)}"] + body
    return lines


def below_frames(depth: int, spills: int, body: list[str], read: bool) -> list[str]:
    """The body in the innermost one of this many call frames, each of which has unknown numbers on
    its stack, and may read them after its call. The context is passed in r1."""
    lines = []
    after = [f"r3 = *(u64 *)(r10 - {8 + 8 * slot})" for slot in range(spills)] if read else []
    for level in range(depth - 1):
        lines += [f"f{level}: r9 = r1"] + spilled(spills) + ["r1 = r9", f"call f{level + 1}"] + after + ["exit"]
    return lines + [f"f{depth - 1}: r9 = r1"] + spilled(spills) + body


def counted(turns: int, body: list[str], counter: str = "r7") -> list[str]:
    """The body again and again."""
    return [f"{counter} = 0", "loop:"] + body + [f"{counter} += 1", f"if {counter} < {turns} goto loop"]


def setting(bit: int) -> list[str]:
    return [f"r8 |= {1 << bit}"]


def adding(bit: int) -> list[str]:
    return [f"r8 += {1 << bit}"]


START = ["r9 = r1"]
END = ["r0 = 2", "exit"]


def growing(step: list[str], test: list[str], extra: Sequence[str] = ()) -> list[str]:
    """A loop whose states differ only in limits: it is not explored to its end within the limit."""
    return (
        START
        + unknown("r8")
        + ["r4 = 0"]
        + list(extra)
        + ["loop: r5 = *(u32 *)(r9 + 16)", "if r5 & 1 goto +1", "r8 += 1"]
        + step
        + test
        + END
    )


# ---- families


def bits() -> Iterator[Image]:
    yield "18 bits of a number", START + unknown("r2") + unknown("r8") + diamonds(18, setting) + END
    yield "31 bits of a number", START + unknown("r2") + unknown("r8") + diamonds(31, setting) + END
    yield "18 bits that become unknown", (
        START + unknown("r2") + ["r8 = 0"] + diamonds(18, lambda bit: unknown("r3") + [f"r3 &= {1 << bit}", "r8 |= r3"]) + END
    )
    yield "31 bits that become unknown", (
        START + unknown("r2") + ["r8 = 0"] + diamonds(31, lambda bit: unknown("r3") + [f"r3 &= {1 << bit}", "r8 |= r3"]) + END
    )
    yield "9 bits in two numbers", (
        START + unknown("r2") + unknown("r8") + unknown("r7") + diamonds(18, lambda bit: [f"r{7 + bit % 2} |= {1 << bit}"]) + END
    )
    yield "18 bits, spilled below 60 slots", (START + spilled(60) + unknown("r2") + unknown("r8") + diamonds(18, setting) + END)


def limits() -> Iterator[Image]:
    big = ["r8 += 10000000", "r7 = 0x400000000 ll"]
    yield "unsigned limits", growing(big, ["if r8 < r7 goto loop"])
    yield "unsigned limits of two numbers", growing(
        ["r6 = r8", "r6 += 5", "r4 += r5", "r8 += 10000000", "r7 = 0x400000000 ll"], ["if r8 < r7 goto loop"]
    )
    yield "18 numbers within limits", (
        START + unknown("r2") + unknown("r8") + diamonds(18, lambda bit: ["r8 += 3", f"r8 += {5 ** (bit % 11)}"]) + END
    )
    yield "unsigned limits below 60 slots", START + spilled(60) + growing(big, ["if r8 < r7 goto loop"])[1:]
    yield "limits that shrink", (
        START
        + unknown("r2")
        + unknown("r8")
        + diamonds(18, lambda bit: [f"if r8 < {3 ** (bit % 20)} goto +1", f"r8 -= {bit}"])
        + END
    )


def signed_limits() -> Iterator[Image]:
    yield "signed limits", (START + ["r8 = 0", "loop: r5 = *(u32 *)(r9 + 12)", "r8 -= r5", "r8 += 1", "if r8 != 8 goto loop"] + END)
    yield "signed limits of two numbers", (
        START
        + [
            "r8 = 0",
            "r6 = 0",
            "loop: r5 = *(u32 *)(r9 + 12)",
            "if r5 & 1 goto +1",
            "r6 -= r5",
            "r8 -= r5",
            "r8 += 1",
            "if r8 != 8 goto loop",
        ]
        + END
    )
    yield "18 signed numbers", (START + unknown("r2") + unknown("r8") + diamonds(18, lambda bit: [f"r8 -= {1 << bit}"]) + END)
    yield "signed limits below 60 slots", (
        START + spilled(60) + ["r8 = 0", "loop: r5 = *(u32 *)(r9 + 12)", "r8 -= r5", "r8 += 1", "if r8 != 8 goto loop"] + END
    )


def low_halves() -> Iterator[Image]:
    yield "18 low halves", (
        START + unknown("r2") + unknown("r8") + ["r8 <<= 8"] + diamonds(18, lambda bit: [f"w8 += {1 << bit}"]) + END
    )
    yield "signed low halves in a loop", (
        START
        + [
            "w8 = 0",
            "loop: w5 = *(u32 *)(r9 + 12)".replace("w5", "r5"),
            "w8 -= w5",
            "if w5 & 1 goto +1",
            "w8 += 7",
            "if w8 s< 100000000 goto loop",
        ]
        + END
    )
    yield "low halves that a test narrows", (
        START
        + unknown("r2")
        + unknown("r8")
        + diamonds(18, lambda bit: [f"if w8 s> {(1 << 30) - 7 ** (bit % 10)} goto +1", "w8 += 3"])
        + END
    )


def stack_slots() -> Iterator[Image]:
    """Slots of the stack that differ from path to path, or are beside what does."""
    for spills in (8, 60):
        yield f"18 additions below {spills} slots", (
            START + spilled(spills) + unknown("r2") + unknown("r8") + diamonds(18, adding) + END
        )
    yield "18 additions of known numbers below 60 slots", (
        START + spilled(60) + unknown("r2") + ["r8 = 0"] + diamonds(18, adding) + END
    )
    yield "18 slots that may be another number", (
        START + spilled(60) + unknown("r2") + diamonds(18, lambda bit: [f"*(u64 *)(r10 - {8 * bit + 8}) = {bit}"]) + END
    )
    yield "60 slots that may be another number", (
        START
        + spilled(60)
        + unknown("r2")
        + [line for bit in range(60) for line in unknown("r2") + ["if r2 & 4 goto +1", f"*(u64 *)(r10 - {8 * bit + 8}) = {bit}"]]
        + END
    )
    yield "loop of 300,000 turns below 60 slots", START + spilled(60) + counted(300000, []) + END
    yield "loop of 300,000 turns with an exit, below 60 slots", (
        START + spilled(60) + unknown("r2") + counted(300000, ["if r2 == r7 goto out"]) + ["out: r0 = 2", "exit"]
    )
    yield "60 slots written in turn", (
        START
        + spilled(60)
        + unknown("r2")
        + counted(4000, [f"*(u64 *)(r10 - {8 * slot + 8}) = r7" for slot in range(60)] + ["if r2 == r7 goto out"])
        + ["out: r0 = 2", "exit"]
    )


def frames() -> Iterator[Image]:
    for read, suffix in ((False, ""), (True, " that are read after the calls")):
        yield f"18 additions below 8 frames of 60 slots{suffix}", (
            ["goto f0"] + below_frames(8, 60, unknown("r2") + unknown("r8") + diamonds(18, adding) + END, read)
        )
        yield f"18 bits below 8 frames of 60 slots{suffix}", (
            ["goto f0"] + below_frames(8, 60, unknown("r2") + unknown("r8") + diamonds(18, setting) + END, read)
        )
        yield f"loop of 300,000 turns below 8 frames of 60 slots{suffix}", (
            ["goto f0"]
            + below_frames(8, 60, unknown("r2") + counted(300000, ["if r2 == r7 goto out"]) + ["out: r0 = 2", "exit"], read)
        )
    yield "18 additions in the outermost of 8 frames", (
        START
        + spilled(60)
        + unknown("r2")
        + unknown("r8")
        + diamonds(18, adding)
        + ["r1 = r9", "call g0"]
        + END
        + [line for level in range(6) for line in [f"g{level}: r9 = r1"] + spilled(60) + ["r1 = r9", f"call g{level + 1}", "exit"]]
        + ["g6: r0 = 0", "r2 = *(u32 *)(r1 + 12)", "if r2 & 1 goto +1", "r0 = 1", "exit"]
    )


PACKET = START + ["r6 = *(u32 *)(r9 + 0)", "r7 = *(u32 *)(r9 + 4)"]


def identities() -> Iterator[Image]:
    """Packet pointers that are moved, kept and tested."""
    yield "18 moves of a packet pointer by a number", (
        PACKET + unknown("r2") + diamonds(18, lambda bit: unknown("r3") + [f"r3 &= {(2 << bit % 10) - 1}", "r6 += r3"]) + END
    )
    yield "18 packet pointers on the stack", (
        PACKET
        + unknown("r2")
        + diamonds(18, lambda bit: unknown("r3") + ["r3 &= 255", "r4 = r6", "r4 += r3", f"*(u64 *)(r10 - {8 * bit + 8}) = r4"])
        + END
    )
    yield "18 tests of a packet pointer with 60 copies", (
        PACKET
        + unknown("r2")
        + unknown("r3")
        + ["r3 &= 255", "r6 += r3"]
        + [line for slot in range(60) for line in ["r4 = r6", f"r4 += {slot}", f"*(u64 *)(r10 - {8 * slot + 8}) = r4"]]
        + diamonds(18, lambda bit: ["r4 = r6", f"r4 += {bit + 1}", "if r4 > r7 goto +1", f"r2 ^= {1 << bit}"])
        + END
    )
    yield "a loop that moves and tests a packet pointer with 60 copies", (
        PACKET
        + ["r8 = 0", "loop: r4 = r6", "r3 = *(u32 *)(r9 + 12)", "r3 &= 255", "r4 += r3"]
        + [line for slot in range(60) for line in [f"*(u64 *)(r10 - {8 * slot + 8}) = r4"]]
        + ["r5 = r4", "r5 += 40", "if r5 > r7 goto out", "r8 += 1", "if r8 < 30000 goto loop", "out: r0 = 2", "exit"]
    )
    yield "which of 18 packet pointers is which", (
        PACKET
        + unknown("r2")
        + [
            line
            for slot in range(18)
            for line in unknown("r3") + ["r3 &= 255", "r4 = r6", "r4 += r3", f"*(u64 *)(r10 - {8 * slot + 8}) = r4"]
        ]
        + diamonds(17, lambda bit: [f"r4 = *(u64 *)(r10 - {8 * bit + 8})", f"*(u64 *)(r10 - {8 * bit + 16}) = r4"])
        + END
    )
    yield "the order of 60 packet pointers, which a loop changes", (
        PACKET
        + [
            line
            for slot in range(60)
            for line in unknown("r3") + ["r3 &= 255", "r4 = r6", "r4 += r3", f"*(u64 *)(r10 - {8 * slot + 8}) = r4"]
        ]
        + ["loop: r2 = *(u32 *)(r9 + 12)"]
        + [
            line
            for slot in range(59)
            for line in [
                f"if r2 & {1 << slot % 31} goto +4",
                f"r4 = *(u64 *)(r10 - {8 * slot + 8})",
                f"r5 = *(u64 *)(r10 - {8 * slot + 16})",
                f"*(u64 *)(r10 - {8 * slot + 8}) = r5",
                f"*(u64 *)(r10 - {8 * slot + 16}) = r4",
            ]
        ]
        + ["if r2 != 0 goto loop"]
        + END
    )


LOOK_UP = ["*(u32 *)(r10 - 4) = 0", "r1 = map_by_idx(0)", "r2 = r10", "r2 += -4", "call 1"]


def null_identities() -> Iterator[Image]:
    """Look-ups whose answers are kept and tested."""
    yield "18 look-ups kept on the stack", (
        ["map hash 4 8 16"]
        + START
        + ["r6 = *(u32 *)(r9 + 12)"]
        + [
            line
            for bit in range(18)
            for line in LOOK_UP
            + [f"*(u64 *)(r10 - {8 * bit + 16}) = r0", f"if r6 & {1 << bit} goto +1", f"*(u64 *)(r10 - {8 * bit + 16}) = 0"]
        ]
        + END
    )
    yield "which of 40 look-ups is which", (
        ["map hash 4 8 16"]
        + START
        + [line for bit in range(40) for line in LOOK_UP + [f"*(u64 *)(r10 - {8 * bit + 16}) = r0"]]
        + unknown("r6")
        + diamonds(31, lambda bit: [f"r4 = *(u64 *)(r10 - {8 * bit + 16})", f"*(u64 *)(r10 - {8 * bit + 24}) = r4"], "r6")
        + END
    )
    yield "the order of 40 look-ups, which a loop changes", (
        ["map hash 4 8 16"]
        + START
        + [line for bit in range(40) for line in LOOK_UP + [f"*(u64 *)(r10 - {8 * bit + 16}) = r0"]]
        + ["loop: r2 = *(u32 *)(r9 + 12)"]
        + [
            line
            for slot in range(39)
            for line in [
                f"if r2 & {1 << slot % 31} goto +4",
                f"r4 = *(u64 *)(r10 - {8 * slot + 16})",
                f"r5 = *(u64 *)(r10 - {8 * slot + 24})",
                f"*(u64 *)(r10 - {8 * slot + 16}) = r5",
                f"*(u64 *)(r10 - {8 * slot + 24}) = r4",
            ]
        ]
        + ["if r2 != 0 goto loop"]
        + END
    )
    yield "map values at 18 places", (
        ["map array 4 4096 1"]
        + START
        + unknown("r2")
        + ["r8 = map_val(map_by_idx(0)) + 0"]
        + diamonds(18, lambda bit: unknown("r3") + [f"r3 &= {(2 << bit % 6) - 1}", "r8 += r3"])
        + END
    )


def null_results(count: int) -> list[str]:
    """Look-ups whose answers are on the stack, from r10 - 16 on."""
    look_up = ["r1 = map_by_idx(0)", "r2 = r10", "r2 += -8", "call 1"]
    return [
        line
        for slot in range(count)
        for line in [f"*(u32 *)(r10 - 8) = {slot}"] + look_up + [f"*(u64 *)(r10 - {16 + 8 * slot}) = r0"]
    ]


def frames_beside_a_loop() -> Iterator[Image]:
    """A loop of branches that multiply and add to a number, below 8 call frames that are read after the calls."""
    branches = [
        line for bit in range(10) for line in [f"if r2 & {1 << bit} goto +1", "r5 *= 3" if bit % 2 else f"r5 += {1 << bit}"]
    ]
    body = unknown("r2") + branches + ["if r2 == r5 goto out"]
    loop = unknown("r5") + counted(300000, body, "r8") + ["out: r0 = 2", "exit"]
    kept: list[tuple[str, Callable[[int], list[str]], int]] = [
        ("null results", null_results, 58),
        ("numbers", lambda count: spilled(count, 16), 58),
    ]
    for name, known, count in kept:
        lines = ["map hash 4 8 16", "goto f0"]
        after = [f"r3 = *(u64 *)(r10 - {16 + 8 * slot})" for slot in range(count)]
        for level in range(7):
            lines += [f"f{level}: r9 = r1"] + known(count) + ["r1 = r9", f"call f{level + 1}"] + after + ["exit"]
        yield f"a loop of branches below 8 frames of {count} {name}", lines + ["f7: r9 = r1"] + known(count) + loop


def calls() -> Iterator[Image]:
    """Functions that are called again and again."""
    yield "calls in a loop whose limits grow", (
        START
        + unknown("r8")
        + ["loop: r1 = r9", "r2 = r8", "call f", "r8 += 10000000", "r8 += r0", "r7 = 0x400000000 ll", "if r8 < r7 goto loop"]
        + END
        + ["f: r0 = 0", "r3 = *(u32 *)(r1 + 12)", "if r3 & 1 goto +1", "r0 = 1", "exit"]
    )
    yield "1,000 calls of a function with two ways", (
        START
        + ["r8 = 0"]
        + [line for _ in range(1000) for line in ["r1 = r9", "r2 = r8", "call f"]]
        + END
        + ["f: r0 = 0", "r3 = *(u32 *)(r1 + 12)", "if r3 & 1 goto +1", "r0 = 1", "exit"]
    )
    yield "18 calls that each add", (
        START
        + ["r8 = 0"]
        + [line for bit in range(18) for line in ["r1 = r9", f"r2 = {1 << bit}", "call f", "r8 += r0"]]
        + END
        + ["f: r0 = 0", "r3 = *(u32 *)(r1 + 12)", "if r3 & 1 goto +1", "r0 = r2", "exit"]
    )
    yield "18 calls that each add, below 60 slots", (
        START
        + spilled(60)
        + ["r8 = 0"]
        + [line for bit in range(18) for line in ["r1 = r9", f"r2 = {1 << bit}", "call f", "r8 += r0"]]
        + END
        + ["f: r9 = r1"]
        + spilled(60)
        + ["r0 = 0", "r3 = *(u32 *)(r9 + 12)", "if r3 & 1 goto +1", "r0 = r2", "exit"]
    )
    lines = START + ["r8 = 0"]
    for depth in range(7):
        lines += ([f"f{depth}: r6 = r1"] if depth else ["r6 = r1"]) + ["r1 = r6", f"call f{depth + 1}"] * 2 + ["exit"]
    yield "8 frames, two calls in each, 8 branches below", (
        lines[1:] + ["f7: r9 = r1"] + unknown("r2") + ["r0 = 0"] + diamonds(8, lambda bit: [f"r0 += {1 << bit}"]) + ["exit"]
    )


def many_slots() -> Iterator[Image]:
    """Programs of as many slots as there may be."""
    yield "4,000 slots of branches that each add to one of 8 numbers", (
        START
        + unknown("r2")
        + [line for number in range(3, 9) for line in unknown(f"r{number}")]
        + [
            line
            for bit in range(1300)
            for line in unknown("r2") + [f"if r2 & {1 << bit % 31} goto +1", f"r{3 + bit % 6} += {1 << bit % 31}"]
        ]
        + END
    )
    yield "4,000 slots, each the target of a jump", (
        START
        + unknown("r2")
        + unknown("r3")
        + [f"if r2 > {1 + bit} goto +1\nif r3 > {1 + bit} goto +0" for bit in range(2000)]
        + END
    )
    yield "4,000 tests that narrow a number", (
        START + unknown("r2") + [f"if r2 == {bit * 7919 % 65536} goto +0" for bit in range(4080)] + END
    )
    yield "4,000 tests that narrow two numbers, below 60 slots", (
        START
        + spilled(60)
        + unknown("r2")
        + unknown("r3")
        + [f"if r{2 + bit % 2} > {bit * 7919 % 65536} goto +0" for bit in range(3900)]
        + END
    )
    yield "a loop of 60 tests with 9 numbers and 60 slots", (
        START
        + spilled(60)
        + [line for number in range(1, 9) for line in unknown(f"r{number}")]
        + ["r0 = 0", "loop: r0 += 1"]
        + [f"if r{1 + bit % 8} == r0 goto out" for bit in range(60)]
        + ["if r0 < 16000 goto loop", "out: r0 = 2", "exit"]
    )
    for read, suffix in ((False, ""), (True, " that are read after the calls")):
        after = [f"r3 = *(u64 *)(r10 - {8 * slot + 8})" for slot in range(60)] if read else []
        yield f"a loop of tests that narrow a packet pointer in 8 frames of 60 copies{suffix}", (
            ["goto f0"]
            + [
                line
                for level in range(7)
                for line in [f"f{level}: r9 = r1"]
                + (PACKET[1:] if level == 0 else ["r6 = r2", "r7 = r3"])
                + [line for slot in range(60) for line in ["r4 = r6", f"r4 += {slot}", f"*(u64 *)(r10 - {8 * slot + 8}) = r4"]]
                + ["r1 = r9", "r2 = r6", "r3 = r7", f"call f{level + 1}"]
                + after
                + ["exit"]
            ]
            + [
                "f7: r9 = r1",
                "r8 = 1",
                "loop: r4 = r2",
                "r4 += r8",
                "if r4 > r3 goto out",
                "r8 += 1",
                "if r8 < 60000 goto loop",
                "out: r0 = 2",
                "exit",
            ]
        )


TESTED = ["r2", "r3", "r4", "r5", "r6", "r8", "r1", "r0"]


def all_tested(registers: Iterable[str], slots: Iterable[int]) -> list[str]:
    """Code in which each of these registers and stack slots is tested, or the slots are only read."""
    return [f"if {register} > 5 goto +0" for register in registers] + [
        line for slot in slots for line in [f"r3 = *(u64 *)(r10 - {8 + 8 * slot})", "if r3 > 5 goto +0"]
    ]


def stores_and_tests(stores: int) -> list[str]:
    """A loop with that many stores before each test, into 60 stack slots that are all tested where the test leads."""
    body = []
    for test in range(3700 // (stores + 1)):
        body += [f"*(u64 *)(r10 - {8 + 8 * (at * 7 % 60)}) = {at}" for at in range(stores * test, stores * test + stores)]
        body.append(f"if r2 == {test * 7919 % 65536} goto out")
    return START + spilled(60) + unknown("r2") + counted(100000, body) + ["out: r0 = 1"] + all_tested([], range(60)) + END


def of_32_bits(registers: list[str]) -> list[str]:
    """Unknown numbers of 32 bits in these registers."""
    return [line for register in registers for line in unknown(register)]


def of_64_bits(registers: list[str]) -> list[str]:
    """Unknown numbers of 64 bits in these registers."""
    return (
        unknown("r2")
        + ["*(u32 *)(r10 - 512) = r2", "*(u32 *)(r10 - 508) = r2"]
        + [f"{register} = *(u64 *)(r10 - 512)" for register in registers]
    )


def multiples(registers: list[str]) -> list[str]:
    """Unknown multiples of 256 in these registers."""
    return of_64_bits(registers) + [f"{register} &= -256" for register in registers]


def between_multiples(registers: list[str]) -> list[str]:
    """Unknown numbers in these registers that are 3 above a multiple of 256."""
    return multiples(registers) + [f"{register} += 3" for register in registers]


def of_high_halves(registers: list[str]) -> list[str]:
    """Unknown numbers in these registers of which only some bits of the high half are unknown."""
    return of_64_bits(registers) + ["r7 = 0x1234567700000000 ll"] + [f"{register} &= r7" for register in registers]


def with_signs(registers: list[str]) -> list[str]:
    """Unknown signed numbers of 32 bits in these registers."""
    return of_32_bits(registers) + [f"{register} = (s32){register}" for register in registers]


def narrow_beside_wide(registers: list[str]) -> list[str]:
    """Unknown numbers above 2^41 in these registers, of which every second one may be 1,024 numbers."""
    lines = of_64_bits(registers)
    for index, register in enumerate(registers):
        lines += [f"r7 = {(1 << 10 if index % 2 else 1 << 40) - 1:#x} ll", f"{register} &= r7"]
        lines += [f"r7 = {1 << 41:#x} ll", f"{register} += r7"]
    return lines


def by_other_bits(registers: list[str]) -> list[str]:
    """Unknown numbers in these registers; where the bits of one are known, those of the next one are not."""
    lines = of_64_bits(registers)
    for index, register in enumerate(registers):
        unknown_bits, ones = (
            (0x5555555555555555, 0xAAAAAAAA00AAAAA0) if index % 2 == 0 else (0xAAAAAAAAAAAAAAAA, 0x5555540555005550)
        )
        lines += [f"r7 = {unknown_bits:#x} ll", f"{register} &= r7", f"r7 = {ones:#x} ll", f"{register} |= r7"]
    return lines


def tests_in_turn(
    test: Callable[[list[str], int], str], numbers: int, slots: int, known: Callable[[list[str]], list[str]] = of_32_bits
) -> list[str]:
    """A loop of 3,000 tests of that many numbers in turn, which are all tested where the tests lead."""
    registers = TESTED[:numbers]
    return (
        START
        + spilled(slots)
        + known(registers)
        + counted(100000, [test(registers, turn) for turn in range(3000)])
        + ["out: r7 = 0"]
        + all_tested(registers, [])
        + [f"r3 = *(u64 *)(r10 - {8 + 8 * slot})" for slot in range(slots)]
        + END
    )


def one_number(registers: list[str], turn: int) -> str:
    return f"if {registers[turn % len(registers)]} == {turn + 1} goto out"


def compared(sign: str, registers: list[str], turn: int) -> tuple[str, str, str]:
    """Two numbers, and how they are compared."""
    count = len(registers)
    other = (turn * 3 + 1 + turn // count) % count
    return registers[turn % count], sign, registers[other if other != turn % count else (turn + 1) % count]


def two_numbers(registers: list[str], turn: int) -> str:
    return f"if {' '.join(compared('>', registers, turn))} goto out"


def two_signed(registers: list[str], turn: int) -> str:
    return f"if {' '.join(compared('s>', registers, turn))} goto out"


def two_halves(registers: list[str], turn: int) -> str:
    return f"if {' '.join(compared('>', registers, turn)).replace('r', 'w')} goto out"


def two_signed_halves(registers: list[str], turn: int) -> str:
    return f"if {' '.join(compared('s>', registers, turn)).replace('r', 'w')} goto out"


def two_of_each_kind(registers: list[str], turn: int) -> str:
    return [two_numbers, two_signed, two_halves, two_signed_halves][turn % 4](registers, turn)


def neighbours(sign: str) -> Callable[[list[str], int], str]:
    """Tests of a number and the next one."""

    def test(registers: list[str], turn: int) -> str:
        first = turn * 2 % len(registers)
        return f"if {registers[first]} {sign} {registers[first + 1]} goto out"

    return test


def two_ways(narrowed: list[str], first: list[str], second: list[str]) -> list[str]:
    """A loop whose tests lead to two slots in turn."""
    tests = [f"if r{2 + 2 * (turn % 2)} == {1 + turn // 2} goto {'first' if turn % 2 == 0 else 'second'}" for turn in range(3000)]
    return (
        START
        + spilled(60)
        + unknown("r2")
        + unknown("r4")
        + narrowed
        + counted(100000, tests)
        + ["goto first", "first: r7 = 0"]
        + first
        + END
        + ["second: r7 = 0"]
        + second
        + END
    )


def pending() -> Iterator[Image]:
    """Images with up to 1,000,000 pending states."""
    for stores in (1, 2, 8, 16):
        yield f"{stores} {'store' if stores == 1 else 'stores'} before each test", stores_and_tests(stores)
    yield "3,000 tests of 6 numbers", tests_in_turn(one_number, 6, 0)
    yield "3,000 tests of 8 numbers, 60 slots beside", tests_in_turn(one_number, 8, 60)
    yield "3,000 tests of two of 8 numbers", tests_in_turn(two_numbers, 8, 0)
    yield "3,000 tests of two of 8 numbers, 60 slots beside", tests_in_turn(two_numbers, 8, 60)
    yield "3,000 tests of two of 8 numbers of 64 bits", tests_in_turn(two_numbers, 8, 0, of_64_bits)
    yield "3,000 tests of two of 8 multiples of 256", tests_in_turn(two_numbers, 8, 0, multiples)
    yield "3,000 signed tests of two of 8 numbers of 64 bits", tests_in_turn(two_signed, 8, 0, of_64_bits)
    yield "3,000 signed tests of two of 8 multiples of 256", tests_in_turn(two_signed, 8, 0, multiples)
    yield "3,000 tests of the low halves of two of 8 numbers of 64 bits", tests_in_turn(two_halves, 8, 0, of_64_bits)
    yield "3,000 tests of the low halves of two of 8 multiples of 256", tests_in_turn(two_halves, 8, 0, multiples)
    yield "3,000 signed tests of the low halves of two of 8 multiples of 256", tests_in_turn(two_signed_halves, 8, 0, multiples)
    between = "8 numbers 3 above multiples of 256"
    yield f"3,000 tests of two of {between}", tests_in_turn(two_numbers, 8, 0, between_multiples)
    yield f"3,000 tests of each kind of two of {between}, 60 slots beside", tests_in_turn(
        two_of_each_kind, 8, 60, between_multiples
    )
    yield f"3,000 tests of the low halves of two of {between}", tests_in_turn(two_halves, 8, 0, between_multiples)
    yield "3,000 tests of two of 8 numbers of high halves", tests_in_turn(two_numbers, 8, 0, of_high_halves)
    yield "3,000 signed tests of two of 8 signed numbers of 32 bits", tests_in_turn(two_signed, 8, 0, with_signs)
    yield "3,000 tests of each kind of two of 8 signed numbers of 32 bits", tests_in_turn(two_of_each_kind, 8, 0, with_signs)
    yield "3,000 tests of a wide and a narrow one of 8 numbers", tests_in_turn(neighbours("<"), 8, 0, narrow_beside_wide)
    yield "3,000 tests whether two of 8 numbers with other known bits are one", tests_in_turn(neighbours("=="), 8, 0, by_other_bits)
    yield "3,000 tests that lead to two slots, at which other stack slots are live", two_ways(
        [], all_tested([], range(0, 60, 2)), all_tested([], range(1, 60, 2))
    )
    yield "3,000 tests that lead to two slots, at one of which no stack slot is tested", two_ways(
        [
            line
            for slot in range(60)
            for line in [f"r3 = *(u64 *)(r10 - {8 + 8 * slot})", f"r3 &= {255 + slot}", f"*(u64 *)(r10 - {8 + 8 * slot}) = r3"]
        ],
        all_tested([], range(60)),
        [f"r3 = *(u64 *)(r10 - {8 + 8 * slot})" for slot in range(60)],
    )


def with_a_call(lines: list[str]) -> list[str] | None:
    """The program with a call of a function that does nothing: then no numbers are forgotten. None:
    it calls one already, or has no first line that keeps the context."""
    calls = [line for line in lines if " call " in f" {line} " and not line.split()[-1].isdigit()]
    if calls or START[0] not in lines:
        return None
    first = lines.index(START[0]) + 1
    return lines[:first] + ["call nothing"] + lines[first:] + ["nothing: r0 = 0", "exit"]


FAMILIES = [
    bits,
    limits,
    signed_limits,
    low_halves,
    stack_slots,
    frames,
    frames_beside_a_loop,
    identities,
    null_identities,
    calls,
    many_slots,
    pending,
]


def of_both_sorts(images: Iterable[Image]) -> Iterator[Image]:
    """The images, and those with a call."""
    for name, lines in images:
        if FEW and name not in MOST:
            continue
        yield name, lines
        called = with_a_call(lines)
        if called and not FEW:
            yield f"{name}, with a call", called


# ---- measuring


def bounded() -> None:
    resource.setrlimit(resource.RLIMIT_AS, (ROOM << 20, ROOM << 20))
    resource.setrlimit(resource.RLIMIT_CPU, (LIMIT, LIMIT + 1))


def verified(image: str) -> tuple[str, float, float]:
    """The last line of `verify`, its processor seconds and its peak megabytes."""
    words = ["time", "-f", "%U %S %M", "--", PROGRAM, "verify", image]
    # pylint: disable-next=subprocess-popen-preexec-fn
    ran = subprocess.run(words, capture_output=True, text=True, preexec_fn=bounded, check=False)
    verdict = (ran.stdout.strip().splitlines() or ["none: ended"])[-1]
    user, system, peak = ran.stderr.splitlines()[-1].split()
    return verdict, float(user) + float(system), int(peak) / 1024


def main() -> int:
    common.need(PROGRAM)
    worst = [0.0, 0.0]
    print(f"{'seconds':>8} {'MB':>6}  {'slots':>5}  verdict")
    with tempfile.TemporaryDirectory() as folder:
        text, image = os.path.join(folder, "text"), os.path.join(folder, "image")
        for family in FAMILIES:
            if CHOSEN and family.__name__ not in CHOSEN:
                continue
            for name, lines in of_both_sorts(family()):
                made = common.measured([PROGRAM, "asm", common.write(text, "\n".join(lines) + "\n"), image])
                if made.status != 0:
                    sys.exit(f"{name}: {made.out.strip()}")
                verdict, seconds, peak = verified(image)
                slots = int.from_bytes(common.bytes_of(image)[6:8], "little")
                worst = [max(worst[0], seconds), max(worst[1], peak)]
                print(f"{seconds:8.2f} {peak:6.0f}  {slots:5}  {verdict:24} {family.__name__}: {name}", flush=True)
    print(f"{worst[0]:8.2f} {worst[1]:6.0f}  the most of any")
    return 1 if worst[0] > SECONDS or worst[1] > MEGABYTES else 0


sys.exit(main())
