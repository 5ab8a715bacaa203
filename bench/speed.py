#!/usr/bin/env python3
"""Compares a step of `run` and of `trace` with one of a plain interpreter in C (bench/switch.c, gcc -O2), on nine
programs: by processor seconds, less the start and those of a program that exits at once, on the same frames. The same
interpreter is also built with computed goto, as a column of its own, and so is DPDK's interpreter,
if pkg-config knows DPDK (libdpdk, Debian's libdpdk-dev). Its loader refuses loops, so most programs
have no figure there.

usage: python3 bench/speed.py [PROGRAM ..]

Where code lies in memory moves a loop by 10 to 30 %, so each interpreter in C is built four times, its code further on by
16 bytes each, and several builds of xdpvm can be given. A PROGRAM may be an object file, as `rt run` leaves it in
crates/xdpvm/out/xdpvm.o: it is linked four times in the same way. Each figure is the least of TIMES runs, in turn, over
all builds.
"""
import os
import random
import struct
import subprocess
import sys
import tempfile

sys.path.insert(0, os.path.join(os.path.dirname(os.path.abspath(__file__)), "../checks"))
from common import TOP, Ended, measured, need, record, straight, there, write
import unproved

PROGRAMS = [os.path.abspath(path) for path in sys.argv[1:]] or [f"{TOP}/crates/xdpvm/out/xdpvm"]
TIMES = int(os.environ.get("TIMES", "8"))
PADS = [0, 16, 32, 48]
# How each interpreter in C is built. Without the two flags gcc makes one jump of many of the computed ones.
INTERPRETERS = {"switch": ["-O2"], "goto": ["-O2", "-fno-gcse", "-fno-crossjumping", "-DGOTO"]}
REFUSED = 3

IDLE = "r0 = 1\nexit\n"

# Each frame has 64 packets of 64 bytes, one after the other.
PARSE = """
        r2 = *(u32 *)(r1 + 0)
        r3 = *(u32 *)(r1 + 4)
        r8 = 0
again:  r4 = r2
        r4 += 64
        if r4 > r3 goto drop
        r5 = *(u16 *)(r2 + 12)
        if r5 != 8 goto next
        r5 = *(u8 *)(r2 + 14)
        if r5 != 69 goto next
        r5 = *(u8 *)(r2 + 23)
        if r5 == 6 goto tcp
        if r5 != 17 goto next
        r5 = *(u16 *)(r2 + 36)
        r5 = be16 r5
        if r5 == 53 goto next
        if r5 == 123 goto next
        goto hash
tcp:    r5 = *(u8 *)(r2 + 47)
        r5 &= 18
        if r5 == 2 goto next
hash:   r5 = *(u32 *)(r2 + 26)
        r6 = *(u32 *)(r2 + 30)
        r5 *= 73244475
        r7 = r5
        r7 >>= 16
        r5 ^= r7
        r5 ^= r6
        r5 *= 73244475
        w5 = w5
        r7 = r5
        r7 >>= 16
        r5 ^= r7
        r5 &= 15
        if r5 == 3 goto next
next:   r2 += 64
        r8 += 1
        if r8 < 64 goto again
drop:   r0 = 1
        exit
"""


def counted(turns: int) -> str:
    return f"r1 = 0\nloop: r1 += 1\nif r1 < {turns} goto loop\nr0 = 1\nexit\n"


SEVEN = """
        r6 = 0
        r0 = 1
loop:   r0 *= 31
        r0 += r6
        r7 = r0
        r7 >>= 7
        r0 ^= r7
        r6 += 1
        if r6 < 100000 goto loop
        r0 = 1
        exit
"""

FRAME = """
        r9 = 0
again:  r2 = r10
        r2 += -256
        r3 = 0
fill:   *(u8 *)(r2 + 0) = r3
        r2 += 1
        r3 += 3
        if r3 < 768 goto fill
        r2 = r10
        r2 += -256
        r3 = 0
        r0 = 0
sum:    r4 = *(u8 *)(r2 + 0)
        r0 += r4
        r2 += 1
        r3 += 1
        if r3 < 256 goto sum
        *(u64 *)(r10 - 264) = r0
        r0 = *(u64 *)(r10 - 264)
        r9 += 1
        if r9 < 40 goto again
        r0 = 1
        exit
"""

PACKET = """
        r2 = *(u32 *)(r1 + 0)
        r3 = *(u32 *)(r1 + 4)
        r0 = 0
        r6 = 0
sum:    r4 = r2
        r4 += 1
        if r4 > r3 goto done
        r5 = *(u8 *)(r2 + 0)
        r0 += r5
        r2 += 1
        r6 += 1
        if r6 < 4096 goto sum
done:   r0 = 1
        exit
"""

MAP = """
        map array 4 16 256
        r7 = r1
        r6 = *(u32 *)(r7 + 16)
        r9 = 0
again:  r6 += 1
        r6 &= 255
        *(u32 *)(r10 - 4) = r6
        r1 = map_by_idx(0)
        r2 = r10
        r2 += -4
        call 1
        if r0 == 0 goto none
        r1 = 1
        lock *(u64 *)(r0 + 0) += r1
        r1 = *(u64 *)(r0 + 8)
        r1 += 60
        *(u64 *)(r0 + 8) = r1
none:   r9 += 1
        if r9 < 2000 goto again
        r0 = 1
        exit
"""


def mixed(slots: int) -> str:
    """Forms at random, each slot once."""
    choose = random.Random(5)
    body = [f"r{register} = {choose.randrange(1, 1000)}" for register in range(2, 10)]
    while len(body) < slots - 2:
        to, by = choose.randrange(2, 10), choose.randrange(2, 10)
        half = choose.choice("rrrw")
        operator = choose.choice(["+", "-", "^", "&", "|", "*", "<<", ">>", ""])
        source = str(choose.randrange(1, 31)) if operator in ["<<", ">>"] or choose.random() < 0.3 else f"{half}{by}"
        body.append(f"{half}{to} {operator}= {source}")
    return "\n".join(body + ["r0 = 1", "exit"]) + "\n"


def branches() -> str:
    """Ten branches on the bytes of each of 64 packets in a frame. The sum goes into a number of
    which nothing is known, so that a turn begins in the state of the one before."""
    lines = ["r2 = *(u32 *)(r1 + 0)", "r3 = *(u32 *)(r1 + 4)", "r9 = *(u32 *)(r1 + 16)", "r8 = 0"]
    lines += ["again: r4 = r2", "r4 += 64", "if r4 > r3 goto done", "r0 = 0"]
    for place, limit in enumerate([110, 255, 56, 116, 30, 33, 160, 97, 15, 128]):
        lines += [f"r5 = *(u8 *)(r2 + {place + 38})", f"if r5 < {limit} goto +1", "r0 += 1", "r0 += r5"]
    lines += ["r9 *= 31", "r9 ^= r0", "r2 += 64", "r8 += 1", "if r8 < 64 goto again", "done: r0 = 1", "exit"]
    return "\n".join(lines) + "\n"


def packets(count: int) -> bytes:
    """A stream of frames of 64 packets: most of IPv4, UDP and TCP, to a few ports; what follows is random."""
    choose = random.Random(3)
    stream = [b"XPF1"]
    for _ in range(count):
        body = b""
        for _ in range(64):
            protocol, port = choose.choice([6, 17]), choose.choice([53, 80])
            kind = b"\x08\0" if choose.randrange(16) else b"\x86\xdd"
            head = b"\2\0\0\0\0\1\2\0\0\0\0\2" + kind + b"\x45\0\0\x32\0\1\0\0\x40" + bytes([protocol]) + b"\0\0"
            head += choose.randbytes(4) + b"\x0a\0\0\2\3\xe8" + struct.pack(">H", port)
            body += head + choose.randbytes(64 - len(head))
        stream.append(record(1, (0, 1, 0), 0, body))
    return b"".join(stream)


def plain(count: int) -> bytes:
    return b"XPF1" + record(1, (0, 1, 0), 0, bytes(60)) * count


def packaged(what: str) -> list[str] | None:
    """What pkg-config says of DPDK, as arguments for gcc, or None if it does not know DPDK."""
    try:
        ended = subprocess.run(
            ["pkg-config", what, "libdpdk"], stdout=subprocess.PIPE, stderr=subprocess.DEVNULL, text=True, check=False
        )
    except FileNotFoundError:
        return None
    return ended.stdout.split() if ended.returncode == 0 else None


def built() -> list[str]:
    """Builds the interpreters in C, each in all layouts, and returns their names."""
    kinds: dict[str, tuple[list[str], list[str]]] = {kind: (flags, []) for kind, flags in INTERPRETERS.items()}
    flags, libraries = packaged("--cflags"), packaged("--libs")
    if flags is None or libraries is None:
        print("pkg-config knows no libdpdk: the column of DPDK's interpreter is left out", flush=True)
    else:
        kinds["dpdk"] = (["-O2", "-DDPDK", *flags], libraries)
    for kind, (options, linked) in kinds.items():
        for pad in PADS:
            words = ["gcc", *options, f"-DPAD={pad + 1}", "-o", f"{kind}{pad}", f"{TOP}/bench/switch.c", *linked]
            subprocess.run(words, check=True)
    return list(kinds)


def in_layouts(number: int, path: str) -> list[str]:
    """A program, or those of an object file, one for each layout: number is its place among those that are given."""
    if not path.endswith(".o"):
        return [path]
    archives = unproved.libraries(unproved.the_kit())
    programs = [os.path.abspath(f"xdpvm{number}-{pad}") for pad in PADS]
    for pad, program in zip(PADS, programs):
        skipped = write(f"pad{pad}.s", f'.section .note.GNU-stack,"",@progbits\n.text\n.skip {pad + 1}, 0x90\n')
        subprocess.run(["cc", "-o", program, skipped, path, *archives, archives[0]], check=True)
    return programs


def processor(words: list[str]) -> Ended | None:
    """How a command ended; None where DPDK's interpreter refuses the program."""
    ended = measured(words)
    if words[0].startswith("./dpdk") and ended.status == REFUSED:
        return None
    if ended.status != 0:
        sys.exit(f"{' '.join(words)}: {ended.status} {ended.out[-200:]} {ended.err}")
    return ended


def assembled(name: str, text: str) -> str:
    processor([PROGRAMS[0], "asm", write(name + ".text", text), name + ".image"])
    return name + ".image"


def steps_of(report: str) -> int:
    return sum(int(line.split()[3]) for line in report.splitlines() if line.split()[1] == "DROP")


# What is measured of a command: a program on the frames and on none, and one that exits at once on both.
PARTS = [("p.image", "p.frames"), ("p.image", "none.frames"), ("idle.image", "p.frames"), ("idle.image", "none.frames")]


def frames_of(best: dict[object, float], way: tuple[str, str]) -> float:
    """What a program takes for the frames, less what one that exits at once takes for them."""
    whole, ready, idle, idle_ready = (best[way, part] for part in PARTS)
    return whole - ready - (idle - idle_ready)


def compared(kinds: list[str], name: str, text: str, stream: bytes) -> None:
    """Prints a row: a program on a stream, by each interpreter."""
    assembled("p", text)
    write("p.frames", stream)
    best: dict[object, float] = {}
    counts, sums = set(), set()

    def took(key: object, seconds: float) -> None:
        best[key] = min(best.get(key, 1e9), seconds)

    for _ in range(TIMES):
        for kind in kinds:
            for pad in PADS:
                ended = processor([f"./{kind}{pad}", "p.image", "p.frames", "1"])
                if ended is None:
                    continue
                steps, seconds, results = ended.out.split()
                took(kind, float(seconds))
                sums.add(int(results))
                if kind != "dpdk":
                    counts.add(int(steps))
        for way in [(command, program) for program in PROGRAMS for command in ["run", "trace"]]:
            for part in PARTS:
                ended = there(processor([way[1], way[0], *part, "sent"]))
                took((way, part), ended.seconds)
                if part == PARTS[0]:
                    counts.add(steps_of(ended.out))
    if len(counts) != 1 or len(sums) != 1:
        sys.exit(f"{name}: steps {counts}, sums of the results {sums}")
    runs = [frames_of(best, ("run", program)) for program in PROGRAMS]
    traced = min(frames_of(best, ("trace", program)) for program in PROGRAMS)
    plain_step = best["switch"] * 1e9 / counts.pop()
    others = "".join(f"{best[kind] / best['switch']:>9.2f}" if kind in best else f"{'-':>9}" for kind in kinds[1:])
    each = " ".join(f"{run / best['switch']:.2f}" for run in runs)
    print(f"{name:<44}{plain_step:>7.2f}{others}{min(runs) / best['switch']:>9.2f}{traced / min(runs):>11.1f}   {each}", flush=True)


def main() -> None:
    need(*(path for path in PROGRAMS if not path.endswith(".o")))
    rows = [
        ("packet parse, 64 in a frame", PARSE, packets(5000)),
        ("loop of 2 instructions", counted(499_998), plain(400)),
        ("loop of 7 instructions", SEVEN, plain(300)),
        ("3,000 straight slots, 5 forms in turn", straight(3_000, 1), plain(40_000)),
        ("3,000 straight slots, forms at random", mixed(3_000), plain(20_000)),
        ("byte loop over a stack frame", FRAME, plain(800)),
        ("byte loop over a packet", PACKET, packets(2000)),
        ("ten branches on a packet, 64 in a frame", branches(), packets(3000)),
        ("array map: look-up, atomic add, store", MAP, plain(1_500)),
    ]
    with tempfile.TemporaryDirectory() as folder:
        os.chdir(folder)
        kinds = built()
        PROGRAMS[:] = [program for number, path in enumerate(PROGRAMS) for program in in_layouts(number, path)]
        assembled("idle", IDLE)
        write("none.frames", plain(0))
        columns = "".join(f"{kind + '/C':>9}" for kind in kinds[1:])
        print(f"{'program':<44}{'C ns':>7}{columns}{'run/C':>9}{'trace/run':>11}   run/C of each build")
        for name, text, stream in rows:
            compared(kinds, name, text, stream)
        os.chdir("/")


main()
