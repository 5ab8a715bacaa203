#!/usr/bin/env python3
"""What `trace` takes for frames that each add a key, beside frames that each write a key that is
there: the values are numbered anew in each frame, so what a frame changed has to be numbered.

usage: python3 bench/keys.py [PROGRAM [FRAMES ..]]

Each row has the microseconds a frame, of processor time outside the system, least of TIMES runs, without what the start
takes. The keys come in random order.
"""
import os
import random
import resource
import subprocess
import sys
import tempfile

sys.path.insert(0, os.path.join(os.path.dirname(os.path.abspath(__file__)), "../checks"))
from common import need, program, record, write

PROGRAM = program()
TIMES = int(os.environ.get("TIMES", "3"))
COUNTS = [int(word) for word in sys.argv[2:]] or [200, 1000, 2000, 4000, 16000]

WRITE = """
        map hash 4 8 65536
{beside}        r6 = *(u32 *)(r1 + 16)
        *(u32 *)(r10 - 4) = r6
        *(u64 *)(r10 - 16) = r6
        r1 = map_by_idx(0)
        r2 = r10
        r2 += -4
        r3 = r10
        r3 += -16
        r4 = 0
        call 2
        r0 = 1
        exit
"""


def stream(queues: list[int]) -> bytes:
    return b"XPF1" + b"".join(record(1, (0, 1, queue), 0, bytes(60)) for queue in queues)


def took(image: str, frames: str, command: str) -> float:
    best = 1e9
    for _ in range(TIMES):
        before = resource.getrusage(resource.RUSAGE_CHILDREN).ru_utime
        subprocess.run([PROGRAM, command, image, frames, "sent"], stdout=subprocess.DEVNULL, check=True)
        best = min(best, resource.getrusage(resource.RUSAGE_CHILDREN).ru_utime - before)
    return best


def main() -> None:
    need(PROGRAM)
    with tempfile.TemporaryDirectory() as folder:
        os.chdir(folder)
        print(f"{'frames':>7} {'beside':<24}{'trace, same key':>18}{'trace, new keys':>18}{'run, new keys':>18}")
        for beside, map_row in [("nothing", ""), ("an array of 65,536", "        map array 4 8 65536\n")]:
            words = [PROGRAM, "asm", write("write.text", WRITE.format(beside=map_row)), "write.image"]
            subprocess.run(words, check=True, stdout=subprocess.DEVNULL)
            write("none.frames", stream([]))
            for count in COUNTS:
                keys = random.Random(1).sample(range(1 << 31), count)
                row = []
                for command, queues in [("trace", [7] * count), ("trace", keys), ("run", keys)]:
                    write("some.frames", stream(queues))
                    row.append(
                        (took("write.image", "some.frames", command) - took("write.image", "none.frames", command)) / count * 1e6
                    )
                print(f"{count:>7} {beside:<24}" + "".join(f"{micros:>15.2f} µs" for micros in row), flush=True)
        os.chdir("/")


main()
