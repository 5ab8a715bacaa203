#!/usr/bin/env python3
"""The library on four threads at once, under ThreadSanitizer, and used wrongly, in each way that its header names or forbids.

usage: python3 attacks/embedding.py [--calls N] [--archive FILE] [--object OBJECT]

N calls (100,000) are made by four threads over the images of examples/, with the answers of one thread alone, which is not watched
(attacks/threads.c); races of the caller's side are found, and with an OBJECT that `examples/embed/coverage.py --sanitizer thread`
made those of the library, too (CC has to be a clang from 15 on). Then attacks/misuse.c prints what happens in each wrong use of a
session and of pointers: what the header says an answer to has to have it, and where a call returns nothing outside the caller's
memory is changed. The library is crates/xdpvm_c/out/libxdpvm_c.a or FILE. It needs a C compiler (CC) with ThreadSanitizer. The
exit status is 1 if anything was wrong.
"""
import glob
import os
import subprocess
import sys
import tempfile

sys.path.insert(0, os.path.join(os.path.dirname(os.path.abspath(__file__)), "../checks"))
from common import TOP, absolute, command_line, compiler
import unproved


def compiled(name: str, made: str, words: list[str]) -> str:
    """A program of attacks/, compiled with these words."""
    subprocess.run([compiler(), "-std=c11", "-g", "-o", made, f"{TOP}/attacks/{name}.c", *words, "-pthread"], check=True)
    return made


def main() -> int:
    parser = command_line()
    parser.add_argument("--calls", type=int, default=100_000)
    parser.add_argument("--archive", type=absolute, default=f"{TOP}/crates/xdpvm_c/out/libxdpvm_c.a")
    parser.add_argument("--object", type=absolute)
    given = parser.parse_args()
    system, heap = unproved.libraries(unproved.the_kit())
    images = sorted(glob.glob(f"{TOP}/examples/*.image"))
    with tempfile.TemporaryDirectory() as folder:
        alone = compiled("threads", f"{folder}/alone", ["-O2", given.archive, heap])
        sums = (
            subprocess.run([alone, str(given.calls), "alone", *images], stdout=subprocess.PIPE, check=True).stdout.decode().split()
        )
        library = [given.object, heap, system] if given.object else [given.archive, heap]
        threads = compiled("threads", f"{folder}/threads", ["-O1", "-fsanitize=thread", *library])
        # the sanitizer wants its addresses as they are without randomness
        ran = subprocess.run(["setarch", "-R", threads, str(given.calls), *sums, *images], check=False).returncode
        misused = subprocess.run([compiled("misuse", f"{folder}/misuse", ["-O1", given.archive])], check=False).returncode
    return 1 if ran or misused else 0


if __name__ == "__main__":
    sys.exit(main())
