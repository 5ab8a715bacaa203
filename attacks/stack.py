#!/usr/bin/env python3
"""Each command of the three programs, and `xdpvm_verify` of the library with an explanation, on a small machine stack.

usage: python3 attacks/stack.py [--least] [PROGRAM [SURVEY [FILTER [ARCHIVE]]]]

The commands have 512 KB, the call of the library 256. They are given images that are accepted, and images that are refused
for each kind of reason, below one call frame and below eight whose stack slots are all in use: a command that needs more ends
by a signal, and so does the check. With --least it prints the least stack of each command, in KB, which it finds by halving.
PROGRAM, SURVEY and FILTER are the programs that `rt run` leaves in crates/, ARCHIVE is the library (the default: those in
out/ there). The exit status is 0 if each command ends as it does on the usual stack, and 1 if not.
"""
import os
import resource
import subprocess
import sys
import tempfile
from collections.abc import Callable, Iterator

sys.path.insert(0, os.path.join(os.path.dirname(os.path.abspath(__file__)), "../checks"))
from common import TOP, built, compiler, need, write

# KB of stack for a command, and for a call of the library.
COMMAND, CALL = 512, 256
USUAL = 8192
LEAST = "--least" in sys.argv
GIVEN = [os.path.abspath(it) for it in sys.argv[1:] if it != "--least"]
DEFAULTS = [built("xdpvm"), built("xdpvm_survey"), built("xdpvm_filter"), f"{TOP}/crates/xdpvm_c/out/libxdpvm_c.a"]
PROGRAM, SURVEY, FILTER, ARCHIVE = [*GIVEN, *DEFAULTS[len(GIVEN) :]]
# A step and an end for the innermost call frame, by the code that the program gets; r9 is the context.
INNERMOST = {
    "ok": "r0 = 2\nexit\n",
    "V1": "r0 = r5\nexit\n",
    "V9": "r2 = *(u32 *)(r9 + 0)\nr0 = *(u8 *)(r2 + 13)\nexit\n",
    "V11": "*(u32 *)(r10 - 4) = 0\nr1 = map_by_idx(0)\nr2 = r10\nr2 += -4\ncall 1\nr0 = *(u8 *)(r0 + 0)\nexit\n",
    "V18": "loop: r2 = *(u32 *)(r9 + 12)\nif r2 != 7 goto loop\nr0 = 2\nexit\n",
    "V19": "r8 = 0\nloop: r8 += 1\nif r8 < 600000 goto loop\nr0 = 2\nexit\n",
}

LONG = "V19"  # a search that takes a second


def spilled(count: int) -> str:
    """Unknown numbers in so many stack slots."""
    return "".join(f"r3 = *(u32 *)(r9 + 12)\n*(u64 *)(r10 - {16 + 8 * at}) = r3\n" for at in range(count))


def text_of(innermost: str, frames: int) -> str:
    """A program with so many call frames, whose callers read all their stack slots after the call."""
    after = "".join(f"r3 = *(u64 *)(r10 - {16 + 8 * at})\n" for at in range(58))
    below = "".join(f"f{at}: r9 = r1\n{spilled(58)}r1 = r9\ncall f{at + 1}\n{after}exit\n" for at in range(frames - 1))
    return f"map hash 4 8 16\n{below}f{frames - 1}: r9 = r1\n{spilled(58)}{innermost}"


def images() -> Iterator[str]:
    """Images of all kinds: names of files."""
    for code, innermost in INNERMOST.items():
        for frames in (1, 8) if code != LONG else (1,):
            name = f"{code}_{frames}"
            write(f"{name}.text", text_of(innermost, frames))
            subprocess.run([PROGRAM, "asm", f"{name}.text", name], check=True, stdout=subprocess.DEVNULL)
            yield name


def limited(stack: int) -> Callable[[], None]:
    return lambda: resource.setrlimit(resource.RLIMIT_STACK, (stack << 10, stack << 10))


def status_of(words: list[str], stack: int) -> int:
    """The status of a command on a stack of so many KB."""
    # pylint: disable-next=subprocess-popen-preexec-fn
    ran = subprocess.run(words, stdin=subprocess.DEVNULL, capture_output=True, preexec_fn=limited(stack), check=False)
    return ran.returncode


def least_of(words: list[str]) -> int:
    """The least stack in KB on which a command does not end by a signal, up to 4."""
    wanted, few, enough = status_of(words, USUAL), 16, USUAL
    while enough - few > 4:
        middle = (few + enough) // 2
        few, enough = (few, middle) if status_of(words, middle) == wanted else (middle, enough)
    return enough


def commands(names: list[str]) -> Iterator[list[str]]:
    """Each command of the three programs, on each image."""
    frames = f"{TOP}/examples/numbers.frames"
    table, wrong = "right.table", write("wrong.table", b"XPT1" + bytes(60))
    subprocess.run([PROGRAM, "prove", "ok_8", table], check=True, stdout=subprocess.DEVNULL)
    for name in names:
        yield [PROGRAM, "asm", f"{name}.text", "made"]
        yield [PROGRAM, "dis", name]
        yield [PROGRAM, "verify", name]
        if name.startswith(LONG):
            continue
        yield [PROGRAM, "run", name, frames, "sent"]
        yield [PROGRAM, "trace", name, frames, "sent", "--limit", "1000"]
        yield [PROGRAM, "prove", name, "table"]
        for given in table, wrong:
            yield [PROGRAM, "recheck", name, given]
            yield [PROGRAM, "run", name, frames, "sent", "--table", given]
        yield [SURVEY, name, "--tables", "."]
        yield [SURVEY, "log", name, "--states", "100"]
        yield [SURVEY, "dis", name]
        yield [SURVEY, "dis", "--dot", name]
        yield [FILTER, name, frames, "sent", "--report", "report", "--maps-out", "maps"]


def library() -> str:
    """A program that calls the library."""
    heap = os.path.join(os.path.dirname(os.path.dirname(os.path.realpath(subprocess.getoutput("command -v rt")))), "c/liblibc_c.a")
    subprocess.run([compiler(), "-std=c11", "-O2", "-o", "stack", f"{TOP}/attacks/stack.c", ARCHIVE, heap], check=True)
    return os.path.abspath("stack")


def main() -> int:
    need(PROGRAM, SURVEY, FILTER)
    wrong = tried = 0
    with tempfile.TemporaryDirectory() as folder:
        os.chdir(folder)
        names = list(images())
        call = library()
        all_words = [(words, COMMAND) for words in commands(names)] + [([call, name], CALL) for name in names]
        for words, stack in all_words:
            tried += 1
            said = " ".join([os.path.basename(words[0]), *words[1:]])
            if LEAST:
                print(f"{least_of(words):5} KB: {said}", flush=True)
                continue
            wanted, found = status_of(words, USUAL), status_of(words, stack)
            if found != wanted or found < 0:
                wrong += 1
                print(f"{said}: status {found} on a stack of {stack} KB, {wanted} on one of {USUAL}")
        os.chdir("/")
    print(f"{tried} commands and calls, {wrong} need more stack")
    return 1 if wrong else 0


if __name__ == "__main__":
    sys.exit(main())
