"""What the scripts of this repository share: places, files, programs that are measured, and images and frames packed by hand.

A script of another folder puts this one on its path first; from then on it can import the files of the others, too.
"""
import argparse
import os
import shutil
import struct
import subprocess
import sys
import tempfile
from collections.abc import Iterable, Mapping, Sequence
from typing import IO, NamedTuple, TypeVar

TOP = os.path.dirname(os.path.dirname(os.path.abspath(__file__)))
sys.path[1:1] = [os.path.join(TOP, it) for it in ("tools", "attacks", "tests", "bench", "examples")]
CANNOT = 77  # the status of a check that cannot be tried here
MEMORY = "/dev/shm" if os.access("/dev/shm", os.W_OK) else None  # a folder in memory for files that are written often
PYTHON = os.environ.get("PYTHON_OF_TOOLS", sys.executable)  # what runs the tools: in the gate it asks checks/serving.py
T = TypeVar("T")


def built(name: str = "xdpvm") -> str:
    """Where `rt run` leaves a program."""
    return os.path.join(TOP, f"crates/{name}/out/{name}")


def program(name: str = "xdpvm", at: int = 1) -> str:
    """The program that is this word of the command line, or else the one that `rt run` left."""
    return os.path.abspath(sys.argv[at] if len(sys.argv) > at else built(name))


def need(*programs: str) -> None:
    """Ends with a message where a program is not there, or with the script's help where that is asked for."""
    if set(sys.argv[1:]) & {"-h", "--help"}:
        print(help_of_script().strip())
        sys.exit(0)
    for path in programs:
        if not os.access(path, os.X_OK):
            sys.exit(f"{os.path.basename(sys.argv[0])}: {lacking(path)}")


def absolute(path: str) -> str:
    """The whole path of a file on the command line, which need not be there."""
    return os.path.abspath(path)


def lacking(path: str) -> str:
    return f"there is no program {path}: give one, or build it as README.md says"


def runnable(path: str) -> str:
    """The whole path of a program on the command line, which has to be there."""
    if not os.access(path, os.X_OK):
        raise argparse.ArgumentTypeError(lacking(path))
    return os.path.abspath(path)


def help_of_script() -> str:
    return sys.modules["__main__"].__doc__ or ""


def command_line() -> argparse.ArgumentParser:
    """What reads the words of a script, whose help is what the script begins with."""
    return argparse.ArgumentParser(description=help_of_script(), formatter_class=argparse.RawDescriptionHelpFormatter)


def compiler() -> str:
    """The C compiler: the one that CC names, or else one that is installed."""
    return os.environ.get("CC") or shutil.which("cc") or shutil.which("clang") or "cc"


def there(found: T | None) -> T:
    """What was found; it has to be there."""
    assert found is not None, "it is not there"
    return found


# ---- files


def text_of(path: str) -> str:
    with open(path, encoding="utf-8") as file:
        return file.read()


def bytes_of(path: str) -> bytes:
    with open(path, "rb") as file:
        return file.read()


def write(path: str, data: str | bytes) -> str:
    """Writes a file, and returns its path."""
    with open(path, "wb") as file:
        file.write(data.encode() if isinstance(data, str) else data)
    return path


def crates(top: str = TOP) -> dict[str, list[str]]:
    """Each crate of crates.txt, with all that it builds on."""
    rows = [line.partition(":") for line in text_of(f"{top}/crates.txt").splitlines() if line.strip() and line[0] != "#"]
    return {head.split()[0]: names.split() for head, _, names in rows}


def crates_below() -> dict[str, list[str]]:
    """Each crate of crates.txt, with the crates of this repository that it builds on."""
    found = crates()
    return {crate: [it for it in names if it in found] for crate, names in found.items()}


# ---- programs that run


class Ended(NamedTuple):
    """How a command ended: what it wrote, its processor seconds and the KiB of its memory at most."""

    status: int
    out: str
    err: str
    seconds: float
    kib: int


def measured(words: Sequence[str], given: int | IO[bytes] = subprocess.DEVNULL) -> Ended:
    """Runs a command; `given` is its standard input."""
    with tempfile.TemporaryFile() as out, tempfile.TemporaryFile() as err:
        child = subprocess.Popen(words, stdin=given, stdout=out, stderr=err)
        _, status, used = os.wait4(child.pid, 0)
        child.returncode = os.waitstatus_to_exitcode(status)
        texts = []
        for file in (out, err):
            file.seek(0)
            texts.append(file.read().decode(errors="replace"))
    return Ended(child.returncode, texts[0], texts[1], used.ru_utime + used.ru_stime, used.ru_maxrss)


def said_by(words: Sequence[str], folder: str = ".", env: Mapping[str, str] | None = None) -> tuple[int, str]:
    """The status of a command, and all that it printed."""
    ran = subprocess.run(
        words, cwd=folder, env=env, stdin=subprocess.DEVNULL, stdout=subprocess.PIPE, stderr=subprocess.STDOUT, check=False
    )
    return ran.returncode, ran.stdout.decode(errors="replace")


def peak(words: Sequence[str]) -> float:
    """The peak memory of a command in megabytes, by GNU time: what the system tells a script counts the script's own too."""
    told = subprocess.run(["time", "-f", "%M", "--", *words], stdout=subprocess.DEVNULL, stderr=subprocess.PIPE, check=False)
    return int(told.stderr.split()[-1]) / 1024


# ---- images and frames


def insn(opcode: int, destination: int = 0, source: int = 0, offset: int = 0, imm: int = 0) -> bytes:
    """An instruction; a number of 32 bits may be signed or not."""
    return struct.pack("<BBhi", opcode, destination | source << 4, offset, (imm + 2**31) % 2**32 - 2**31)


def image_of(code: bytes, maps: Sequence[Iterable[int]] = (), version: int = 1) -> bytes:
    """An image: rows of maps are type, key size, value size and max_entries."""
    rows = b"".join(struct.pack("<HHII", *row) for row in maps)
    return struct.pack("<4sHH", b"XBP%d" % version, len(maps), len(code) // 8) + rows + code


def record(version: int, head: tuple[int, int, int], reason: int, body: bytes) -> bytes:
    """A frame of a stream: the head is time, interface and queue. One of version 1 has no reason."""
    return struct.pack("<QIII", *head, len(body)) + (struct.pack("<I", reason) if version == 2 else b"") + body


# ---- programs that fill


def counted_loop(turns: int) -> str:
    """3 + 2 * turns steps on one path."""
    return f"r1 = 0\nloop: r1 += 1\nif r1 < {turns} goto loop\nr0 = 2\nexit\n"


def stack_loop(turns: int) -> str:
    """3 + 4 * turns instructions on one path: the counter is on the stack."""
    first = "*(u64 *)(r10 - 8) = 0\nloop: r1 = *(u64 *)(r10 - 8)\nr1 += 1\n*(u64 *)(r10 - 8) = r1\n"
    return f"{first}if r1 < {turns} goto loop\nr0 = 2\nexit\n"


def straight(slots: int, action: int = 2) -> str:
    """Each slot once: a body of additions, exclusive ors and products, five forms in turn."""
    forms = ["r1 += r2", "r2 ^= r1", "r1 *= 5", "r2 += 7", "r1 &= 1048575"]
    body = [forms[at % len(forms)] for at in range(2, slots - 2)]
    return "\n".join(["r1 = 1", "r2 = 3", *body, f"r0 = {action}", "exit"]) + "\n"


def branches(count: int, last: Sequence[str] = ("exit",)) -> str:
    """count tests of the unknown bits of one number, one after the other. Each path leaves another number in r0, which is not
    forgotten, since the end of a loop tests it. So no state covers another: 4 * 2^count instructions are explored in all."""
    lines = ["r6 = *(u32 *)(r1 + 12)", "r0 = 0"]
    for bit in range(count):
        lines += [f"if r6 & {1 << bit} goto +1", f"r0 += {1 << bit}"]
    return "\n".join([*lines, "if r0 s< 0 goto -1", *last]) + "\n"
