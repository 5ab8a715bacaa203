#!/usr/bin/env python3
"""Damages what the tools read: objects, images, texts of frames, what gzip packed, proof tables and their texts, classic
programs, captures, texts of maps and earlier surveys.

usage: python3 attacks/damage_tools.py [--each N] [--seconds N] [--seed N] [--commands]

Of each stored file N damaged copies are made (the default: 40): cut, with bytes changed, removed, doubled or there many times, up
to a megabyte, or with numbers in place of four bytes. Each is read by the tool's own functions. What comes is what was read, or
the tool's own refusal, within a second of the processor and 300 MB; all else is printed with the bytes' place in the run. With
--commands each is also given to the command lines of the tools that take such a file, with the programs that they start; what
they make of it is not judged, but a traceback is wrong. With --seconds it goes on with further copies for so long. First come
objects that are made to keep a tool busy or to take much memory (hostile_objects.py). The last line counts; the exit status is 1
if anything was wrong.
"""
import contextlib
import glob
import gzip
import io
import itertools
import os
import random
import resource
import runpy
import shutil
import signal
import sys
import tempfile
import time
from collections.abc import Callable, Iterator

sys.path.insert(0, os.path.join(os.path.dirname(os.path.abspath(__file__)), "../checks"))
from common import TOP, bytes_of, command_line, write
import classic
import expressions
import frames
import hostile_objects
import image
import object_image
import packed
import table
from inputs import NoText, text_lines
from objects import Refused

Reader = Callable[[bytes], object]
BTF = os.path.join(TOP, "tests/objects/made/kernel.btf")
TOOLS, EXAMPLES = os.path.join(TOP, "tools"), os.path.join(TOP, "examples")
MOST, SECONDS, KIB = 1_000_000, 1.0, 300 << 10  # bytes of an input, and what one may take
# what `tcpdump -ddd` writes of `udp port 53`, for IPv4
CLASSIC = """\
13
40 0 0 12
21 0 10 2048
48 0 0 23
21 0 8 17
40 0 0 20
69 6 0 8191
177 0 0 14
72 0 0 14
21 2 0 53
72 0 0 16
21 0 1 53
6 0 0 262144
6 0 0 0
"""


def read_object(data: bytes) -> None:
    with contextlib.suppress(Refused):
        image.listed(data)
    with contextlib.suppress(Refused):
        image.made(data, image.Wanted(btf=BTF))


def read_hostile(data: bytes) -> None:
    """An object whose program may be one of several."""
    read_object(data)
    with contextlib.suppress(Refused):
        image.made(data, image.Wanted(program="f0", btf=BTF))


def read_image(data: bytes) -> None:
    with contextlib.suppress(object_image.Refused):
        object_image.Program(data)


def read_classic(data: bytes) -> None:
    with contextlib.suppress(classic.Failed):
        expressions.translated(classic.classic_program(data.decode(errors="replace")), "", expressions.Options())


def read_types(data: bytes) -> None:
    """The kernel's types, for an object that asks for some."""
    asked = bytes_of(os.path.join(TOP, "tests/objects/made/headers.clang14.o"))
    with tempfile.NamedTemporaryFile() as types:
        types.write(data)
        types.flush()
        with contextlib.suppress(Refused):
            image.made(asked, image.Wanted(btf=types.name))


def read_frames(data: bytes) -> None:
    with contextlib.suppress(frames.Damaged, NoText):
        for one in frames.read_text(io.BytesIO(data).readline):
            assert len(one.body) <= frames.PIECE


def read_packed(data: bytes) -> None:
    with contextlib.suppress(packed.Packed):
        for piece in packed.unpacked([data[:100], data[100:]]):
            assert len(piece) <= packed.MOST


def read_table(data: bytes) -> None:
    with contextlib.suppress(table.Refused):
        table.text_of(table.entries_of(data))


def read_table_text(data: bytes) -> None:
    with contextlib.suppress(table.Wrong, NoText):
        table.table_bytes(table.entries_in(text_lines(io.BytesIO(data).readline)))


# ---- the command lines


COMMANDS = (
    ("tests/objects/made/*.o", "image.py given made --btf {btf}"),
    ("tests/objects/made/*.o", "image.py --list given"),
    ("tests/objects/made/*.o", "xdp.py given firewall.frames --btf {btf} --trace --limit 1000 --hits made.html"),
    ("tests/objects/made/*.btf", "image.py headers.o made --btf given"),
    ("examples/*.image", "object.py given made --unverified"),
    ("examples/*.image", "object.py --tag given"),
    ("examples/*.image", "xdp.py given firewall.frames made.txt --trace --limit 1000"),
    ("examples/*.image.maps", "xdp.py quota.image firewall.frames --maps given --maps-out held"),
    ("examples/*.image.maps", "object.py quota.image made --unverified"),  # the file beside the image
    ("examples/*.report", "xdp.py allow.image allow.frames --maps given"),
    ("examples/*.text", "xdp.py given firewall.frames --trace --limit 1000"),
    ("examples/*.frames", "xdp.py firewall.image given made.pcapng --reasons"),
    ("examples/*.pcapng", "xdp.py firewall.image given made.frames"),
    ("examples/filters/*.txt", "xdp.py firewall.image given made.txt"),
    ("examples/filters/*.txt", "frames.py --reasons given made"),
    ("examples/*.table", "table.py show given"),
    ("examples/compiled/*.csv", "survey.py firewall.text --compare given"),
)


def run_tool(words: str) -> None:
    """Runs a command line of a tool in this process. A status is an answer, any other exception is none."""
    name, *rest = words.split()
    argv, out, err = sys.argv, io.TextIOWrapper(io.BytesIO()), io.TextIOWrapper(io.BytesIO())
    sys.argv = [os.path.join(TOOLS, name), *rest]
    try:
        with contextlib.redirect_stdout(out), contextlib.redirect_stderr(err), contextlib.suppress(SystemExit):
            runpy.run_path(sys.argv[0], run_name="__main__")
    finally:
        sys.argv = argv
        for number in (signal.SIGTERM, signal.SIGHUP):
            signal.signal(number, signal.SIG_DFL)


def read_by(words: str) -> Reader:
    """A command line as a reader of the file that it is given."""
    its = "quota.image.maps" if "quota" in words and "given" not in words else "given"

    def read(data: bytes) -> None:
        shutil.copy(os.path.join(EXAMPLES, "quota.image.maps"), "quota.image.maps")
        run_tool(words.format(btf=BTF).replace("given", write(its, data)))

    return read


def commands() -> Iterator[tuple[str, Reader, bytes]]:
    """Each stored file with each command line that takes such a one."""
    for name in ("firewall.frames", "firewall.image", "firewall.text", "quota.image", "allow.image", "allow.frames"):
        shutil.copy(os.path.join(EXAMPLES, name), name)
    shutil.copy(os.path.join(TOP, "tests/objects/made/headers.clang14.o"), "headers.o")
    for pattern, words in COMMANDS:
        for path in sorted(glob.glob(os.path.join(TOP, pattern))):
            yield f"{os.path.relpath(path, TOP)}, {words}", read_by(words), bytes_of(path)
    yield "a classic program, filter.py", read_by("filter.py --classic given made"), CLASSIC.encode()
    text = table.text_of(table.entries_of(bytes_of(os.path.join(EXAMPLES, "pass.table"))))
    yield "a text of a table, table.py", read_by("table.py make given made"), text.encode()
    packed_capture = gzip.compress(bytes_of(os.path.join(EXAMPLES, "firewall.pcapng")))
    yield "a packed capture, xdp.py", read_by("xdp.py firewall.image given made.pcap"), packed_capture


# ---- what is damaged


def stored() -> Iterator[tuple[str, Reader, bytes]]:
    """Each stored file with what reads it."""
    yield "a classic program", read_classic, CLASSIC.encode()
    kinds: list[tuple[str, Reader]] = [
        ("tests/objects/made/*.o", read_object),
        ("tests/objects/made/*.btf", read_types),
        ("examples/*.image", read_image),
        ("examples/filters/*.txt", read_frames),
        ("examples/*.table", read_table),
    ]
    for pattern, reader in kinds:
        for path in sorted(glob.glob(os.path.join(TOP, pattern))):
            data = bytes_of(path)
            yield os.path.relpath(path, TOP), reader, data
            if reader is read_table:
                yield f"the text of {os.path.relpath(path, TOP)}", read_table_text, table.text_of(table.entries_of(data)).encode()
            if reader is read_frames:
                yield f"{os.path.relpath(path, TOP)}, packed", read_packed, gzip.compress(data)


def damaged(data: bytes, dice: random.Random) -> bytes:
    """A copy with one to four damages."""
    made = bytearray(data)
    for _ in range(dice.randint(1, 4)):
        at = dice.randrange(len(made) + 1)
        kind = dice.randrange(6)
        if kind == 0:
            del made[at:]
        elif kind == 1:
            del made[at : at + dice.randint(1, 16)]
        elif kind == 2:
            piece, times = made[at : at + dice.randint(1, 64)], 1 if dice.random() < 0.995 else dice.choice([64, 4096, MOST])
            made[at:at] = piece * min(times, MOST // (len(piece) or 1))
        elif kind == 3:
            made[at : at + 4] = dice.choice([0, 1, 0x7FFFFFFF, 0x80000000, 0xFFFFFFFF, len(data), at]).to_bytes(4, "little")
        elif at < len(made):
            made[at] = dice.choice([0, 1, 0x7F, 0x80, 0xFF, dice.randrange(256), made[at] ^ 1 << dice.randrange(8)])
    return bytes(made[:MOST])


def spent() -> float:
    """The seconds of the processor that this process and its children took."""
    used = resource.getrusage(resource.RUSAGE_CHILDREN)
    return time.process_time() + used.ru_utime + used.ru_stime


class Told:
    """How many copies were read, what was wrong, and the most that one took."""

    def __init__(self) -> None:
        self.tried, self.failed, self.slowest, self.kib = 0, 0, 0.0, 0

    def read(self, name: str, reader: Reader, data: bytes) -> None:
        """Has a copy read."""
        begin, wrong = spent(), ""
        try:
            reader(data)
        except Exception as why:  # pylint: disable=broad-except
            wrong = f"{type(why).__name__}: {why}"
        took = spent() - begin
        kib = max(resource.getrusage(who).ru_maxrss for who in (resource.RUSAGE_SELF, resource.RUSAGE_CHILDREN))
        wrong = wrong or (f"{took:.2f} seconds" if took > SECONDS else "")
        wrong = wrong or (f"{kib} KiB" if kib > max(self.kib, KIB) else "")
        self.tried, self.slowest, self.kib = self.tried + 1, max(self.slowest, took), max(self.kib, kib)
        if wrong:
            self.failed += 1
            print(f"{name}, {len(data)} bytes: {wrong}", flush=True)


def main() -> int:
    words = command_line()
    words.add_argument("--each", type=int, default=40)
    words.add_argument("--seconds", type=int, default=0)
    words.add_argument("--seed", type=int, default=1)
    words.add_argument("--commands", action="store_true")
    given = words.parse_args()
    told, end = Told(), time.monotonic() + given.seconds
    with tempfile.TemporaryDirectory() as folder:
        os.chdir(folder)
        for name, data in hostile_objects.hostile_objects():
            told.read(f"an object: {name}", read_hostile, data)
        told.read("types in one another", read_types, hostile_objects.hostile_types())
        files = [*stored(), *(commands() if given.commands else ())]
        for number in itertools.count():
            if number >= given.each and time.monotonic() >= end:
                break
            for name, reader, data in files:
                told.read(f"{name}, {number}", reader, damaged(data, random.Random(f"{given.seed} {name} {number}")))
        os.chdir("/")
    print(
        f"{told.tried} damaged files, {told.failed} without an answer; the slowest {told.slowest:.2f} seconds, "
        f"the most memory {told.kib >> 10} MiB"
    )
    return 1 if told.failed else 0


if __name__ == "__main__":
    sys.exit(main())
