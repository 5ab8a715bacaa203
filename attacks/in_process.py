"""The library in this process, for attacks that would otherwise start a process for each question:
about a thousand questions a second and more. Runner does what a command line asks for as the
program does, by the library if it can.
"""
import ctypes
import itertools
import os
import struct
import subprocess
import sys
from collections.abc import Callable, Iterable, Iterator
from typing import Protocol

sys.path.insert(0, os.path.join(os.path.dirname(os.path.abspath(__file__)), "../checks"))
from common import bytes_of, compiler, record, write
from jobs import kept
import unproved

MOST = 1_000_000  # instructions that are explored, and steps of a run
UNDECIDED = 6  # the status of a search that its caller's limit ended
ROOM = 1 << 20
ACTIONS = ["ABORTED", "DROP", "PASS", "TX", "REDIRECT", "INVALID"]
HEADS = {1: struct.Struct("<QIII"), 2: struct.Struct("<QIIII")}
Head = tuple[int, int, int]  # time, interface and queue of a frame
Ended = tuple[int, int, int, int, bytes]  # r0, the steps, how a run ended, the reason of a trap, and the packet then
Answer = tuple[int, bytes, bytes]  # a status, standard output and standard error
Ran = subprocess.CompletedProcess[bytes]
Run = Callable[..., Ran]  # runs the program with these words
Buffer = ctypes.Array[ctypes.c_char]
CONST, PLACE, SIZE, WORD = ctypes.c_char_p, ctypes.c_void_p, ctypes.c_size_t, ctypes.c_uint32
CALLS = {
    "xdpvm_assemble": [CONST, SIZE, PLACE, SIZE, PLACE, SIZE, PLACE],
    "xdpvm_verify": [CONST, SIZE, WORD, PLACE, SIZE, PLACE],
    "xdpvm_run_once": [CONST, SIZE, CONST, PLACE, SIZE, PLACE],
    "xdpvm_trace_once": [CONST, SIZE, CONST, PLACE, SIZE, WORD, PLACE],
    "xdpvm_run_stream": [CONST, SIZE, CONST, SIZE, PLACE, SIZE, PLACE, SIZE, PLACE],
    "xdpvm_recheck": [CONST, SIZE, CONST, SIZE, PLACE, SIZE, PLACE],
    "xdpvm_open": [CONST, SIZE, PLACE],
    "xdpvm_open_with_table": [CONST, SIZE, CONST, SIZE, PLACE],
    "xdpvm_fill": [PLACE, CONST, SIZE, PLACE],
    "xdpvm_stream": [PLACE, CONST, SIZE, PLACE, SIZE, PLACE, SIZE, PLACE],
    "xdpvm_run": [PLACE, CONST, PLACE, SIZE, PLACE],
    "xdpvm_close": [PLACE],
}


def loadable(path: str) -> str:
    """The shared library of the command line: of an archive, libxdpvm_c.a, one is made until the script ends."""
    if not path.endswith(".a"):
        return os.path.abspath(path)
    made, (_, heap) = os.path.join(kept(), "libxdpvm.so"), unproved.libraries(unproved.the_kit())
    whole = ["-Wl,--whole-archive", path, "-Wl,--no-whole-archive", heap]
    subprocess.run([compiler(), "-shared", "-o", made, *whole], check=True)
    return made


def records(stream: bytes) -> Iterator[tuple[Head, int, bytes]]:
    """The records of a stream without faults: what is before the length, the reason, and the
    bytes."""
    version = stream[3] - ord("0")
    head, at = HEADS[version], 4
    while at < len(stream):
        time, interface, queue, size, *reason = head.unpack_from(stream, at)
        at += head.size + size
        yield (time, interface, queue), sum(reason), stream[at - size : at]


class Tracer(Protocol):
    """What traces a run: the library, or what stands for it in tests."""

    def trace(self, image: bytes, head: Head, packet: bytes) -> Ended:
        """See Library."""


class TooLong(Exception):
    """A text or a stream of over a megabyte, for which there is no room."""


class Library:
    """The calls of examples/embed/xdpvm.h that the attacks make. Status 5 of any is an error."""

    def __init__(self, path: str) -> None:
        self.calls = ctypes.CDLL(path)
        for name, arguments in CALLS.items():
            call = getattr(self.calls, name)
            call.argtypes, call.restype = arguments, WORD
        self.one, self.two = ctypes.create_string_buffer(ROOM), ctypes.create_string_buffer(ROOM)
        self.out, self.session = ctypes.create_string_buffer(64), ctypes.create_string_buffer(8)

    def taken(self, buffer: Buffer, size: int) -> bytes:
        if size > ROOM:
            raise TooLong
        return ctypes.string_at(buffer, size)

    def asked(self, status: int, *others: int) -> int:
        if status not in (0, 2, *others):
            raise MemoryError(f"status {status}")
        return status

    def assemble(self, text: bytes) -> tuple[int, bytes]:
        """The status, and the image or why there is none."""
        status = self.asked(self.calls.xdpvm_assemble(text, len(text), self.one, ROOM, self.two, ROOM, self.out))
        (size,) = struct.unpack_from("<Q", self.out.raw)
        return status, self.taken(self.two if status else self.one, size)

    def verify(self, image: bytes, limit: int = MOST) -> tuple[int, int, bytes] | None:
        """The status, the bound, and why there is none; or None where the limit of explored instructions came first."""
        status = self.asked(self.calls.xdpvm_verify(image, len(image), limit, self.one, ROOM, self.out), UNDECIDED)
        if status == UNDECIDED and limit < MOST:
            return None
        self.asked(status)
        said, _, bound = struct.unpack_from("<QQI", self.out.raw)
        return status, bound, self.taken(self.one, said) if status else b""

    def recheck(self, image: bytes, proof: bytes) -> tuple[int, int, bytes]:
        status = self.asked(self.calls.xdpvm_recheck(image, len(image), proof, len(proof), self.one, ROOM, self.out))
        said, _, bound = struct.unpack_from("<QQI", self.out.raw)
        return status, bound, self.taken(self.one, said) if status else b""

    def run(self, image: bytes, stream: bytes) -> tuple[int, bytes, bytes]:
        """The status, the report, and the frames out."""
        return self.streamed(
            self.asked(
                self.calls.xdpvm_run_stream(image, len(image), stream, len(stream), self.one, ROOM, self.two, ROOM, self.out)
            )
        )

    def streamed(self, status: int) -> tuple[int, bytes, bytes]:
        """The status of a run over a stream, the report, and the frames out."""
        report, sent, _, _, fault = struct.unpack_from("<QQQII", self.out.raw)
        return 3 if fault else status, self.taken(self.one, report), self.taken(self.two, sent)

    def run_filled(self, image: bytes, maps: bytes, stream: bytes) -> tuple[int, bytes, bytes]:
        """The same in a session whose maps are filled by a text first."""
        ctypes.memset(self.session, 0, 8)
        if self.asked(self.calls.xdpvm_open(image, len(image), self.session)):
            raise ValueError("verify accepts what open refuses")
        try:
            if self.asked(self.calls.xdpvm_fill(self.session, maps, len(maps), self.out)):
                raise ValueError("a text does not fill the maps")
            return self.streamed(
                self.asked(self.calls.xdpvm_stream(self.session, stream, len(stream), self.one, ROOM, self.two, ROOM, self.out))
            )
        finally:
            self.calls.xdpvm_close(self.session)

    def trace(self, image: bytes, head: Head, packet: bytes) -> Ended:
        """r0, the steps, how it ended, the reason of a trap, and the packet then, of a traced run on starting maps."""
        ctypes.memmove(self.one, packet, len(packet))
        given = struct.pack("<QII", *head)
        self.asked(self.calls.xdpvm_trace_once(image, len(image), given, self.one, len(packet), MOST, self.out))
        r0, steps, kind, reason = struct.unpack_from("<QIII", self.out.raw)
        return r0, steps, kind, reason, self.taken(self.one, len(packet))

    def run_alone(self, image: bytes, head: Head, packet: bytes) -> tuple[int, int, bytes]:
        """The same of a verified run: r0, the steps, and the packet then."""
        ctypes.memmove(self.one, packet, len(packet))
        if self.asked(self.calls.xdpvm_run_once(image, len(image), struct.pack("<QII", *head), self.one, len(packet), self.out)):
            raise ValueError("verify accepts what run_once refuses")
        return self.ended(packet)

    def ended(self, packet: bytes) -> tuple[int, int, bytes]:
        r0, steps = struct.unpack_from("<QI", self.out.raw)
        return r0, steps, self.taken(self.one, len(packet))

    def runs_by_table(
        self, image: bytes, proof: bytes, frames: Iterable[tuple[Head, int, bytes]]
    ) -> list[tuple[int, int, bytes]] | None:
        """r0, the steps and the packet of each run by a table, on maps that go from run to run; None: the table is refused."""
        ctypes.memset(self.session, 0, 8)
        if self.asked(self.calls.xdpvm_open_with_table(image, len(image), proof, len(proof), self.session)):
            return None
        ended = []
        for head, _, packet in frames:
            ctypes.memmove(self.one, packet, len(packet))
            if self.calls.xdpvm_run(self.session, struct.pack("<QII", *head), self.one, len(packet), self.out):
                raise MemoryError("a run in a session")
            ended.append(self.ended(packet))
        self.calls.xdpvm_close(self.session)
        return ended


def line_of(image: bytes, version: int, number: int, packet: bytes, ended: Ended) -> tuple[str, int | None]:
    """The line of a report for a traced run, and the reason with which the frame is written out, or
    None if it is not."""
    r0, steps, kind, reason, _ = ended
    if kind:
        return f"{number} {'TRAP ' + str(reason) if kind == 1 else 'LIMIT 0'} {steps}", None
    action = ACTIONS[min(r0 % 2**32, 5)]
    goes = action in ("PASS", "TX")
    why = 0 if goes else (r0 >> 32 or 1) if image[3:4] == b"2" else 1
    line = f"{number} {action} {len(packet)} {steps}"
    return (f"{line} {why}", why) if version == 2 else (line, 0 if goes else None)


def traced(library: Tracer, image: bytes, stream: bytes) -> tuple[bytes, bytes]:
    """The report of traced runs of a program without maps, and the frames out, by docs/FORMATS.md."""
    version, lines, sent = stream[3] - ord("0"), [], stream[:4]
    for number, (head, reason, packet) in enumerate(records(stream)):
        if reason:
            lines.append(f"{number} SKIP {len(packet)} 0 {reason}")
            after = packet
        else:
            ended = library.trace(image, head, packet)
            after = ended[4]
            line, why = line_of(image, version, number, packet, ended)
            lines.append(line)
            if why is None:
                continue
            reason = why
        sent += record(version, head, reason, after)
    return "\n".join([*lines, f"end {len(lines)}", ""]).encode(), sent


def differs_alone(library: Library, image: bytes, stream: bytes, bound: int) -> str | None:
    """What is wrong with the traced runs of an accepted program on the first frames of a stream, on starting maps, and
    with its verified runs on two of them, which each verify it once more: None, or a text."""
    for number, (head, _, packet) in enumerate(itertools.islice(records(stream), 8)):
        r0, steps, kind, reason, after = library.trace(image, head, packet)
        if kind or steps > bound:
            return f"accepted with bound {bound}: end {kind}, reason {reason}, {steps} steps"
        if number < 2 and library.run_alone(image, head, packet) != (r0, steps, after):
            return f"run and trace differ on a frame of {len(packet)} bytes"
    return None


def told(status: int, bound: int, why: bytes) -> Answer:
    """The status, standard output and standard error of a verdict."""
    line, end, rest = why.partition(b"\n")
    return (status, line + end, rest) if status else (0, b"ok bound %d\n" % bound, b"")


class Runner:
    """Does asm, verify, recheck, run and trace by the library, and a run on maps that are filled; `run` with a table,
    `trace` of a program with maps, for which the library has no call, and other commands by a process. `verify` explores
    at most so many instructions; its status is UNDECIDED where that is not enough."""

    def __init__(self, path: str, process: Run, explored: int = MOST) -> None:
        self.library, self.process, self.explored = Library(path), process, explored

    def __call__(self, *words: str) -> Ran:
        answer = (
            getattr(self, words[0], None)
            if len(words) == {"asm": 3, "verify": 2, "recheck": 3, "run": 4, "trace": 4, "filled": 6}.get(words[0])
            else None
        )
        try:
            answered = answer(*words[1:]) if answer else None
        except TooLong:
            answered = None
        return subprocess.CompletedProcess(words, *answered) if answered else self.process(*words)

    def asm(self, text: str, image: str) -> Answer:
        status, made = self.library.assemble(bytes_of(text))
        if status == 0:
            write(image, made)
        return status, b"" if status else b"ok\n", made if status else b""

    def verify(self, image: str) -> Answer:
        found = self.library.verify(bytes_of(image), self.explored)
        return told(*found) if found else (UNDECIDED, b"", b"")

    def recheck(self, image: str, proof: str) -> Answer:
        return told(*self.library.recheck(bytes_of(image), bytes_of(proof)))

    def run(self, image: str, frames: str, sent: str) -> Answer | None:
        status, report, out = self.library.run(bytes_of(image), bytes_of(frames))
        if status == 2:
            return None
        write(sent, out)
        return status, report, b""

    def filled(self, image: str, frames: str, sent: str, maps: str, report: str) -> Answer:
        """A run on maps that are filled by a text: its report and its frames out are written."""
        status, lines, out = self.library.run_filled(bytes_of(image), bytes_of(maps), bytes_of(frames))
        write(report, lines)
        write(sent, out)
        return status, b"", b""

    def trace(self, image: str, frames: str, sent: str) -> Answer | None:
        program = bytes_of(image)
        if program[4:6] != b"\0\0":
            return None
        report, out = traced(self.library, program, bytes_of(frames))
        write(sent, out)
        return 0, report, b""
