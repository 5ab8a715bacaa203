"""The kernel's side of comparisons: a program and its maps by bpf(2), what its verifier says, and test runs on
frames."""
from __future__ import annotations

import ctypes
import errno
import functools
import os
import re
import struct
from types import TracebackType
from collections.abc import Iterable, Iterator

SYS_BPF, SYS_CAPSET = 321, 126
MAP_CREATE, MAP_LOOKUP, MAP_UPDATE, MAP_NEXT, PROG_LOAD, TEST_RUN = 0, 1, 2, 4, 5, 10
XDP = 6
CAP_NET_ADMIN, CAP_SYS_RESOURCE, CAP_BPF = 12, 24, 39
LEAST, MOST = 14, 3520
LOG_BYTES = 1 << 24
libc = ctypes.CDLL(None, use_errno=True)
Entry = tuple[int, bytes, bytes]  # the index of a map, a key, its value


class NoKernel(Exception):
    """bpf(2) cannot be used here."""


def call(command: int, attributes: bytes) -> tuple[int, bytes]:
    """bpf(2): the result, or minus the error number, and the attributes after the call."""
    room = ctypes.create_string_buffer(attributes, 144)
    result = libc.syscall(SYS_BPF, command, room, 144)
    return (result if result >= 0 else -ctypes.get_errno()), room.raw


@functools.cache
def log_room() -> ctypes.Array[ctypes.c_char]:
    """Room for a log of the kernel's verifier: of all of them, since clearing it takes longer than most verdicts."""
    return ctypes.create_string_buffer(LOG_BYTES)


def without_perfmon() -> None:
    """This process keeps CAP_BPF, CAP_NET_ADMIN and CAP_SYS_RESOURCE, and no other capability."""
    with open("/proc/self/status", encoding="utf-8") as status:
        has = int(next(it for it in status if it.startswith("CapPrm")).split()[1], 16)
    bits = has & (1 << CAP_NET_ADMIN | 1 << CAP_SYS_RESOURCE | 1 << CAP_BPF)
    low, high = bits & 0xFFFFFFFF, bits >> 32
    header = struct.pack("<Ii", 0x20080522, 0)
    if libc.syscall(SYS_CAPSET, header, struct.pack("<6I", low, low, 0, high, high, 0)) != 0:
        raise NoKernel(f"capset: {os.strerror(ctypes.get_errno())}")


def parsed(image: bytes) -> tuple[list[tuple[int, int, int, int]], list[bytes]]:
    """The map rows and the slots of an image."""
    magic, maps, slots = struct.unpack_from("<4sHH", image)
    if magic not in (b"XBP1", b"XBP2") or len(image) != 8 + 12 * maps + 8 * slots:
        raise ValueError("this is no image")
    at = 8 + 12 * maps
    rows: list[tuple[int, int, int, int]] = list(struct.iter_unpack("<HHII", image[8:at]))  # type: ignore[arg-type]
    return rows, [image[at + 8 * k : at + 8 * k + 8] for k in range(slots)]


class Kernel:
    """A program in the kernel with its maps. `refusal` is None, or the log of its refusal; without `explains` the error's
    name. With `counts` an accepted one has the kernel's counts in its log."""

    def __init__(self, image: bytes, counts: bool = False, explains: bool = True) -> None:
        self.rows, slots = parsed(image)
        self.files: list[int] = []
        self.refusal: str | None = None
        self.log, self.counts, self.explains = b"", counts, explains
        try:
            self.maps = [self.made(*row) for row in self.rows]
            self.program = self.loaded(b"".join(self.linked(slots)))
        except BaseException:
            self.close()
            raise

    def made(self, kind: int, key: int, value: int, entries: int) -> int:
        """A map in the kernel."""
        result, _ = call(MAP_CREATE, struct.pack("<IIIII", kind, key, value, entries, 0))
        if result < 0:
            if result in (-errno.EPERM, -errno.ENOSYS):
                raise NoKernel(f"bpf(2): {os.strerror(-result)}")
            raise OSError(-result, "a map cannot be made in the kernel")
        self.files.append(result)
        return result

    def processed(self) -> str:
        """How many instructions the kernel's verifier processed, in words, if its log says it."""
        found = re.search(rb"processed (\d+) insns", self.log)
        return f", {int(found[1]):,} instructions processed" if found else ""

    def linked(self, slots: list[bytes]) -> Iterator[bytes]:
        """The slots, with the maps' file descriptors in place of their indexes."""
        wide = False
        for at, slot in enumerate(slots):
            opcode, registers, offset, imm = struct.unpack("<BBhi", slot)
            kind = registers >> 4
            if opcode == 0x18 and not wide and kind in (5, 6):
                if not 0 <= imm < len(self.maps):
                    raise ValueError(f"slot {at} loads map {imm}, which the image does not have")
                slot = struct.pack("<BBhi", opcode, registers & 15 | (1 if kind == 5 else 2) << 4, offset, self.maps[imm])
            wide = opcode == 0x18 and not wide
            yield slot

    def loaded(self, code: bytes) -> int | None:
        """The program in the kernel, or nothing where it is refused."""
        room, terms = ctypes.create_string_buffer(code, len(code)), ctypes.create_string_buffer(b"GPL")
        words = (XDP, len(code) // 8, ctypes.addressof(room), ctypes.addressof(terms))
        log = log_room()
        for level in (4 if self.counts else 0, *[1] * self.explains):
            log[0] = b"\0"
            seen = (level, LOG_BYTES, ctypes.addressof(log)) if level else (0, 0, 0)
            result, _ = call(PROG_LOAD, struct.pack("<IIQQIIQI", *words, *seen, 0))
            if result >= 0:
                self.files.append(result)
                self.log = log.value
                return result
        self.log = log.value
        if not self.log and self.explains and result in (-errno.EPERM, -errno.ENOSYS):
            raise NoKernel(f"bpf(2): {os.strerror(-result)}")
        self.refusal = last_words(self.log) or os.strerror(-result)
        return None

    def run(self, body: bytes) -> tuple[int, bytes] | None:
        """The kernel's action for a frame, and its bytes after the run; None if it takes no such
        frame."""
        ran = self.run_often(body, 1)
        return None if ran is None else ran[:2]

    def run_often(self, body: bytes, times: int) -> tuple[int, bytes, int] | None:
        """The kernel's action for a frame after so many runs, each on what the one before left, its bytes then, and how many
        nanoseconds a run took, by the kernel's own measure; None if it takes no such frame."""
        if not LEAST <= len(body) <= MOST:
            return None
        given, taken = ctypes.create_string_buffer(body, len(body)), ctypes.create_string_buffer(8192)
        words = (self.program, 0, len(body), 8192, ctypes.addressof(given), ctypes.addressof(taken), times, 0)
        result, after = call(TEST_RUN, struct.pack("<IIIIQQII", *words))
        if result < 0:
            raise OSError(-result, "the kernel's test run")
        answer, _, length = struct.unpack_from("<III", after, 4)
        return answer, ctypes.string_at(taken, length), struct.unpack_from("<I", after, 36)[0]

    def fill(self, entries: Iterable[Entry]) -> None:
        """Updates the maps, in this order."""
        for index, key, value in entries:
            its, new = ctypes.create_string_buffer(key, len(key)), ctypes.create_string_buffer(value, len(value))
            words = (self.maps[index], 0, ctypes.addressof(its), ctypes.addressof(new), 0)
            result, _ = call(MAP_UPDATE, struct.pack("<IIQQQ", *words))
            if result < 0:
                raise OSError(-result, f"map {index} cannot be filled in the kernel: {os.strerror(-result)}")

    def entries(self) -> list[Entry]:
        """The key-value pairs of each map, as `xdpvm run` reports them: (index, key, value)."""
        found: list[Entry] = []
        for index, (row, file) in enumerate(zip(self.rows, self.maps)):
            _, size, room, _ = row
            key: ctypes.Array[ctypes.c_char] | None = None
            value = ctypes.create_string_buffer(room)
            after = ctypes.create_string_buffer(size)
            keys = []
            while True:
                before = ctypes.addressof(key) if key is not None else 0
                result, _ = call(MAP_NEXT, struct.pack("<IIQQ", file, 0, before, ctypes.addressof(after)))
                if result < 0:
                    break
                keys.append(after.raw)
                key = ctypes.create_string_buffer(after.raw, size)
            for it in keys:
                key = ctypes.create_string_buffer(it, size)
                call(MAP_LOOKUP, struct.pack("<IIQQQ", file, 0, ctypes.addressof(key), ctypes.addressof(value), 0))
                found.append((index, it, value.raw))
        return sorted(found) if all(row[0] == 1 for row in self.rows) else found

    def close(self) -> None:
        """Gives the program and the maps back."""
        for file in self.files:
            os.close(file)
        self.files = []

    def __enter__(self) -> "Kernel":
        return self

    def __exit__(self, kind: type[BaseException] | None, why: BaseException | None, where: TracebackType | None) -> None:
        self.close()


def last_words(log: bytes) -> str:
    """The line of a verifier log that says why: the last one before its counts."""
    loop = re.search(rb"infinite loop detected at insn \d+", log)
    if loop:
        return loop[0].decode()
    dumps = (
        "processed ",
        "verification time",
        "stack depth",
        "mark_precise",
        "cur state",
        "old state",
        "from ",
        "R",
        "fp",
        ";",
    )
    lines = [it for it in log.decode(errors="replace").splitlines() if it and not it[0].isdigit()]
    said = [it for it in lines if not it.startswith(dumps) or re.match(r"R\d+ [a-z!\d]", it)]
    return said[-1] if said else ""
