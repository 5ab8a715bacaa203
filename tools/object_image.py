"""The parts of an image that an object is made of: its map rows, its functions, and what each slot names."""

import hashlib
import re
import struct
from typing import NamedTuple

HASH, ARRAY = 1, 2  # BPF_MAP_TYPE_HASH, BPF_MAP_TYPE_ARRAY (linux/bpf.h)
MAP, VALUE, LOCAL_CALL = (
    5,
    6,
    1,
)  # src_reg in an image: of a load of a map, of one of a value's address, of a local call
WIDE_LOAD, CALL = 0x18, 0x85  # opcodes
PSEUDO = {MAP: 1, VALUE: 2}  # BPF_PSEUDO_MAP_FD and BPF_PSEUDO_MAP_VALUE (linux/bpf.h), which the kernel is given
NAME_BYTES = 15  # of a name that the kernel keeps: BPF_OBJ_NAME_LEN without the NUL (linux/bpf.h)
NAME = re.compile(r"[A-Za-z_]\w*", re.ASCII)


class Refused(Exception):
    """What is no image, or what an object cannot have."""


class Row(NamedTuple):
    """A map row."""

    kind: int
    key: int
    value: int
    entries: int


class Load(NamedTuple):
    """A wide load of a map, or of an address in the value of an array."""

    kind: int
    map: int
    offset: int


class Slot(NamedTuple):
    """The fields of an instruction."""

    opcode: int
    destination: int
    source: int
    offset: int
    imm: int


class Program:
    """An image's maps and its functions: where each begins, and what each slot names."""

    def __init__(self, data: bytes) -> None:
        if len(data) < 8 or data[:4] not in (b"XBP1", b"XBP2"):
            raise Refused("this is no image")
        maps, count = struct.unpack_from("<HH", data, 4)
        if len(data) != 8 + 12 * maps + 8 * count or not count:
            raise Refused("the image is damaged: its length is not that of its parts")
        self.magic = data[:4].decode()
        self.digest = hashlib.sha256(data).hexdigest()
        self.rows = [Row(*struct.unpack_from("<HHII", data, 8 + 12 * index)) for index in range(maps)]
        self.code = data[8 + 12 * maps :]
        self.count = count
        self.loads: dict[int, Load] = {}
        self.calls: dict[int, int] = {}
        self.instructions: list[int] = []
        self.read()
        self.begins = sorted({0, *self.calls.values()})

    def slot(self, slot: int) -> Slot:
        opcode, registers, offset, imm = struct.unpack_from("<BBhi", self.code, 8 * slot)
        return Slot(opcode, registers & 15, registers >> 4, offset, imm)

    def read(self) -> None:
        """Finds the instructions, and those of them that name a map or a function."""
        slot = 0
        while slot < self.count:
            it = self.slot(slot)
            self.instructions.append(slot)
            if it.opcode == WIDE_LOAD and it.source in (MAP, VALUE):
                self.loads[slot] = Load(it.source, self.known_map(slot, it.imm), self.second(slot))
            elif it.opcode == CALL and it.source == LOCAL_CALL:
                self.calls[slot] = self.known_slot(slot, slot + 1 + it.imm)
            slot += 2 if it.opcode == WIDE_LOAD else 1

    def known_map(self, slot: int, number: int) -> int:
        if not 0 <= number < len(self.rows):
            raise Refused(f"slot {slot} loads map {number}, which the image does not have")
        return number

    def second(self, slot: int) -> int:
        """The imm of the second half of a wide load."""
        if slot + 1 >= self.count:
            raise Refused(f"slot {slot}: the second half of the wide load is missing")
        return self.slot(slot + 1).imm

    def known_slot(self, slot: int, target: int) -> int:
        if target == 0:
            raise Refused(f"slot {slot} calls the program itself (slot 0), which loaders do not link")
        if not 0 < target < self.count:
            raise Refused(f"slot {slot} calls slot {target}, which the image does not have")
        return target

    def kinds(self, number: int) -> set[int]:
        """How the program loads a map: as itself, as an address in its value, both or never."""
        return {it.kind for it in self.loads.values() if it.map == number}

    def is_value(self, number: int) -> bool:
        """Whether a map is an array that the program has as memory: a section of its own in an object."""
        return VALUE in self.kinds(number)

    def end(self, begin: int) -> int:
        """The slot after the function that begins at a slot."""
        return next((it for it in self.begins if it > begin), self.count)

    def is_in_order_of_calls(self) -> bool:
        """Whether the functions are in the order in which image.py links those that it finds: as they are called
        first, the calls of one function after those of the one before."""
        order = [0]
        for begin in order:
            calls = [self.calls[slot] for slot in range(begin, self.end(begin)) if slot in self.calls]
            order += [it for it in dict.fromkeys(calls) if it not in order]
        return order == self.begins


def tags(program: Program) -> list[str]:
    """The tags by which the kernel names the program, from Linux 6.18 on, and before: the first 8 bytes of a hash of
    the code with the maps' numbers left out (bpf_prog_calc_tag, kernel/bpf/core.c)."""
    code = bytearray(program.code)
    for slot, it in program.loads.items():
        code[8 * slot + 1] = code[8 * slot + 1] & 15 | PSEUDO[it.kind] << 4
        struct.pack_into("<i", code, 8 * slot + 4, 0)
        struct.pack_into("<i", code, 8 * slot + 12, 0)
    return [hashlib.new(kind, code).hexdigest()[:16] for kind in ("sha256", "sha1")]


def known_name(name: str) -> str:
    """The name, if the kernel takes it whole: it cuts longer ones."""
    if not NAME.fullmatch(name) or len(name) > NAME_BYTES:
        rule = f"a letter or _ first, then letters, digits and _, {NAME_BYTES} in all at most"
        raise Refused(f"{name!r} is no name: {rule}")
    return name


def map_names(program: Program, given: str | None, own: str) -> list[str]:
    """The maps' names: those given, divided by commas, or map0, map1 and so on. `own` is the program's name."""
    names = given.split(",") if given else [f"map{index}" for index in range(len(program.rows))]
    if len(names) != len(program.rows):
        raise Refused(f"--maps has {len(names)} names, and the image has {len(program.rows)} maps")
    for name in [own, *names]:
        known_name(name)
    if len(set(names)) < len(names):
        raise Refused("two maps have one name")
    if own in names:
        raise Refused(f"the program and a map have one name, {own}")
    return names
