"""Makes an object of an image's program, in the form that libbpf, and so `ip`, `bpftool` and `xdp-loader`, load.

libbpf takes each function of the section xdp for a program, and links those of .text that it calls; maps are variables
of .maps, and an array that the program has as memory is a section of its own, .data.NAME or .bss. """

import os
import struct
from collections.abc import Mapping
from typing import NamedTuple

import object_elf as elf
import object_types as types
from object_image import MAP, VALUE, Program, Refused
from object_types import Line
from sources import Source

SECTION, CALLED = "xdp", ".text"


class Wanted(NamedTuple):
    """What an object is called and has, beside the program; `values` has what maps begin with that are no zeros."""

    name: str
    maps: list[str]
    is_pinned: bool
    license: str | None
    values: Mapping[int, bytes] = {}


class Maker:
    """An object in the making."""

    def __init__(self, program: Program, wanted: Wanted, lines: dict[int, Line]) -> None:
        self.program, self.wanted, self.lines = program, wanted, lines
        self.elf, self.types = elf.Elf(), types.Types()
        self.split = program.end(0)  # the program's own function is before it, and those that are called after it
        self.functions: dict[int, int] = {}  # the symbol of each function, by the slot where it begins
        self.maps: dict[int, int] = {}  # and of each map, by its index

    def object(self) -> bytes:
        code, flags = self.code(), elf.ALLOC | elf.EXEC
        homes = [self.elf.section(SECTION, elf.PROGBITS, flags, code[: 8 * self.split], 8)]
        if self.split < self.program.count:
            homes.append(self.elf.section(CALLED, elf.PROGBITS, flags, code[8 * self.split :], 8))
        for begin in self.program.begins:
            self.function(begin, homes[begin >= self.split])
        self.map_section()
        for index in range(len(self.program.rows)):
            if self.program.is_value(index):
                self.value(index)
        if self.wanted.license:
            body = self.wanted.license.encode() + b"\0"
            self.elf.section("license", elf.PROGBITS, elf.ALLOC | elf.WRITE, body, 1)
        infos = self.infos()
        self.elf.section(".BTF", elf.PROGBITS, 0, self.types.section_bytes(), 4)
        self.elf.section(".BTF.ext", elf.PROGBITS, 0, infos, 4)
        changes = [(home, self.relocations(place)) for place, home in enumerate(homes)]
        return self.elf.file([(home, rows) for home, rows in changes if rows])

    def place(self, slot: int) -> tuple[str, int]:
        """The section that has a slot, and its number there."""
        return (SECTION, slot) if slot < self.split else (CALLED, slot - self.split)

    def code(self) -> bytes:
        """The slots, as a compiler leaves them for a loader to fill in."""
        code = bytearray(self.program.code)
        for slot, load in self.program.loads.items():
            code[8 * slot + 1] &= 15
            struct.pack_into("<i", code, 8 * slot + 4, load.offset if load.kind == VALUE else 0)
            struct.pack_into("<i", code, 8 * slot + 12, 0)
        for slot in self.program.calls:
            if slot < self.split:
                struct.pack_into("<i", code, 8 * slot + 4, -1)
        return bytes(code)

    def relocations(self, place: int) -> list[elf.Relocation]:
        """What the first or the second of the two sections with code names. A call inside .text needs no symbol."""
        found = []
        for slot in self.program.instructions:
            at = 8 * self.place(slot)[1]
            if (slot >= self.split) != bool(place):
                continue
            if slot in self.program.loads:
                found.append(elf.Relocation(at, self.maps[self.program.loads[slot].map], elf.TO_MAP))
            elif slot in self.program.calls and slot < self.split:
                found.append(elf.Relocation(at, self.functions[self.program.calls[slot]], elf.TO_FUNCTION))
        return found

    def called(self, begin: int) -> str:
        """The name of the function that begins at a slot."""
        return f"function_{begin}" if begin else self.wanted.name

    def function(self, begin: int, home: int) -> None:
        at, size = 8 * self.place(begin)[1], 8 * (self.program.end(begin) - begin)
        binding = elf.LOCAL if begin else elf.GLOBAL
        symbol = elf.Symbol(binding, self.called(begin), home, at, size, elf.FUNCTION)
        self.functions[begin] = self.elf.symbol(symbol)

    def map_section(self) -> None:
        """The section .maps: a variable for each map that is no memory of the program's."""
        home, at, variables = len(self.elf.sections), 0, []
        for index, row in enumerate(self.program.rows):
            if self.program.is_value(index):
                continue
            name = self.wanted.maps[index]
            variable, size = self.types.map(name, row, self.wanted.is_pinned)
            self.types.tag(f"xdpvm map {index}", variable)
            self.maps[index] = self.elf.symbol(elf.Symbol(elf.GLOBAL, name, home, at, size, elf.OBJECT))
            variables.append((variable, at, size))
            at += size
        if variables:
            self.elf.section(".maps", elf.PROGBITS, elf.ALLOC | elf.WRITE, bytes(at), 8)
            self.types.section(".maps", at, variables)

    def value(self, index: int) -> None:
        """The section of an array whose value the program has as memory, with the bytes that it begins with; a file has no
        bytes of .bss, which begins as zeros."""
        name, row = self.wanted.maps[index], self.program.rows[index]
        if MAP in self.program.kinds(index):
            both = "loaded both as a map (map_by_idx) and as an address in its value (map_val)"
            raise Refused(f"map {index} ({name}) is {both}: an object has one or the other")
        if row.entries != 1:
            raise Refused(f"map {index} ({name}) is loaded as memory (map_val) and has {row.entries} entries, not one")
        begins = self.wanted.values.get(index)
        is_bss = index == len(self.program.rows) - 1 and begins is None
        section = ".bss" if is_bss else f".data.{name}"
        body, kind = (b"", elf.NOBITS) if is_bss else (begins or bytes(row.value), elf.PROGBITS)
        home = self.elf.section(section, kind, elf.ALLOC | elf.WRITE, body, 8, row.value)
        self.maps[index] = self.elf.symbol(elf.Symbol(elf.GLOBAL, name, home, 0, row.value, elf.OBJECT))
        variable = self.types.variable(name, self.types.plain(row.value, 8))
        self.types.tag(f"xdpvm map {index}", variable)
        self.types.section(section, row.value, [(variable, 0, row.value)])

    def infos(self) -> bytes:
        """.BTF.ext: each function's type and the lines; with it the tag that says which image this is."""
        infos = types.Infos(self.types)
        for begin in self.program.begins:
            linkage = types.STATIC if begin else types.GLOBAL
            arguments = [] if begin else [("context", self.types.context())]
            of = self.types.function(self.called(begin), linkage, arguments)
            if begin == 0:
                self.types.tag(f"xdpvm {self.program.magic} {self.program.digest}", of)
            infos.function(*self.place(begin), of)
        for slot, line in sorted(self.lines.items()):
            infos.line(*self.place(slot), line)
        return infos.section_bytes()


def map_order(program: Program) -> list[int]:
    """The maps' indexes in the order in which libbpf numbers those of the object: .maps, then the sections."""
    return sorted(range(len(program.rows)), key=program.is_value)


def lines_of_text(path: str, program: Program) -> dict[int, Line]:
    """The line of each instruction in the text that the image was assembled of, by its slot."""
    slots = Source.of_text(path).slots
    if len(slots) != program.count:
        raise Refused(f"{path} has {len(slots)} slots, and the image {program.count}: it is not its text")
    found = {}
    for slot in program.instructions:
        place, text = slots[slot] or (path, "")
        file, _, number = place.rpartition(":")
        found[slot] = Line(os.path.abspath(file), int(number), text)
    return found


def lines_of_listing(path: str, program: Program, listing: str) -> dict[int, Line]:
    """The same in the canonical text, as `xdpvm dis` prints it; where there is none a line says the slot. libbpf warns
    of functions without lines."""
    lines = listing.splitlines()
    first = next((place for place, it in enumerate(lines) if not it.startswith(("map ", "version "))), len(lines))
    found = {}
    for place, slot in enumerate(program.instructions, first):
        text = lines[place] if place < len(lines) else f"slot {slot}"
        found[slot] = Line(path, place + 1, text)
    return found
