"""Writes an ELF object for BPF: sections, symbols and relocations.

The layouts are those of elf(5), and the numbers for BPF those of the kernel's page on relocations
(Documentation/bpf/llvm_reloc.rst).
"""

import struct
from collections.abc import Sequence
from typing import NamedTuple

from object_types import Texts
from objects import FUNCTION_SYMBOL, LOCAL_CALL, MACHINE, NO_BITS, OBJECT_SYMBOL, RELOCATIONS, SYMBOLS, WIDE_LOAD

PROGBITS, SYMTAB, STRTAB, NOBITS, REL = 1, SYMBOLS, 3, NO_BITS, RELOCATIONS  # SHT_*
WRITE, ALLOC, EXEC = 1, 2, 4  # SHF_*
LOCAL, GLOBAL = 0, 1  # STB_*
OBJECT, FUNCTION = OBJECT_SYMBOL, FUNCTION_SYMBOL  # STT_*
TO_MAP, TO_FUNCTION = WIDE_LOAD, LOCAL_CALL  # R_BPF_64_64, R_BPF_64_32
ET_REL = 1
CLASS_64, LITTLE_ENDIAN, EV_CURRENT = 2, 1, 1
HEAD, SECTION_HEAD, SYMBOL, RELOCATION = 64, 64, 24, 16  # bytes of Elf64_Ehdr, _Shdr, _Sym and _Rel


class Section(NamedTuple):
    """A section, with the fields of its Elf64_Shdr that are not computed."""

    name: str
    kind: int
    flags: int
    body: bytes
    align: int
    link: int
    info: int
    size: int


class Symbol(NamedTuple):
    """A symbol, with the fields of its Elf64_Sym."""

    binding: int
    name: str
    section: int
    value: int
    size: int
    kind: int


class Relocation(NamedTuple):
    """What a place of a section names: the symbol by its key."""

    at: int
    symbol: int
    kind: int


class Elf:
    """Sections and symbols of an object, in the order in which they are added."""

    def __init__(self) -> None:
        self.sections = [Section("", 0, 0, b"", 0, 0, 0, 0)]
        self.texts = Texts()
        self.symbols: list[Symbol] = []

    def section(self, name: str, kind: int, flags: int, body: bytes, align: int, size: int = 0) -> int:
        """Adds a section, and returns its number. `size` is that of a section without bytes."""
        self.sections.append(Section(name, kind, flags, body, align, 0, 0, size or len(body)))
        return len(self.sections) - 1

    def symbol(self, it: Symbol) -> int:
        """Adds a symbol, and returns its key: its number depends on how many local ones there are in the end."""
        self.symbols.append(it)
        return len(self.symbols) - 1

    def file(self, relocations: Sequence[tuple[int, Sequence[Relocation]]]) -> bytes:
        """The object. `relocations` are those of each section that has some. Local symbols come first, as elf(5)
        wants."""
        order = sorted(range(len(self.symbols)), key=lambda key: self.symbols[key].binding)
        numbers = {key: 1 + place for place, key in enumerate(order)}
        rows = [bytes(SYMBOL)]
        for key in order:
            it = self.symbols[key]
            info = it.binding << 4 | it.kind
            rows.append(struct.pack("<IBBHQQ", self.texts.at(it.name), info, 0, it.section, it.value, it.size))
        table = len(self.sections) + len(relocations)
        for target, places in relocations:
            body = b"".join(struct.pack("<QQ", it.at, numbers[it.symbol] << 32 | it.kind) for it in places)
            name = ".rel" + self.sections[target].name
            self.sections.append(Section(name, REL, 0, body, 8, table, target, len(body)))
        local = 1 + sum(1 for it in self.symbols if it.binding == LOCAL)
        body = b"".join(rows)
        self.sections.append(Section(".symtab", SYMTAB, 0, body, 8, table + 1, local, len(body)))
        for section in self.sections:
            self.texts.at(section.name)
        self.texts.at(".strtab")
        self.section(".strtab", STRTAB, 0, bytes(self.texts.bytes), 1)
        return self.written()

    def written(self) -> bytes:
        """The header, the sections' bytes, and their headers."""
        out, heads = bytearray(HEAD), b""
        for it in self.sections:
            out += bytes(-len(out) % max(it.align, 1))
            each = {REL: RELOCATION, SYMTAB: SYMBOL}.get(it.kind, 0)
            name, place = self.texts.at(it.name), len(out) if it.kind else 0
            sizes = (it.size, it.link, it.info, it.align, each)
            heads += struct.pack("<IIQQQQIIQQ", name, it.kind, it.flags, 0, place, *sizes)
            out += it.body
        out += bytes(-len(out) % 8)
        magic = b"\x7fELF" + bytes([CLASS_64, LITTLE_ENDIAN, EV_CURRENT])
        table = (SECTION_HEAD, len(self.sections), len(self.sections) - 1)
        parts = (magic, ET_REL, MACHINE, EV_CURRENT, 0, 0, len(out), 0, HEAD, 0, 0, *table)
        struct.pack_into("<16sHHIQQQIHHHHHH", out, 0, *parts)
        return bytes(out) + heads
