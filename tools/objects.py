"""Object files for BPF: the sections, symbols and relocations of an ELF file, and which compiler made it."""
import struct
from typing import NamedTuple

RELOCATIONS, SYMBOLS, NO_BITS, WITH_ADDENDS = 9, 2, 8, 4  # types of sections: SHT_REL, SHT_SYMTAB, SHT_NOBITS, SHT_RELA
EXECUTABLE = 4  # a flag of sections: SHF_EXECINSTR
OBJECT_SYMBOL, FUNCTION_SYMBOL, SECTION_SYMBOL = 1, 2, 3  # kinds of symbols: STT_OBJECT, STT_FUNC, STT_SECTION
WIDE_LOAD, LOCAL_CALL = 1, 10  # types of relocations: R_BPF_64_64, R_BPF_64_32
MACHINE = 247  # EM_BPF
SECTION_HEAD = "<IIQQQQIIQQ"  # Elf64_Shdr
MOST_NAME = 1023  # bytes of a name


class Refused(Exception):
    """What an image cannot have, or a file that is not such an object."""


class Symbol(NamedTuple):
    """A name of an object, with its section and its place there."""

    name: str
    section: int
    value: int
    size: int
    kind: int


class Relocation(NamedTuple):
    """What an instruction names, and how."""

    symbol: Symbol
    kind: int


def text_at(data: bytes, at: int) -> str:
    """The name at a place, which ends before a byte 0."""
    return data[at : data.index(b"\0", at, at + MOST_NAME + 1)].decode()


class Object:
    """The sections and symbols of an ELF file."""

    def __init__(self, data: bytes) -> None:
        if data[:4] != b"\x7fELF":
            raise Refused("this is no object file")
        if data[4:6] != b"\2\1" or struct.unpack_from("<H", data, 18)[0] != MACHINE:
            raise Refused("this is no object file for BPF, little-endian (clang -target bpf makes one)")
        (table,) = struct.unpack_from("<Q", data, 40)
        size, count, names = struct.unpack_from("<HHH", data, 58)
        if size != struct.calcsize(SECTION_HEAD):
            raise Refused(f"the heads of its sections have {size} bytes, a form that is not known here")
        rows = [struct.unpack_from(SECTION_HEAD, data, table + size * i) for i in range(count)]
        if sum(row[5] for row in rows if row[1] != NO_BITS) > len(data):
            raise Refused("its sections have more bytes than the file")
        self.names = [text_at(data, rows[names][4] + row[0]) for row in rows]
        self.types: list[int] = [row[1] for row in rows]
        self.flags: list[int] = [row[2] for row in rows]
        self.sizes: list[int] = [row[5] for row in rows]
        self.bodies = [data[row[4] : row[4] + row[5]] if row[1] != NO_BITS else b"" for row in rows]
        self.targets: list[int] = [row[7] for row in rows]
        self.symbols: list[Symbol] = []
        for i, row in enumerate(rows):
            if row[1] == SYMBOLS:
                texts = self.bodies[row[6]]
                for name, info, _, section, value, length in struct.iter_unpack("<IBBHQQ", self.bodies[i]):
                    self.symbols.append(Symbol(text_at(texts, name), section, value, length, info & 15))
        self.functions_of: dict[int, dict[int, Symbol]] = {}
        for one in self.symbols:
            if one.kind == FUNCTION_SYMBOL:
                self.functions_of.setdefault(one.section, {})[one.value] = one
        self.relocations_of: dict[int, dict[int, Relocation]] = {}
        self.by_gcc = self.made_by_gcc()

    def section(self, name: str) -> int | None:
        return self.names.index(name) if name in self.names else None

    def body(self, name: str) -> bytes | None:
        """The bytes of the section of that name, if there is one."""
        at = self.section(name)
        return None if at is None else self.bodies[at]

    def section_name(self, section: int) -> str:
        """The name of a section, or nothing where the number is none of one."""
        return self.names[section] if section < len(self.names) else ""

    def relocations(self, section: int) -> dict[int, Relocation]:
        """The relocations of a section, by their offset."""
        if section not in self.relocations_of:
            self.relocations_of[section] = self.read_relocations(section)
        return self.relocations_of[section]

    def read_relocations(self, section: int) -> dict[int, Relocation]:
        """The same, from the bytes of the object."""
        found: dict[int, Relocation] = {}
        for i, kind in enumerate(self.types):
            if self.targets[i] != section or kind not in (RELOCATIONS, WITH_ADDENDS):
                continue
            if kind == WITH_ADDENDS:
                raise Refused(f"the relocations {self.names[i]} have addends of their own, a form that is not known here")
            for at, info in struct.iter_unpack("<QQ", self.bodies[i]):
                if at in found:
                    raise Refused(f"byte {at} of {self.names[section]} has two relocations")
                found[at] = Relocation(self.symbols[info >> 32], info & 0xFFFFFFFF)
        return found

    def functions(self, section: int) -> dict[int, Symbol]:
        """The functions of a section, by where they begin."""
        return self.functions_of.get(section, {})

    def variable(self, section: int, at: int) -> str | None:
        """The name of the variable at an offset of a section, if it has one."""
        for it in self.symbols:
            if it.section == section and it.kind == OBJECT_SYMBOL and it.value <= at < it.value + max(it.size, 1):
                return it.name
        return None

    def has_addresses(self) -> bool | None:
        """Whether an instruction that names a variable by its own symbol has the variable's address, as gcc's assembler
        writes it, and not the distance from it, as clang does. None: the object does not say who made it."""
        return self.by_gcc

    def made_by_gcc(self) -> bool | None:
        """Whether gcc made it, and not clang, as it says itself."""
        comment, debug = self.body(".comment") or b"", self.body(".debug_str") or b""
        by_clang = ".llvm_addrsig" in self.names or b"clang version" in comment + debug
        by_gcc = b"GCC: (" in comment or b"GNU C" in debug
        return by_gcc if by_clang != by_gcc else None
