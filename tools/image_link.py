"""Links the functions of an object to the slots of an image, and applies all that they name: maps, variables,
constants, functions, and what depends on the kernel."""

import struct
from typing import NamedTuple, TypeVar

import image_maps
from core_relocations import Kernel, context_differs
from image_maps import ARRAY, MOST_VALUE
from image_values import is_of_values, lines_of, value_of, words_for
from objects import (
    EXECUTABLE,
    FUNCTION_SYMBOL,
    LOCAL_CALL,
    OBJECT_SYMBOL,
    SECTION_SYMBOL,
    WIDE_LOAD,
    Object,
    Refused,
    Relocation,
    Symbol,
)
from type_information import Access, Extra, Line, Types

Found = TypeVar("Found")
MAP, VALUE, FUNCTION = 5, 6, 1  # src_reg of a wide load of a map, of one of a value, of a local call
MOST_SLOTS = 4096


class Image(NamedTuple):
    """The parts of an image; `lines` has a source line or nothing for each slot, `names` the names of the maps, `fill`
    the map lines of what its variables and constants begin with, `notes` what is said of maps whose type became
    another."""

    rows: list[bytes]
    slots: bytes
    lines: list[Line | None]
    names: list[str]
    magic: bytes
    fill: str
    notes: list[str]


def tagged(it: Object) -> tuple[bytes, dict[str, int]]:
    """What the declaration tags of an object say of the image that it was made of: its magic, or that of version 1, and
    the index of each map, by its variable's name."""
    data, magic, indexes = it.body(".BTF"), b"XBP1", {}
    types = Types(data) if data is not None else None
    for tag, of in types.tags() if types else ():
        words = tag.split(" ")
        if types and words[:2] == ["xdpvm", "map"]:
            indexes[types.at(of).name] = int(words[2])
        elif words[:2] == ["xdpvm", "XBP2"]:
            magic = b"XBP2"
    return magic, indexes


def inside(found: dict[int, Found], function: Symbol) -> dict[int, Found]:
    """What is known of the places of a function."""
    places = range(function.value, function.value + function.size)
    if len(found) < len(places):
        return {at: it for at, it in found.items() if at in places}
    return {at: found[at] for at in places if at in found}


class Linker:
    """Functions put one after the other, from the program's on, and what they name."""

    def __init__(self, it: Object, kernel: Kernel, lru_as_hash: bool = False) -> None:
        self.it, self.extra, self.kernel = it, Extra(it), kernel
        self.maps = image_maps.maps_of(it, lru_as_hash)
        self.begins: dict[tuple[int, int], int] = {}
        self.waiting: list[Symbol] = []
        self.slots = bytearray()
        self.origins: list[tuple[int, int]] = []
        self.variables: dict[int, int] = {}  # the map of each section of variables or constants
        self.loads: list[int] = []  # the slots that name a map

    def where(self, section: int, at: int) -> str:
        """The words that say where in the source an instruction is."""
        functions = [it for it in self.it.functions(section).values() if it.value <= at < it.value + it.size]
        line = self.extra.at(self.it.names[section], at)
        said = f"in {functions[0].name}" if functions else f"in section {self.it.names[section]}"
        return said + (f", {line.file}:{line.number}" if line else "")

    def begin(self, function: Symbol) -> int:
        """Where a function begins in the image; it is put there if it is not there yet."""
        key = (function.section, function.value)
        if key not in self.begins:
            body = self.it.bodies[function.section][function.value : function.value + function.size]
            if len(body) != function.size or function.size % 8:
                raise Refused(f"the function {function.name} is not inside its section")
            self.begins[key] = len(self.slots) // 8
            self.slots += body
            self.origins += [(function.section, function.value + 8 * k) for k in range(function.size // 8)]
            if len(self.slots) // 8 > MOST_SLOTS:
                raise Refused(f"the program has over {MOST_SLOTS:,} slots")
            self.waiting.append(function)
        return self.begins[key]

    def refuse_lost_records(self) -> None:
        """gcc 12 leaves out the records of some fields, so an object of its own that has any is refused, and so is one
        whose context is not Linux's, unless clang recorded each use."""
        data, by_clang = self.it.body(".BTF"), self.it.has_addresses() is False
        if self.extra.accesses and not by_clang:
            raise Refused(
                "it has records of fields that depend on the kernel (CO-RE), and gcc leaves some out: compile it with clang"
            )
        field = context_differs(Types(data)) if data is not None else None
        if field and not self.extra.accesses:
            raise Refused(f"its struct xdp_md has {field} where Linux has none, and no record (CO-RE) says so")

    def link(self, function: Symbol) -> Image:
        """The image of a program, with all functions that it calls."""
        self.refuse_lost_records()
        self.begin(function)
        while self.waiting:
            self.link_function(self.waiting.pop(0))
        magic, indexes = tagged(self.it)
        self.sort(indexes)
        lines = [self.extra.at(self.it.names[section], at) for section, at in self.origins]
        fill = lines_of({index: value_of(self.it, section) for section, index in self.variables.items()})
        return Image(self.maps.rows, bytes(self.slots), lines, self.maps.names, magic, fill, self.maps.notes)

    def sort(self, indexes: dict[str, int]) -> None:
        """Gives the maps the indexes that tags say, if they say one of each."""
        maps, variables = self.maps, {index: self.it.variable(section, 0) for section, index in self.variables.items()}
        order = [indexes.get(variables.get(place) or name, -1) for place, name in enumerate(maps.names)]
        if sorted(order) == list(range(len(order))):
            for slot in self.loads:
                (number,) = struct.unpack_from("<i", self.slots, 8 * slot + 4)
                struct.pack_into("<i", self.slots, 8 * slot + 4, order[number])
            maps.rows = [maps.rows[order.index(place)] for place in range(len(order))]
            maps.names = [maps.names[order.index(place)] for place in range(len(order))]
            self.variables = {section: order[index] for section, index in self.variables.items()}

    def link_function(self, one: Symbol) -> None:
        """Applies all that is named in a function; what is left over is refused."""
        begin, wide = self.begins[one.section, one.value], False
        named = inside(self.it.relocations(one.section), one)
        asked = inside(self.extra.accesses.get(self.it.names[one.section], {}), one)
        for k in range(one.size // 8):
            opcode, registers = self.slots[8 * (begin + k)], self.slots[8 * (begin + k) + 1]
            at = one.value + 8 * k
            if not wide:
                if at in asked:
                    self.access(begin + k, one.section, at, asked.pop(at), opcode)
                if opcode == 0x85 and (at in named or registers >> 4 == FUNCTION):
                    self.call(begin + k, one.section, at, named.pop(at, None))
                elif opcode == 0x18 and at in named:
                    self.load(begin + k, one.section, at, named.pop(at))
            wide = opcode == 0x18 and not wide
        for at, it in named.items():
            raise Refused(f"{self.called(it.symbol)} is named {self.where(one.section, at)}, in an instruction that names nothing")
        for at in asked:
            raise Refused(f"a field is asked for {self.where(one.section, at)}, where no instruction begins")

    def access(self, slot: int, section: int, at: int, access: Access, opcode: int) -> None:
        """What depends on the kernel: the offset of a load or store, the number of an addition, a move or a wide
        load."""
        try:
            before, after, called = self.kernel.resolved(self.extra.types, access)
        except Refused as why:
            raise Refused(f"{self.where(section, at)}: {why}") from None
        place = 8 * slot
        if opcode & 7 in (1, 2, 3):
            is_wrong = struct.unpack_from("<h", self.slots, place + 2)[0] != before or not -(1 << 15) <= after < 1 << 15
            new, form, there = after, "<h", place + 2
        else:
            is_known = opcode == 0x18 or opcode & 7 in (4, 7) and not opcode & 8
            is_wrong = (
                not is_known or struct.unpack_from("<i", self.slots, place + 4)[0] != before or not -(1 << 31) <= after < 1 << 31
            )
            new, form, there = after, "<i", place + 4
        if is_wrong:
            raise Refused(f"{called} is asked for {self.where(section, at)}, in an instruction of a form that is not known here")
        struct.pack_into(form, self.slots, there, new)

    def called(self, symbol: Symbol) -> str:
        """The words for a symbol."""
        return symbol.name or self.it.section_name(symbol.section) or "a symbol"

    def call(self, slot: int, section: int, at: int, named: Relocation | None) -> None:
        """A local call: by the function's own symbol, by its section's with its offset in imm, or
        in its own section."""
        (imm,) = struct.unpack_from("<i", self.slots, 8 * slot + 4)
        symbol = named.symbol if named else None
        if symbol is None or named is None:
            home, place = section, at + 8 * (imm + 1)
        elif symbol.section == 0:
            raise Refused(f"{symbol.name} is called {self.where(section, at)}, and the object does not have it")
        elif symbol.kind == FUNCTION_SYMBOL and named.kind == LOCAL_CALL:
            home, place = symbol.section, symbol.value
        elif symbol.kind == SECTION_SYMBOL and named.kind == LOCAL_CALL:
            home, place = symbol.section, 8 * (imm + 1)
        else:
            raise Refused(f"the call {self.where(section, at)} names {symbol.name or 'a symbol'} in a form that is not known here")
        target = self.it.functions(home).get(place)
        if target is None:
            raise Refused(
                f"the call {self.where(section, at)} leads to byte {place} of {self.it.names[home]}, where no function" " begins"
            )
        begin = self.begin(target)
        self.slots[8 * slot + 1] = self.slots[8 * slot + 1] & 15 | FUNCTION << 4
        struct.pack_into("<i", self.slots, 8 * slot + 4, begin - slot - 1)

    def load(self, slot: int, section: int, at: int, named: Relocation) -> None:
        """A wide load of a map or of a variable."""
        symbol, place = named.symbol, 8 * slot
        name = self.it.section_name(symbol.section)
        self.refuse_function(slot, section, at, symbol)
        value = self.address(slot, section, at, named)
        if name == ".maps" and value in self.maps.numbers:
            kind, number, offset = MAP, self.maps.numbers[value], 0
        elif is_of_values(name):
            kind, number, offset = VALUE, self.variable(section, at, symbol.section, value), value
        else:
            raise Refused(f"{self.called(symbol)} is named {self.where(section, at)}, which an image cannot have")
        self.slots[place + 1] = self.slots[place + 1] & 15 | kind << 4
        struct.pack_into("<i", self.slots, place + 4, number)
        struct.pack_into("<i", self.slots, place + 12, offset)
        self.loads.append(slot)

    def refuse_function(self, slot: int, section: int, at: int, symbol: Symbol) -> None:
        """Refuses what is no map and no variable: the address of a function, and a name that is of another object."""
        if symbol.section == 0:
            raise Refused(f"{self.called(symbol)} is named {self.where(section, at)}, and the object does not have it")
        if symbol.section < len(self.it.flags) and self.it.flags[symbol.section] & EXECUTABLE:
            (written,) = struct.unpack_from("<i", self.slots, 8 * slot + 4)
            function = self.it.functions(symbol.section).get(symbol.value if symbol.kind == FUNCTION_SYMBOL else written)
            raise Refused(
                f"the address of {function.name if function else 'a function'} is taken {self.where(section, at)}:"
                " a function of an image can only be called"
            )

    def variable(self, section: int, at: int, home: int, value: int) -> int:
        """The index of the map of a section of variables or constants, in which an instruction names a byte."""
        name, size = self.it.names[home], self.it.sizes[home]
        if not 0 <= value < size:
            raise Refused(f"byte {value} of {name} is named {self.where(section, at)}, and it has {size}")
        if home not in self.variables:
            if size > MOST_VALUE:
                raise Refused(
                    f"{words_for(self.it, home, value)} is used {self.where(section, at)}: its section {name} has"
                    f" {size:,} bytes, and a map's value has at most {MOST_VALUE:,}; give some of what is in it a"
                    f' section of its own, as __attribute__((section("{"." + name.split(".")[1]}.NAME")))'
                )
            self.variables[home] = self.maps.add(name, struct.pack(image_maps.ROW, ARRAY, 4, size, 1))
        return self.variables[home]

    def address(self, slot: int, section: int, at: int, named: Relocation) -> int:
        """The place in its section that a wide load names. What clang writes into the instruction is added to the
        symbol's value; what gcc's assembler writes there is the place."""
        low, high = (int(struct.unpack_from("<I", self.slots, 8 * slot + there)[0]) for there in (4, 12))
        written = high << 32 | low
        if high == 0 and low >> 31 or written >> 63:
            written -= 1 << (32 if high == 0 else 64)
        symbol = named.symbol
        if named.kind != WIDE_LOAD or symbol.kind not in (OBJECT_SYMBOL, SECTION_SYMBOL) and symbol.section != 0:
            raise Refused(f"{self.called(symbol)} is named {self.where(section, at)} in a form that is not known here")
        if symbol.kind == SECTION_SYMBOL or not symbol.value:
            return symbol.value + written
        has_addresses = self.it.has_addresses()
        if not written and not has_addresses:
            return symbol.value
        if not written:
            raise Refused(f"{symbol.name} is named {self.where(section, at)} by an address that is not its own")
        if has_addresses is None:
            raise Refused(
                f"{symbol.name} is named {self.where(section, at)} with the number {written}, and the object does not"
                " say which compiler made it: clang's is a distance from the variable, gcc's an address"
            )
        return written if has_addresses else symbol.value + written
