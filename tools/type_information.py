"""Type information of objects and of the kernel (BTF), as docs.kernel.org/bpf/btf.html describes it."""
import bisect
import struct
from collections.abc import Iterator
from typing import NamedTuple

from objects import Object, Refused, text_at

INT, POINTER, ARRAY, STRUCT, UNION, ENUM, TYPEDEF, VOLATILE, CONST, RESTRICT = 1, 2, 3, 4, 5, 6, 8, 9, 10, 11
PROTOTYPE, VARIABLE, SECTION, TAG, TYPE_TAG, ENUM64 = 13, 14, 15, 17, 18, 19
AFTER = {INT: 4, ARRAY: 12, VARIABLE: 4, TAG: 4}  # bytes after a type
EACH = {STRUCT: 12, UNION: 12, ENUM: 8, PROTOTYPE: 8, SECTION: 12, ENUM64: 12}  # and for each part
QUALIFIERS = (TYPEDEF, VOLATILE, CONST, RESTRICT, TYPE_TAG)
MOST_QUALIFIERS = 32  # of a type, as for libbpf
MOST_LINE = 4096  # bytes of a source line that are kept
RECORD = 16  # bytes of a line or an access of .BTF.ext, at least


class Type(NamedTuple):
    """A type: its name, its kind, its size or the type that it is of, whether its kind's flag is set, and what follows."""

    name: str
    kind: int
    size: int
    flag: bool
    rest: bytes


class Member(NamedTuple):
    """A member of a structure or union: its name, its type, and its place in bits; the width of a bit field, or 0."""

    name: str
    type: int
    bits: int
    width: int


class Types:
    """All types of a section .BTF, by their numbers; 0 is void."""

    def __init__(self, data: bytes) -> None:
        magic, _, _, head, types, length, texts, _ = struct.unpack_from("<HBBIIIII", data, 0)
        if magic != 0xEB9F:
            raise Refused("the type information is damaged")
        self.data, self.texts = data, head + texts
        self.rows: list[tuple[int, int, int, int] | None] = [None]  # name, info, size, where the rest begins
        at, end = head + types, head + types + length
        while at < end:
            name, info, size = struct.unpack_from("<III", data, at)
            self.rows.append((name, info, size, at + 12))
            kind = info >> 24 & 31
            at += 12 + AFTER.get(kind, EACH.get(kind, 0) * (info & 0xFFFF))
        # what was asked for, by the number of the type
        self.type_of: dict[int, Type] = {}
        self.plain_of: dict[int, int] = {}
        self.size_of: dict[int, int] = {}
        self.members_of: dict[int, list[Member]] = {}
        self.values_of: dict[int, dict[str, int]] = {}
        self.named: dict[str, list[int]] | None = None

    def text(self, at: int) -> str:
        return text_at(self.data, self.texts + at)

    def line(self, at: int) -> str:
        """The beginning of a text that may be long."""
        begin = self.texts + at
        if begin >= len(self.data):
            raise Refused("the type information is damaged")
        return self.data[begin : begin + MOST_LINE].partition(b"\0")[0].decode(errors="replace")

    def at(self, number: int) -> Type:
        """The type of a number."""
        if number not in self.type_of:
            self.type_of[number] = self.read_type(number)
        return self.type_of[number]

    def read_type(self, number: int) -> Type:
        """The same, from the bytes."""
        row = self.rows[number]
        if row is None:
            return Type("void", 0, 0, False, b"")
        name, info, size, begin = row
        kind = info >> 24 & 31
        length = AFTER.get(kind, EACH.get(kind, 0) * (info & 0xFFFF))
        return Type(self.text(name), kind, size, bool(info >> 31), self.data[begin : begin + length])

    def plain(self, number: int) -> int:
        """The type without its names and qualifiers."""
        if number not in self.plain_of:
            plain, seen = number, 0
            while self.at(plain).kind in QUALIFIERS:
                plain, seen = self.at(plain).size, seen + 1
                if seen > MOST_QUALIFIERS:
                    raise Refused("the type information is damaged")
            self.plain_of[number] = plain
        return self.plain_of[number]

    def size(self, number: int) -> int:
        """How many bytes a type has."""
        if number not in self.size_of:
            it = self.at(self.plain(number))
            if it.kind == ARRAY:
                of, _, count = struct.unpack("<III", it.rest)
                self.size_of[number] = self.size(of) * int(count)
            else:
                self.size_of[number] = 8 if it.kind == POINTER else it.size
        return self.size_of[number]

    def members(self, number: int) -> list[Member]:
        """The members of a structure or union."""
        if number not in self.members_of:
            self.members_of[number] = self.read_members(number)
        return self.members_of[number]

    def read_members(self, number: int) -> list[Member]:
        """The same, from the bytes."""
        it = self.at(self.plain(number))
        if it.kind not in (STRUCT, UNION):
            return []
        parts = struct.iter_unpack("<III", it.rest)
        if it.flag:
            return [Member(self.text(name), of, place & 0xFFFFFF, place >> 24) for name, of, place in parts]
        return [Member(self.text(name), of, place, 0) for name, of, place in parts]

    def values(self, number: int) -> dict[str, int]:
        """The names of an enumeration, with their values."""
        if number not in self.values_of:
            self.values_of[number] = self.read_values(number)
        return self.values_of[number]

    def read_values(self, number: int) -> dict[str, int]:
        """The same, from the bytes."""
        it = self.at(self.plain(number))
        if it.kind == ENUM:
            form = "<Ii" if it.flag else "<II"
            return {self.text(name): value for name, value in struct.iter_unpack(form, it.rest)}
        found = {}
        for name, low, high in struct.iter_unpack("<III", it.rest if it.kind == ENUM64 else b""):
            value = high << 32 | low
            found[self.text(name)] = value - (1 << 64) if it.flag and high >> 31 else value
        return found

    def pointed(self, number: int) -> dict[str, int]:
        """The members of a structure by name: the types that they point to."""
        return {it.name: self.at(self.plain(it.type)).size for it in self.members(number)}

    def length(self, number: int) -> int:
        """The length of an array type."""
        return int(struct.unpack("<III", self.at(self.plain(number)).rest)[2])

    def variables(self, section: str) -> Iterator[Type]:
        """The variables of a section."""
        for number in range(1, len(self.rows)):
            it = self.at(number)
            if it.kind == SECTION and it.name == section:
                for variable, _, _ in struct.iter_unpack("<III", it.rest):
                    yield self.at(variable)

    def tags(self) -> Iterator[tuple[str, int]]:
        """The tags of declarations: the text of each, and the type that it is of."""
        for number, row in enumerate(self.rows):
            if row and self.kind(number) == TAG:
                yield self.line(row[0]), row[2]

    def numbers(self, name: str, kinds: tuple[int, ...]) -> list[int]:
        """The types of a name and of one of these kinds."""
        if self.named is None:
            self.named = {}
            for at, row in enumerate(self.rows):
                if row and self.kind(at) not in (TAG, TYPE_TAG):
                    self.named.setdefault(self.text(row[0]), []).append(at)
        return [at for at in self.named.get(name, []) if self.kind(at) in kinds]

    def kind(self, number: int) -> int:
        """The kind of a type."""
        row = self.rows[number]
        return row[1] >> 24 & 31 if row else 0


class Line(NamedTuple):
    """A line of a source file, and the column of what an instruction comes from."""

    file: str
    number: int
    column: int
    text: str


class Access(NamedTuple):
    """A record of an instruction whose field, type or value depends on the kernel (CO-RE)."""

    type: int
    path: str
    kind: int


class Extra:
    """What .BTF.ext says of an object's instructions: their source lines, and what depends on the kernel."""

    def __init__(self, it: Object) -> None:
        self.lines: dict[str, dict[int, tuple[int, int, int]]] = {}
        self.places: dict[str, list[int]] = {}
        self.accesses: dict[str, dict[int, Access]] = {}
        data, types = it.body(".BTF.ext"), it.body(".BTF")
        if data is None or types is None:
            return
        self.types = Types(types)
        text = self.types.text
        head = struct.unpack_from("<I", data, 4)[0]
        parts = struct.unpack_from(f"<{min(head, 32) // 4 - 2}I", data, 8)
        for name, place, row in self.rows(data, head, parts[2:4]):
            self.lines.setdefault(name, {})[place] = row
        self.places = {name: sorted(rows) for name, rows in self.lines.items()}
        for name, place, row in self.rows(data, head, parts[4:6]):
            self.accesses.setdefault(name, {})[place] = Access(row[0], text(row[1]), row[2])

    def rows(self, data: bytes, head: int, part: tuple[int, ...]) -> Iterator[tuple[str, int, tuple[int, int, int]]]:
        """The records of a part: the section, the place of the instruction there, and three numbers."""
        if len(part) < 2 or not part[1]:
            return
        at, end = head + part[0], head + part[0] + part[1]
        (size,) = struct.unpack_from("<I", data, at)
        if size < RECORD:
            raise Refused("the type information is damaged")
        at += 4
        while at + 8 <= end:
            text, count = struct.unpack_from("<II", data, at)
            name = self.types.text(text)
            at += 8
            for _ in range(count):
                place, *row = struct.unpack_from("<IIII", data, at)
                yield name, place, (row[0], row[1], row[2])
                at += size

    def at(self, section: str, place: int) -> Line | None:
        """The line that an instruction comes from: the last one that begins at or before it."""
        places = self.places.get(section, [])
        before = bisect.bisect_right(places, place)
        if not before:
            return None
        file, line, column = self.lines[section][places[before - 1]]
        return Line(self.types.line(file), column >> 10, column & 1023, self.types.line(line).strip())
