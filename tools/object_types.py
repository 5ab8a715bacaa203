"""Writes the type information (BTF) of an object, and its lines: the sections .BTF and .BTF.ext.

The layouts and the numbers of kinds are those of the kernel's page on BTF (Documentation/bpf/btf.rst); how a map is
described by a structure of pointers is libbpf's (`__uint` and `__type` of bpf_helpers.h, parse_btf_map_def of
libbpf.c). """

import struct
from collections.abc import Sequence
from typing import NamedTuple

from object_image import ARRAY, Row
from type_information import ARRAY as ARRAY_OF
from type_information import INT, POINTER, PROTOTYPE, SECTION, STRUCT, TAG, VARIABLE

MAGIC, VERSION, HEAD = 0xEB9F, 1, 24  # struct btf_header, and the part of struct btf_ext_header that has line info
FUNCTION = 12  # BTF_KIND_FUNC
SIGNED = 1  # BTF_INT_SIGNED
STATIC, GLOBAL = 0, 1  # BTF_FUNC_STATIC and BTF_FUNC_GLOBAL, BTF_VAR_GLOBAL_ALLOCATED
WHOLE = -1  # component_idx of a tag that is of no member or argument
PIN_BY_NAME = 1  # LIBBPF_PIN_BY_NAME
WORDS = {8: "__u64", 4: "__u32", 1: "__u8"}
# struct xdp_md (linux/bpf.h)
CONTEXT = ["data", "data_end", "data_meta", "ingress_ifindex", "rx_queue_index", "egress_ifindex"]


class Line(NamedTuple):
    """The line of the source that an instruction is of."""

    file: str
    number: int
    text: str


class Texts:
    """A table of strings, each once, that begins with the empty one."""

    def __init__(self) -> None:
        self.bytes, self.places = bytearray(b"\0"), {"": 0}

    def at(self, text: str) -> int:
        if text not in self.places:
            self.places[text] = len(self.bytes)
            self.bytes += text.replace("\0", " ").encode(errors="replace") + b"\0"
        return self.places[text]


class Types:
    """The types of an object, each once; a type is known by its number, from 1 on."""

    def __init__(self) -> None:
        self.texts, self.body = Texts(), bytearray()
        self.known: dict[bytes, int] = {}

    def add(self, name: str, kind: int, parts: int, size: int, rest: bytes = b"") -> int:
        """struct btf_type: `parts` is vlen, or for a function its linkage; `size` is size or type."""
        row = struct.pack("<III", self.texts.at(name), kind << 24 | parts, size) + rest
        if row not in self.known:
            self.known[row] = len(self.known) + 1
            self.body += row
        return self.known[row]

    def integer(self, name: str, size: int, signs: int = 0) -> int:
        return self.add(name, INT, 0, size, struct.pack("<I", signs << 24 | 8 * size))

    def word(self, size: int) -> int:
        return self.integer(WORDS[size], size)

    def number(self) -> int:
        return self.integer("int", 4, SIGNED)

    def pointer(self, to: int) -> int:
        return self.add("", POINTER, 0, to)

    def array(self, of: int, count: int) -> int:
        """struct btf_array: the element's type, the index's, and how many there are."""
        return self.add("", ARRAY_OF, 0, 0, struct.pack("<III", of, self.word(4), count))

    def structure(self, name: str, size: int, members: Sequence[tuple[str, int, int]]) -> int:
        """`members` are triples: a name, a type, an offset in bytes."""
        rows = [struct.pack("<III", self.texts.at(part), of, 8 * at) for part, of, at in members]
        return self.add(name, STRUCT, len(members), size, b"".join(rows))

    def said(self, number: int) -> int:
        """How the definition of a map says a number (`__uint`): as a pointer to an array of that length."""
        return self.pointer(self.array(self.number(), number))

    def plain(self, size: int, most: int) -> int:
        """The type of a key or a value of so many bytes: a number, or an array of numbers, of at most `most` bytes."""
        width = next(it for it in (8, 4, 1) if it <= most and size % it == 0)
        return self.word(width) if width == size else self.array(self.word(width), size // width)

    def map(self, name: str, row: Row, is_pinned: bool) -> tuple[int, int]:
        """A map's variable, and its size in .maps. The key of an array is a number, since bpftool wants that; that of
        a hash map is bytes, since most are addresses and ports as packets have them."""
        members = [("type", self.said(row.kind)), ("max_entries", self.said(row.entries))]
        members.append(("key", self.pointer(self.plain(row.key, 4 if row.kind == ARRAY else 1))))
        members.append(("value", self.pointer(self.plain(row.value, 8))))
        if is_pinned:
            members.append(("pinning", self.said(PIN_BY_NAME)))
        placed = [(part, of, 8 * place) for place, (part, of) in enumerate(members)]
        return self.variable(name, self.structure("", 8 * len(members), placed)), 8 * len(members)

    def variable(self, name: str, of: int) -> int:
        return self.add(name, VARIABLE, 0, of, struct.pack("<I", GLOBAL))

    def section(self, name: str, size: int, variables: Sequence[tuple[int, int, int]]) -> None:
        """struct btf_var_secinfo: `variables` are triples of a variable, its offset and its size."""
        self.add(name, SECTION, len(variables), size, b"".join(struct.pack("<III", *it) for it in variables))

    def function(self, name: str, linkage: int, arguments: Sequence[tuple[str, int]]) -> int:
        """A function that returns an int; struct btf_param: `arguments` are pairs of a name and a type."""
        rows = [struct.pack("<II", self.texts.at(argument), of) for argument, of in arguments]
        return self.add(name, FUNCTION, linkage, self.add("", PROTOTYPE, len(rows), self.number(), b"".join(rows)))

    def tag(self, text: str, of: int) -> None:
        """A tag of a function or a variable (btf_decl_tag), which the kernel keeps: `bpftool btf dump` shows it."""
        self.add(text, TAG, 0, of, struct.pack("<i", WHOLE))

    def context(self) -> int:
        """The type of the program's argument."""
        members = [(name, self.word(4), 4 * place) for place, name in enumerate(CONTEXT)]
        return self.pointer(self.structure("xdp_md", 4 * len(CONTEXT), members))

    def section_bytes(self) -> bytes:
        """The section .BTF: its header, the types, the strings."""
        sizes = (0, len(self.body), len(self.body), len(self.texts.bytes))
        return struct.pack("<HBBIIIII", MAGIC, VERSION, 0, HEAD, *sizes) + self.body + self.texts.bytes


class Infos:
    """The section .BTF.ext: the types of functions and the lines of instructions, by section."""

    def __init__(self, types: Types) -> None:
        self.types = types
        self.functions: dict[str, list[tuple[int, ...]]] = {}
        self.lines: dict[str, list[tuple[int, ...]]] = {}

    def function(self, section: str, slot: int, of: int) -> None:
        """struct bpf_func_info, with its place in bytes, as in an object."""
        self.functions.setdefault(section, []).append((8 * slot, of))

    def line(self, section: str, slot: int, line: Line) -> None:
        """struct bpf_line_info; the column, in the lower 10 bits, is not said."""
        at = self.types.texts.at
        self.lines.setdefault(section, []).append((8 * slot, at(line.file), at(line.text), line.number << 10))

    def part(self, size: int, sections: dict[str, list[tuple[int, ...]]]) -> bytes:
        """rec_size, and then for each section struct btf_ext_info_sec and its records."""
        out = struct.pack("<I", size)
        for name, rows in sections.items():
            out += struct.pack("<II", self.types.texts.at(name), len(rows))
            out += b"".join(struct.pack(f"<{size // 4}I", *row) for row in rows)
        return out

    def section_bytes(self) -> bytes:
        """The section; made before `Types.section_bytes`, since it names strings."""
        functions, lines = self.part(8, self.functions), self.part(16, self.lines)
        sizes = (0, len(functions), len(functions), len(lines))
        return struct.pack("<HBBIIIII", MAGIC, VERSION, 0, HEAD, *sizes) + functions + lines
