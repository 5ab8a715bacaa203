"""Objects of at most a megabyte that are made to keep a tool busy or to take much memory: parts that overlap, long names, long
chains, many of each thing."""

import struct
from collections.abc import Iterator, Sequence

from common import insn
from object_elf import ALLOC, EXEC, FUNCTION, GLOBAL, PROGBITS, Elf, Relocation, Symbol

ROOM = 900_000  # bytes of the part that is large
CODE, EXIT = insn(0xB7, 0, imm=2), insn(0x95)
TYPEDEF, STRUCT, INT, TYPED = 8 << 24, 4 << 24, 1 << 24, struct.pack("<III", 1, 1 << 24, 4) + struct.pack("<I", 32)


def raw(heads: Sequence[tuple[int, ...]], body: bytes, head: int = 64) -> bytes:
    """An object of these heads of sections (name, type, flags, place, size, link), whose names are at its beginning; `head` is how
    many bytes a head is said to have."""
    rows = b"".join(
        struct.pack("<IIQQQQIIQQ", name, kind, flags, 0, at, size, link, 0, 1, 24) for name, kind, flags, at, size, link in heads
    )
    parts = (b"\x7fELF\2\1\1", 1, 247, 1, 0, 0, 64 + len(body), 0, 64, 0, 0, head, len(heads) or 65535, 0)
    return struct.pack("<16sHHIQQQIHHHHHH", *parts) + body + rows


def btf(types: bytes, texts: bytes) -> bytes:
    """Type information of these types and texts."""
    return struct.pack("<HBBIIIII", 0xEB9F, 1, 0, 24, 0, len(types), len(types), len(texts)) + types + texts


def ext(lines: bytes, accesses: bytes) -> bytes:
    """What .BTF.ext says: lines, and what depends on the kernel."""
    return struct.pack("<HBB7I", 0xEB9F, 1, 0, 32, 0, 0, 0, len(lines), len(lines), len(accesses)) + lines + accesses


def program(
    code: bytes, types: bytes = b"", more: bytes = b"", functions: list[tuple[int, int]] | None = None, far: int = 0
) -> bytes:
    """An object whose section xdp has this code, with its functions (place and size), type information, and what is said of its
    lines and accesses. `far` symbols more are in a section of their own."""
    made = Elf()
    home = made.section("xdp", PROGBITS, ALLOC | EXEC, code, 8)
    for number, (at, size) in enumerate(functions or [(0, len(code))]):
        made.symbol(Symbol(GLOBAL, f"f{number}", home, at, size, FUNCTION))
    other = made.section("others", PROGBITS, ALLOC | EXEC, EXIT * max(far, 1), 8)
    named = [made.symbol(Symbol(GLOBAL, f"o{number}", other, 8 * number, 8, FUNCTION)) for number in range(far)]
    made.section(".llvm_addrsig", PROGBITS, 0, b"", 1)
    if types:
        made.section(".BTF", PROGBITS, 0, types, 4)
        made.section(".BTF.ext", PROGBITS, 0, more, 4)
    calls = [at for at in range(0, len(code), 8) if code[at] == 0x85] if far else []
    return made.file([(home, [Relocation(at, named[number], 10) for number, at in enumerate(calls)])] if calls else [])


def overlapping() -> Iterator[tuple[str, bytes]]:
    """Sections, names and symbols that lie over one another."""
    body = b"\0a\0" + b"b" * (ROOM // 2) + b"\0" * 8
    size = len(body)
    yield "sections that overlap", raw([(0, 1, 0, 64, size, 0)] * (ROOM // 2 // 64), body)
    yield "heads of sections without bytes", raw([], body, 0)
    yield "long names of sections", raw([(0, 1, 0, 64, size, 0), *[(3, 1, 0, 64, 0, 0)] * (ROOM // 2 // 64)], body)
    symbols = struct.pack("<IBBHQQ", 0, 2, 0, 1, 0, 8) * (ROOM // 2 // 24)
    tables = [(0, 1, 0, 64, 1, 0), *[(0, 2, 0, 64, len(symbols), 0)] * (ROOM // 2 // 64)]
    yield "one table of symbols in many sections", raw(tables, b"\0" + symbols)
    long_names = [struct.pack("<IBBHQQ", at, 2, 0, 1, 0, 8) for at in range(3, 3 + ROOM // 2 // 24)]
    both = body + b"".join(long_names)
    yield "long names of symbols", raw([(0, 3, 0, 64, size, 0), (0, 2, 0, 64 + size, len(both) - size, 0)], both)
    many = [(0, 1, 4, 64, 0, 0)] * 6000
    names = b"\0" + b"".join(struct.pack("<IBBHQQ", 0, 2, 0, at % 6000, at, 8) for at in range(20_000))
    yield "many sections with functions", raw([(0, 3, 0, 64, 1, 0), *many, (0, 2, 0, 65, len(names) - 1, 0)], names)


def of_types() -> Iterator[tuple[str, bytes]]:
    """Type information with long texts, chains and counts."""
    code, count = CODE + EXIT, ROOM // 2 // 12
    texts = b"\0x\0xdp\0" + b"y" * (ROOM // 2) + b"\0"
    row = struct.pack("<IIIIII", 16, 3, 0xFFFFFFFF, 0, 1, 0)
    yield "types with long names", program(
        code, btf(b"".join(struct.pack("<III", 7 + at, INT * 17, 0) for at in range(count)), texts)
    )
    maps = b"".join(struct.pack("<III", 1, TYPEDEF, at + 2) for at in range(2 * count))
    yield "a long chain of types", program(code, btf(maps + struct.pack("<IIIII", 3, STRUCT | 1, 4, 1, 1) + bytes(4), texts[:8]))
    none = struct.pack("<III", 0, 3, 0xFFFFFFFF) + bytes(16)
    yield "lines without bytes", program(code, btf(TYPED, texts[:8]), ext(none, b""))
    lines = struct.pack("<III", 16, 3, count // 2) + b"".join(
        struct.pack("<IIII", 0, 8 + at, 8 + at, 1024) for at in range(count // 2)
    )
    yield "lines with long texts", program(CODE * 4095 + EXIT, btf(TYPED, texts), ext(lines, b""))
    places = struct.pack("<III", 16, 3, 4096) + b"".join(struct.pack("<IIII", 8 * at, 1, 1, 1024) for at in range(4096))
    yield "a line for each slot", program(CODE * 4095 + EXIT, btf(TYPED, texts[:8]), ext(places, b""))
    yield "a row that is cut", program(code, btf(TYPED, texts[:8]), ext(row, b""))
    path, one = b":".join([b"0"] * 60), insn(0xB7, 0, imm=1)
    fields = struct.pack("<III", 16, 3, 1000) + b"".join(struct.pack("<IIII", 8 * at, 1, 7, 2) for at in range(1000))
    # a structure of structures: each member is the structure itself
    members = b"".join(struct.pack("<III", 1, 1, 0) for _ in range(60_000))
    types = struct.pack("<III", 1, STRUCT | 60_000, 8) + members
    yield "fields with many steps", program(
        one * 4095 + EXIT, btf(types, texts[:7] + path + b"\0"), ext(struct.pack("<III", 16, 3, 1) + places[12:28], fields)
    )


def of_calls() -> Iterator[tuple[str, bytes]]:
    """Calls of functions among very many."""
    call = insn(0x85, 0, 1, imm=-1)
    yield "calls among many functions", program(call * 2000 + EXIT, far=12_000)
    functions = [(0, 8 * 4096), *[(8 * at, 8) for at in range(1, 4096)]]
    yield "functions in one another", program(b"".join(insn(0x85, 0, 1, imm=0) for _ in range(4095)) + EXIT, functions=functions)


def hostile_objects() -> Iterator[tuple[str, bytes]]:
    """Each object, with what is large in it."""
    yield from overlapping()
    yield from of_types()
    yield from of_calls()


def hostile_types() -> bytes:
    """Types of the kernel in which members without names lead through all others, twice each."""
    pairs = [struct.pack("<III", 1, STRUCT | 2, 8) + struct.pack("<III", 0, at + 2, 0) * 2 for at in range(60)]
    return btf(b"".join(pairs) + struct.pack("<III", 1, STRUCT, 8), b"\0task_struct\0")
