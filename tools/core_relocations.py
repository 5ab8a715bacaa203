"""Fields, types and values that depend on the kernel that a program is for (CO-RE): what they are there.

A compiler that was told so (`preserve_access_index`) leaves a record at each such instruction, which libbpf resolves by the
type information of the running kernel. The context's structure, `struct xdp_md`, is the same everywhere and is known here;
others are looked up in type information (BTF), by the names that the record leads through, as libbpf does.
"""
import functools
import struct
from typing import NamedTuple

from failures import cause
from objects import Refused
from type_information import ARRAY, ENUM, ENUM64, INT, STRUCT, UNION, Access, Types

KERNEL = "/sys/kernel/btf/vmlinux"
OFFSET, SIZE, EXISTS, SIGNED, LEFT, RIGHT, LOCAL_ID, TARGET_ID, TYPE_EXISTS, TYPE_SIZE, VALUE_EXISTS, VALUE = range(12)
CALLED = {
    OFFSET: "offset", SIZE: "size", SIGNED: "sign", LEFT: "left shift", RIGHT: "right shift", TYPE_SIZE: "size",
    VALUE: "value", LOCAL_ID: "type number", TARGET_ID: "type number",
}  # fmt: skip

MOST_STEPS = 64  # of a record's way into a structure, as for libbpf

# The context, as <linux/bpf.h> has it: each field has four bytes.
CONTEXT = ("data", "data_end", "data_meta", "ingress_ifindex", "rx_queue_index", "egress_ifindex")


class Field(NamedTuple):
    """A place in a structure: its offset and width in bits, whether it is a bit field, the bytes of its type, and whether
    it has a sign."""

    bits: int
    width: int
    is_bit_field: bool
    size: int
    is_signed: bool


class Step(NamedTuple):
    """A step of a record's way into a structure: a member's name, or an index into an array."""

    name: str
    at: int


def context_differs(types: Types) -> str | None:
    """A field of the object's own context that is not where Linux has it."""
    for number in types.numbers("xdp_md", (STRUCT,)):
        for it in types.members(number):
            if it.name in CONTEXT and it.bits != 32 * CONTEXT.index(it.name):
                return it.name
    return None


def plain_name(name: str) -> str:
    """A type's name without its flavour, `___old`."""
    return name.partition("___")[0]


def field(types: Types, number: int, bits: int, width: int) -> Field:
    it = types.at(types.plain(number))
    is_signed = it.kind == INT and bool(struct.unpack("<I", it.rest)[0] >> 24 & 1) or it.kind in (ENUM, ENUM64) and it.flag
    size = types.size(number)
    return Field(bits, width or 8 * size, bool(width), size, is_signed)


def local_way(types: Types, access: Access) -> tuple[list[Step], Field, str]:
    """The way of a record through the object's own types: its steps, the field there, and how it is called."""
    first, *rest = (int(it) for it in access.path.split(":"))
    if len(rest) > MOST_STEPS:
        raise Refused(f"a record of a field has {len(rest)} steps, and {MOST_STEPS} are possible")
    number, bits, width, steps = access.type, 8 * first * types.size(access.type), 0, [Step("", first)]
    called = plain_name(types.at(types.plain(number)).name)
    for index in rest:
        it = types.at(types.plain(number))
        if it.kind == ARRAY:
            number, width = struct.unpack("<III", it.rest)[0], 0
            bits += 8 * index * types.size(number)
            steps.append(Step("", index))
            called += f"[{index}]"
        elif it.kind in (STRUCT, UNION):
            member = types.members(number)[index]
            number, bits, width = member.type, bits + member.bits, member.width
            if member.name:
                steps.append(Step(member.name, 0))
                called += f".{member.name}"
        else:
            raise Refused("a record of a field leads nowhere")
    return steps, field(types, number, bits, width), called


def member_named(types: Types, number: int, name: str, seen: set[int] | None = None) -> tuple[int, int, int] | None:
    """The type, the place and the width in bits of a member of that name, in members without names too. The types that
    were seen have no such member."""
    seen = set() if seen is None else seen
    if number in seen:
        return None
    seen.add(number)
    for it in types.members(number):
        if it.name == name:
            return it.type, it.bits, it.width
        inner = None if it.name else member_named(types, it.type, name, seen)
        if inner:
            return inner[0], it.bits + inner[1], inner[2]
    return None


def target_field(types: Types, number: int, steps: list[Step]) -> Field | None:
    """The field at the end of the same way through other types, if there is one."""
    bits, width = 8 * steps[0].at * types.size(number), 0
    for step in steps[1:]:
        if step.name:
            found = member_named(types, number, step.name)
            if not found:
                return None
            number, bits, width = found[0], bits + found[1], found[2]
        else:
            it = types.at(types.plain(number))
            if it.kind != ARRAY:
                return None
            of, _, count = struct.unpack("<III", it.rest)
            if count and step.at >= count:
                return None
            number, bits, width = of, bits + 8 * step.at * types.size(of), 0
    return field(types, number, bits, width)


def is_other(here: Field, there: Field) -> bool:
    """Whether an instruction that reads the one field cannot read the other by another offset alone."""
    if here.is_bit_field or there.is_bit_field:
        return (here.bits % 8, here.width, here.size) != (there.bits % 8, there.width, there.size)
    return here.size != there.size and max(here.size, there.size) <= 8


def field_number(kind: int, it: Field | None) -> int | None:
    """What a record of a field asks for; None where there is no such field."""
    if kind == EXISTS:
        return int(it is not None)
    if it is None:
        return None
    size = it.size
    begin = it.bits // 8
    if it.is_bit_field:
        begin = it.bits // 8 // size * size
        while it.bits + it.width - 8 * begin > 8 * size:
            size *= 2
            begin = it.bits // 8 // size * size
    return {
        OFFSET: begin, SIZE: size, SIGNED: int(it.is_signed), LEFT: 64 - (it.bits + it.width - 8 * begin), RIGHT: 64 - it.width,
    }[kind]  # fmt: skip


class Kernel:
    """What the kernel that a program is for has: the context, and what its type information says."""

    def __init__(self, path: str | None = None) -> None:
        self.path = path or KERNEL

    @functools.cached_property
    def types(self) -> Types:
        try:
            with open(self.path, "rb") as file:
                return Types(file.read())
        except OSError as why:
            raise Refused(
                f"the kernel's type information is needed, and {self.path} cannot be read: {cause(why)} (--btf)"
            ) from None
        except (struct.error, IndexError, ValueError):
            raise Refused(f"{self.path} is no type information") from None

    def numbers(self, types: Types, number: int) -> list[int]:
        """The kernel's types of a local type's name and kind."""
        it = types.at(number)
        kinds = (STRUCT, UNION) if it.kind in (STRUCT, UNION) else (ENUM, ENUM64) if it.kind in (ENUM, ENUM64) else (it.kind,)
        return self.types.numbers(plain_name(it.name), kinds)

    def field_at(self, types: Types, number: int, steps: list[Step]) -> Field | None:
        """The kernel's field at the end of a way that begins at a local type."""
        if plain_name(types.at(types.plain(number)).name) == "xdp_md":
            name = steps[1].name if len(steps) == 2 and not steps[0].at else ""
            return Field(32 * CONTEXT.index(name), 32, False, 4, False) if name in CONTEXT else None
        found = [target_field(self.types, it, steps) for it in self.numbers(types, types.plain(number))]
        there = [it for it in found if it]
        if any(it != there[0] for it in there):
            raise Refused("the kernel has several such fields")
        return there[0] if there else None

    def resolved(self, types: Types, access: Access) -> tuple[int, int, str]:
        """What a record asks for, as the object's own types have it and as the kernel has it, and how it is called."""
        if access.kind <= RIGHT:
            steps, here, called = local_way(types, access)
            there = self.field_at(types, access.type, steps)
            if access.kind == OFFSET and there and is_other(here, there):
                raise Refused(f"{called} has another size or another place in its bytes in the kernel")
            before, after = field_number(access.kind, here), field_number(access.kind, there)
        else:
            called = plain_name(types.at(access.type).name)
            before, after = self.of_type(types, access)
        if access.kind in (LOCAL_ID, TARGET_ID) or before is None:
            raise Refused(f"the {CALLED.get(access.kind, 'record')} of {called} is asked for, which is not known here")
        if after is None:
            raise Refused(f"{called} is asked for, and the kernel has no such {'field' if access.kind <= RIGHT else 'type'}")
        return before, after, called

    def of_type(self, types: Types, access: Access) -> tuple[int | None, int | None]:
        """What a record of a type or of a value asks for, here and in the kernel."""
        found = self.numbers(types, access.type)
        if access.kind == TYPE_EXISTS:
            return 1, int(bool(found))
        if access.kind == TYPE_SIZE:
            return types.size(access.type), self.types.size(found[0]) if found else None
        if access.kind in (VALUE_EXISTS, VALUE):
            name, here = list(types.values(access.type).items())[int(access.path)]
            there = [self.types.values(it)[plain_name(name)] for it in found if plain_name(name) in self.types.values(it)]
            if access.kind == VALUE_EXISTS:
                return 1, int(bool(there))
            return here, there[0] if there else None
        return None, None
