#!/usr/bin/env python3
"""Makes an image of an object file that clang or gcc compiled for BPF.

usage: python3 tools/image.py OBJECT IMAGE [--section NAME] [--program NAME] [--source FILE] [--btf FILE]
                              [--lru-as-hash] [--list]

The program is a function of the section xdp, or of the one that is named; where no section is named and only one can
hold a program, that one. --program names the function where a section has several; --list prints what there is.
Functions that the program calls, and those that they call, go into the image after it, and no others.

Maps are those of the section .maps, as libbpf writes them; their sizes are in the type information, so compile with -g.
A map for each processor (PERCPU_ARRAY, PERCPU_HASH) becomes ARRAY or HASH, and a line says why that is exact; LRU_HASH
becomes HASH with --lru-as-hash, and the line says what differs.

Each section of global variables and constants that the program names (.bss, .data, .rodata and those whose names go on
after them) becomes an array with one key, after the maps. What they begin with is in IMAGE.maps, beside the image, as
map lines; there is no such file where all begin as zeros. xdp.py, kernel.py and object.py take it by themselves.

Fields, types and values that depend on the kernel (CO-RE) are those of the running kernel, or of the type information
in --btf FILE; those of the context need none. --source is the file that messages name in place of the object.

Each relocation and each record of the program's functions is applied, or the object is refused, with the line. IMAGE
and IMAGE.maps are written beside them and take their names once they are whole; they may be neither OBJECT nor FILE.

examples:
    clang -target bpf -g -O2 -c filter.c -o filter.o && python3 tools/image.py --source filter.c filter.o filter.image
    bpf-gcc -gbtf -O2 -c filter.c -o filter.o && python3 tools/image.py --program second filter.o filter.image
    python3 tools/image.py --list filter.o

The exit status is 0, or 1 with a message; then no image is written.
"""
import argparse
import contextlib
import struct
from dataclasses import dataclass
from collections.abc import Iterator
from typing import BinaryIO

from core_relocations import Kernel
from image_link import Image, Linker
from failures import Words, end, said, tell
from inputs import named
from map_files import NotIts, write_beside
from objects import EXECUTABLE, Object, Refused, Symbol
from outputs import IsRead, end_by_signal

MOST_OBJECT = 1 << 24  # bytes of an object file that is read
DAMAGED = "the object file is damaged, or of a form that is not known here"


@dataclass(frozen=True)
class Wanted:
    """Which program of an object is wanted, the file of the kernel's types, and whether maps that drop old keys become
    hash maps that do not."""

    section: str | None = None
    program: str | None = None
    btf: str | None = None
    lru_as_hash: bool = False


def programs(it: Object) -> dict[str, list[str]]:
    """The functions that can be programs, by section: those of executable sections but .text."""
    found: dict[str, list[str]] = {}
    for i, name in enumerate(it.names):
        if it.types[i] == 1 and it.flags[i] & EXECUTABLE and name != ".text" and it.sizes[i]:
            found[name] = [one.name for _, one in sorted(it.functions(i).items())]
    return found


def chosen(it: Object, section: str | None, name: str | None) -> Symbol:
    """The function that is the program."""
    there = programs(it)
    every = [one for names in there.values() for one in names]
    if section is None:
        having = [one for one, names in there.items() if name in names] if name else list(there)
        section = "xdp" if "xdp" in there and (not name or name in there["xdp"]) else having[0] if len(having) == 1 else None
        if section is None and name and not having:
            raise Refused(f"there is no function {name}; there are: {', '.join(every) or 'none'}")
        if section is None:
            raise Refused(f"there is no section xdp; name one of these by --section: {', '.join(sorted(there)) or 'none'}")
    if section not in there:
        raise Refused(f"there is no section {section} with a program; there are: {', '.join(sorted(there)) or 'none'}")
    names = there[section]
    if name is None and len(names) > 1:
        raise Refused(f"the section {section} has several programs; name one by --program: {', '.join(names)}")
    if name is not None and name not in names:
        raise Refused(f"the section {section} has no function {name}; it has: {', '.join(names)}")
    for one in it.functions(it.names.index(section)).values():
        if name in (None, one.name):
            return one
    raise Refused(f"the section {section} has no function")


def linked(data: bytes, wanted: Wanted) -> Image:
    """The image of the program in an object's bytes."""
    it = Object(data)
    return Linker(it, Kernel(wanted.btf), wanted.lru_as_hash).link(chosen(it, wanted.section, wanted.program))


def bytes_of(image: Image) -> bytes:
    """The bytes of an image's file."""
    return image.magic + struct.pack("<HH", len(image.rows), len(image.slots) // 8) + b"".join(image.rows) + image.slots


@contextlib.contextmanager
def damage_told() -> Iterator[None]:
    """Refuses an object in which anything that is read turns out to be damaged."""
    try:
        yield
    except (
        struct.error,
        IndexError,
        ValueError,
        KeyError,
        TypeError,
        AttributeError,
        OverflowError,
        RecursionError,
        MemoryError,
    ):
        raise Refused(DAMAGED) from None


def made(data: bytes, wanted: Wanted = Wanted()) -> Image:
    """The image of the program in the bytes of an object that may be damaged."""
    with damage_told():
        return linked(data, wanted)


def listed(data: bytes) -> dict[str, list[str]]:
    """The programs of an object that may be damaged, by section."""
    with damage_told():
        return programs(Object(data))


def read_object(file: BinaryIO) -> bytes:
    """The bytes of an object file; another one is read no further than its first bytes."""
    data = file.read(4)
    if data == b"\x7fELF":
        data += file.read(MOST_OBJECT)
    if len(data) > MOST_OBJECT:
        raise Refused(f"it has over {MOST_OBJECT:,} bytes, and no object of a filter has")
    return data


def arguments() -> argparse.Namespace:
    """The words of the command line."""
    text = named(__doc__ or "")
    usage = text.split("usage: ")[1].split("\n\n")[0]
    words = Words(description=text, usage=usage, formatter_class=argparse.RawDescriptionHelpFormatter)
    words.add_argument("object")
    words.add_argument("image", nargs="?")
    for name in ("section", "program", "source", "btf"):
        words.add_argument(f"--{name}")
    words.add_argument("--lru-as-hash", action="store_true")
    words.add_argument("--list", action="store_true")
    given = words.parse_intermixed_args()
    if given.image is None and not given.list:
        words.error("IMAGE is missing")
    return given


def main() -> None:
    """Makes an image, or lists the programs of an object."""
    given = arguments()
    end_by_signal()
    try:
        with open(given.object, "rb") as file:
            data = read_object(file)
        if given.list:
            for section, names in listed(data).items():
                print(f"{section}: {', '.join(names)}")
            return
        image = made(data, Wanted(given.section, given.program, given.btf, given.lru_as_hash))
        write_beside(given.image, bytes_of(image), image.fill, [given.object, given.source, given.btf])
        for note in image.notes:
            tell(f"{given.source or given.object}: {note}")
    except OSError as why:
        end(f"{said(why, 'standard output')}")
    except (IsRead, NotIts) as why:
        end(f"{why}")
    except Refused as why:
        end(f"{given.source or given.object}: {why}")


if __name__ == "__main__":
    main()
