#!/usr/bin/env python3
"""Shows a proof table as a text, and makes one from a text.

usage: python3 tools/table.py show TABLE
       python3 tools/table.py make TEXT TABLE

A text has a line for each entry and lines for what is known in its state; `#` begins a comment. This is the table of
`r0 = 2; exit`:

    entry 2 slot 0 to 1        # at most 2 steps from slot 0; the step leads to entry 1
      r1 context
    entry 1 slot 1
      r0 number 2
      r1 context

A state's frames come outermost first: `frame` begins the next inner one, and `return N` says to which slot its exit
leads. `rN VALUE` is a register; -8 VALUE a value that was spilled at that offset of the frame, -8 bytes 0xff its
written bytes, a bit for each. All else is unset. A VALUE is one of

    unset, context, end              nothing is known; the context; the packet's end
    number 7                         this number
    number                           any number
    number V mask M u A..B s A..B lu A..B ls A..B
                                     known bits V, unknown bits M, and limits: unsigned and signed, of all bits and of
                                     the low half; what is left out is not limited
    stack F O                        offset O from the end of frame F, 0 being the outermost
    packet F [id N A..B] [proved P]  F bytes and A to B more from the packet's first; P bytes after these were tested
    map M, value M A..B, null M id N map M; its value from offset A to B; the same or null

examples:
    python3 tools/table.py show filter.table | less
    python3 tools/table.py make changed.txt changed.table

A file TABLE is written beside it and takes its name once it is whole; it may not be TEXT.

The exit status is 0, or 1 with a message.
"""
import io
import os
import re
import struct
import sys
from collections.abc import Iterable, Iterator
from typing import Any, BinaryIO

from failures import end, said, usage_of
from inputs import NoText, named, text_lines
from outputs import IsRead, end_by_signal, write_whole

Value = tuple[Any, ...]  # a kind, and its fields
MAGIC = b"XPT1"
MOST = 1_000_000  # entries of a table, and steps of a run
UNSET: Value = ("unset",)
CONTEXT: Value = ("context",)
END: Value = ("end",)
KINDS = ["unset", "number", "context", "stack", "packet", "end", "map", "value", "null"]
FIELDS = {"number": "<QQQQqqIIii", "stack": "<Bi", "packet": "<iIiiI", "map": "<B", "value": "<Bii", "null": "<BI"}
BLANK: Value = ("bytes", 0)


class Refused(Exception):
    """Why bytes are not a table: a code, and the index of the entry if it has one."""

    def __init__(self, code: str, entry: int | None = None) -> None:
        super().__init__(code if entry is None else f"{code} entry {entry}")
        self.code, self.entry = code, entry


class Wrong(Exception):
    """What is wrong with a line of a text."""


class Frame:
    """What is known about a call frame: where its exit leads, r0 to r9, and 64 stack slots from
    -512 upward."""

    def __init__(self) -> None:
        self.leads = 0
        self.registers: list[Value] = [UNSET] * 10
        self.slots: list[Value] = [BLANK] * 64


class Entry:
    """The most steps from a state on, the state's slot and frames, and the entries to which its step leads."""

    def __init__(self, number: int, slot: int, successors: Iterable[int] = ()) -> None:
        self.number, self.slot, self.frames, self.successors = number, slot, [Frame()], list(successors)


def any_number() -> Value:
    return ("number", 0, 2**64 - 1, 0, 2**64 - 1, -(2**63), 2**63 - 1, 0, 2**32 - 1, -(2**31), 2**31 - 1)


def signed(number: int, bits: int) -> int:
    return number - (1 << bits) if number >> bits - 1 else number


def constant(number: int) -> Value:
    whole, low = number % 2**64, number % 2**32
    return ("number", whole, 0, whole, whole, *[signed(whole, 64)] * 2, low, low, *[signed(low, 32)] * 2)


# ---- bytes


def value_bytes(value: Value) -> bytes:
    name = value[0]
    fields = struct.pack(FIELDS[name], *value[1:]) if name in FIELDS else b""
    return bytes([KINDS.index(name)]) + fields


def slot_bytes(slot: Value) -> bytes:
    return bytes([0, slot[1]]) if slot[0] == "bytes" else b"\1" + value_bytes(slot)


def frame_bytes(frame: Frame) -> bytes:
    parts = [struct.pack("<H", frame.leads)] + [value_bytes(value) for value in frame.registers]
    return b"".join(parts + [slot_bytes(slot) for slot in frame.slots])


def entry_bytes(entry: Entry) -> bytes:
    parts = [struct.pack("<IHB", entry.number, entry.slot, len(entry.frames))]
    parts += [frame_bytes(frame) for frame in entry.frames]
    return b"".join(parts) + struct.pack(f"<B{len(entry.successors)}I", len(entry.successors), *entry.successors)


def table_bytes(entries: list[Entry]) -> bytes:
    return MAGIC + struct.pack("<I", len(entries)) + b"".join(entry_bytes(entry) for entry in entries)


class Reader:
    """Takes bytes from the front of a file. A byte without a meaning is P5 of the entry, and an end is P2."""

    def __init__(self, file: BinaryIO) -> None:
        self.file, self.entry = file, 0

    def take(self, form: str) -> Value:
        size = struct.calcsize(form)
        data = self.file.read(size)
        if len(data) < size:
            raise Refused("P2")
        return struct.unpack(form, data)

    def byte(self, least: int, most: int) -> int:
        number: int = self.take("<B")[0]
        if not least <= number <= most:
            raise Refused("P5", self.entry)
        return number

    def value(self) -> Value:
        name = KINDS[self.byte(0, 8)]
        return (name, *self.take(FIELDS[name])) if name in FIELDS else (name,)

    def stack_slot(self) -> Value:
        return self.value() if self.byte(0, 1) else ("bytes", *self.take("<B"))

    def frame(self) -> Frame:
        frame = Frame()
        (frame.leads,) = self.take("<H")
        frame.registers = [self.value() for _ in range(10)]
        frame.slots = [self.stack_slot() for _ in range(64)]
        return frame

    def one(self) -> Entry:
        entry = Entry(*self.take("<IH"))
        entry.frames = [self.frame() for _ in range(self.byte(1, 8))]
        count = self.byte(0, 2)
        entry.successors = list(self.take(f"<{count}I"))
        return entry


def each_entry(file: BinaryIO) -> Iterator[Entry]:
    """The entries that a file's bytes spell, whatever their fields hold, one after the other. Refused: P1 to P5, by
    the format."""
    reader = Reader(file)
    magic, count = reader.take("<4sI")
    if magic != MAGIC:
        raise Refused("P1")
    if not 1 <= count <= MOST:
        raise Refused("P4")
    for reader.entry in range(count):
        yield reader.one()
    if file.read(1):
        raise Refused("P3")


def entries_of(data: bytes) -> list[Entry]:
    """The same for bytes: all entries."""
    return list(each_entry(io.BytesIO(data)))


# ---- text


def limits_text(least: int, greatest: int) -> str:
    return f"{least}..{greatest}"


def number_text(value: Value) -> str:
    if value == constant(value[1]):
        return f"number {value[1]}"
    parts, every = ["number"], any_number()
    if value[1:3] != every[1:3]:
        parts += [f"{value[1]} mask {value[2]:#x}"]
    for name, at in (("u", 3), ("s", 5), ("lu", 7), ("ls", 9)):
        if value[at : at + 2] != every[at : at + 2]:
            parts += [name, limits_text(*value[at : at + 2])]
    return " ".join(parts)


def packet_text(fixed: int, identity: int, least: int, greatest: int, proved: int) -> str:
    part = f" id {identity} {limits_text(least, greatest)}" if (identity, least, greatest) != (0, 0, 0) else ""
    return f"packet {fixed}{part}" + (f" proved {proved}" if proved else "")


def value_text(value: Value) -> str:
    name, fields = value[0], value[1:]
    if name == "number":
        return number_text(value)
    if name == "packet":
        return packet_text(*fields)
    if name == "value":
        return f"value {fields[0]} {limits_text(*fields[1:])}"
    if name == "null":
        return f"null {fields[0]} id {fields[1]}"
    return " ".join([name, *map(str, fields)])


def frame_text(frame: Frame) -> list[str]:
    lines = [f"return {frame.leads}"] if frame.leads else []
    lines += [f"r{at} {value_text(value)}" for at, value in enumerate(frame.registers) if value != UNSET]
    for at, slot in enumerate(frame.slots):
        if slot != BLANK:
            lines.append(f"{8 * at - 512} " + (f"bytes {slot[1]:#x}" if slot[0] == "bytes" else value_text(slot)))
    return lines


def entry_text(entry: Entry) -> str:
    leads = " ".join(["", "to", *map(str, entry.successors)]) if entry.successors else ""
    lines = [f"entry {entry.number} slot {entry.slot}{leads}"]
    for at, frame in enumerate(entry.frames):
        lines += (["  frame"] if at else []) + ["  " + line for line in frame_text(frame)]
    return "\n".join(lines) + "\n"


def text_of(entries: Iterable[Entry]) -> str:
    return "".join(map(entry_text, entries))


class Words:
    """The words of a line, taken from the front."""

    def __init__(self, line: str) -> None:
        self.words = line.split("#")[0].split()

    def __bool__(self) -> bool:
        return bool(self.words)

    def take(self, what: str = "a word") -> str:
        if not self.words:
            raise Wrong(f"{what} is missing")
        return self.words.pop(0)

    def number(self) -> int:
        word = self.take("a number")
        try:
            return int(word, 0)
        except ValueError:
            raise Wrong(f"no number: {word}") from None

    def limits(self) -> list[int]:
        found = re.fullmatch(r"(-?\w+)\.\.(-?\w+)", self.take("A..B"))
        if not found:
            raise Wrong("no limits, which are A..B")
        return Words(" ".join(found.groups())).all_numbers(2)

    def all_numbers(self, count: int) -> list[int]:
        return [self.number() for _ in range(count)]

    def follows(self, word: str) -> bool:
        if self.words[:1] == [word]:
            self.words.pop(0)
            return True
        return False


def number_from(words: Words) -> Value:
    value = list(any_number())
    if words and re.match(r"[-0-9]", words.words[0]):
        number = words.number()
        if not words.follows("mask"):
            value = list(constant(number))
        else:
            value[1:3] = number, words.number()
    for name, at in (("u", 3), ("s", 5), ("lu", 7), ("ls", 9)):
        if words.follows(name):
            value[at : at + 2] = words.limits()
    return tuple(value)


def value_from(words: Words) -> Value:
    name = words.take("a value")
    if name == "number":
        return number_from(words)
    if name == "packet":
        fixed, part = words.number(), [0, 0, 0]
        if words.follows("id"):
            part = [words.number(), *words.limits()]
        return ("packet", fixed, *part, words.number() if words.follows("proved") else 0)
    if name == "value":
        return ("value", words.number(), *words.limits())
    if name == "null":
        index = words.number()
        if not words.follows("id"):
            raise Wrong("null M id N")
        return ("null", index, words.number())
    if name not in KINDS:
        raise Wrong(f"no value: {name}")
    return (name, *words.all_numbers(2 if name == "stack" else 1 if name == "map" else 0))


def set_place(frame: Frame, place: str, words: Words) -> None:
    register = re.fullmatch(r"r(\d)", place)
    if register:
        frame.registers[int(register[1])] = value_from(words)
    elif re.fullmatch(r"-\d+", place) and -512 <= int(place) and int(place) % 8 == 0:
        marks = words.follows("bytes")
        frame.slots[int(place) // 8 + 64] = ("bytes", words.number()) if marks else value_from(words)
    else:
        raise Wrong(f"no register and no offset of a stack slot: {place}")


def take_line(entries: list[Entry], words: Words) -> None:
    place = words.take()
    if place == "entry":
        number = words.number()
        if not words.follows("slot"):
            raise Wrong("entry N slot N [to N [N]]")
        entries.append(Entry(number, words.number()))
        if words.follows("to"):
            entries[-1].successors = words.all_numbers(len(words.words))
    elif not entries:
        raise Wrong("no entry has begun")
    elif place == "frame":
        entries[-1].frames.append(Frame())
    elif place == "return":
        entries[-1].frames[-1].leads = words.number()
    else:
        set_place(entries[-1].frames[-1], place, words)
    if words:
        raise Wrong(f"too much: {words.take()}")


def entries_in(lines: Iterable[tuple[int, str]]) -> list[Entry]:
    """The entries of a text's lines. Wrong: a line does not have the format, by its number."""
    entries: list[Entry] = []
    for at, line in lines:
        words = Words(line)
        try:
            if words:
                take_line(entries, words)
                entry_bytes(entries[-1])
        except (Wrong, struct.error) as why:
            raise Wrong(f"line {at}: {why}") from None
    return entries


def entries_from(text: str) -> list[Entry]:
    """The same for a text that is at hand."""
    return entries_in(enumerate(text.splitlines(), 1))


def main(words: list[str]) -> None:
    if words[:1] == ["show"] and len(words) == 2:
        with open(words[1], "rb") as file:
            for entry in each_entry(file):
                print(entry_text(entry), end="")
    elif words[:1] == ["make"] and len(words) == 3:
        with open(words[1], "rb") as file:
            data = table_bytes(entries_in(text_lines(file.readline)))
        write_whole(words[2], data, [words[1]])
    elif words in (["--help"], ["-h"]):
        print(named(__doc__))
    else:
        end(f"table.py: `show TABLE` or `make TEXT TABLE` is wanted\n{usage_of(named(__doc__))}")


if __name__ == "__main__":
    end_by_signal()
    try:
        main(sys.argv[1:])
        sys.stdout.flush()
    except BrokenPipeError:
        os.dup2(os.open(os.devnull, os.O_WRONLY), 1)
        sys.exit(1)
    except OSError as why:
        end(f"table.py: {said(why, 'standard output')}")
    except (IsRead, NoText, Refused, Wrong) as why:
        end(f"table.py: {why}")
