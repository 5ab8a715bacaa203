"""A judge of texts of maps by the rules of docs/FORMATS.md, in Python only: what the maps hold after a text, or the
refusal."""

import random
from dataclasses import dataclass

Row = tuple[int, int, int, int]  # type, key size, value size, entries
Contents = list[dict[bytes, bytes]]
DIGITS, HEX = b"0123456789", b"0123456789abcdefABCDEF"
NO_ROWS = 8346  # the longest line for an image without maps
ARRAY = 2


class Refused(Exception):
    """A line that is refused: its code and its column."""

    def __init__(self, code: str, column: int) -> None:
        super().__init__(code)
        self.code, self.column = code, column


@dataclass(frozen=True)
class Field:
    """A field of a line, and the column where it begins, or would begin."""

    text: bytes
    column: int

    def tested(self, digits: bytes) -> "Field":
        """The field, if each of its bytes is one of these digits, and there is one."""
        for at, byte in enumerate(self.text):
            if byte not in digits:
                raise Refused("M1", self.column + at)
        if not self.text:
            raise Refused("M1", self.column)
        return self

    def pairs(self) -> bytes:
        """The bytes of a field of hexadecimal digits."""
        self.tested(HEX)
        if len(self.text) % 2:
            raise Refused("M1", self.column + len(self.text))
        return bytes.fromhex(self.text.decode())


def starting(rows: list[Row]) -> Contents:
    """New maps: a hash map has no key, an array all of them, with zeros."""
    return [{key.to_bytes(4, "little"): bytes(row[2]) for key in range(row[3])} if row[0] == ARRAY else {} for row in rows]


def longest(rows: list[Row]) -> int:
    """The bytes of the longest line that a key and a value of these maps need."""
    return max((6 + len(str(at)) + 2 * (row[1] + row[2]) for at, row in enumerate(rows)), default=NO_ROWS)


def fields(line: bytes) -> list[Field]:
    """Index, key and value; the value is all that follows the key and a space."""
    parts = [*line[4:].split(b" ", 2), b"", b""][:3]
    found, column = [], 5
    for part in parts:
        found.append(Field(part, column))
        column += len(part) + 1
    return found


def update(line: bytes, rows: list[Row], contents: Contents) -> None:
    """Does what a line that is not passed over says."""
    if len(line) > longest(rows):
        raise Refused("M6", longest(rows) + 1)
    if not line.startswith(b"map "):
        raise Refused("M1", 1)
    number, its_key, its_value = fields(line)  # pylint: disable=unbalanced-tuple-unpacking
    number.tested(DIGITS)
    key, value = its_key.pairs(), its_value.pairs()
    index = int(number.text)
    if index >= len(rows):
        raise Refused("M2", number.column)
    kind, key_size, value_size, entries = rows[index]
    if len(key) != key_size:
        raise Refused("M3", its_key.column)
    if len(value) != value_size:
        raise Refused("M4", its_value.column)
    its = contents[index]
    if key not in its and (kind == ARRAY or len(its) >= entries):
        raise Refused("M5", its_key.column)
    its[key] = value


def judged(text: bytes, rows: list[Row]) -> str:
    """What xdpvm_filter says of a text: the refusal, or the lines of the maps after it."""
    contents = starting(rows)
    for number, line in enumerate(text.split(b"\n"), 1):
        if not line or line[:1] in b"#0123456789" or line.startswith((b"end", b"fault")):
            continue
        try:
            update(line, rows, contents)
        except Refused as why:
            return f"refused {why.code} line {number} column {why.column}\n"
    lines = []
    for index, (row, its) in enumerate(zip(rows, contents)):
        keys = sorted(its, key=lambda key: int.from_bytes(key, "little")) if row[0] == ARRAY else sorted(its)
        lines += [f"map {index} {key.hex()} {its[key].hex()}\n" for key in keys]
    return "".join(lines)


def changed_field(chance: random.Random, line: bytes) -> bytes:
    """A line with another index, a key or a value of another size, or another key."""
    parts = line.split(b" ")
    if len(parts) != 4:
        return line
    at = chance.choice([1, 2, 2, 2, 3])
    if at == 1:
        parts[1] = b"%d" % chance.choice([0, 1, 2, 3])
    elif chance.random() < 0.6:
        parts[at] = chance.choice([parts[at] + b"00", parts[at][2:], parts[at] + b"0"])
    else:
        parts[at] = chance.randbytes(len(parts[at]) // 2).hex().encode()
    return b" ".join(parts)


def damaged(chance: random.Random, text: bytes) -> bytes:
    """A text with a small change or two: of a byte, a field, a line."""
    if chance.random() < 0.4:
        lines = text.split(b"\n")
        for _ in range(chance.choice([1, 3, 9])):
            lines.insert(chance.randrange(len(lines) + 1), changed_field(chance, chance.choice(lines)))
        return b"\n".join(lines)
    made = bytearray(text)
    for _ in range(chance.choice([0, 1, 1, 1, 2])):
        at, kind = chance.randrange(len(made) + 1), chance.randrange(6)
        if kind == 0:
            made[at:at] = chance.choice([b" ", b"\n", b"\r", b"\t", b"0", b"00", b"g", b"map ", b"#", b"\0", b"\xff", b"end"])
        elif kind == 1:
            del made[at : at + chance.choice([1, 1, 2, 8, 40])]
        elif kind == 2 and at < len(made):
            made[at] = chance.choice(b" \n09afAFgGm#\0\xff")
        elif kind == 3:
            made[at:at] = chance.choice([b"0", b" ", b"f", b"9"]) * chance.choice([3, 30, 90, 9000])
        elif kind == 4:
            lines = bytes(made).split(b"\n")
            chance.shuffle(lines)
            made = bytearray(b"\n".join(lines * chance.choice([1, 1, 2])))
        else:
            made[at:at] = b"\nmap %d " % chance.choice([0, 1, 2, 16, 2**64])
    return bytes(made)
