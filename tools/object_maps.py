"""Map lines, as a report of `xdpvm run` has them: those of a file, to fill maps with, and those of the kernel's
maps."""

import re
from typing import NamedTuple

from object_image import ARRAY, Refused, Row

OTHER = re.compile(r"\d+ [A-Z]+ .*|end \d+|fault .*")  # the other lines of a report
DUMPED = re.compile(rb'\{"key":\["0x([^\]]*)"\],"value":\["0x([^\]]*)"\]')  # of `bpftool -j map dump`


class Entry(NamedTuple):
    """A key-value pair of a map."""

    map: int
    key: bytes
    value: bytes

    def line(self) -> str:
        return f"map {self.map} {self.key.hex()} {self.value.hex()}"


class Lines:
    """The map lines of a text, each tested against the maps of an image. Blank lines, those that begin with #, and the
    other lines of a report are passed over."""

    def __init__(self, name: str, rows: list[Row]) -> None:
        self.name, self.rows = name, rows
        self.keys: dict[int, set[bytes]] = {}

    def entries(self, text: str) -> list[Entry]:
        found = []
        for number, line in enumerate(text.split("\n"), 1):
            if line.startswith("map ") or line == "map":
                found.append(self.entry(number, line))
            elif line.strip() and not line.startswith("#") and not OTHER.fullmatch(line.rstrip("\r")):
                column = len(line) - len(line.lstrip()) + 1
                raise self.wrong(number, column, "this is no line of a report, and no comment")
        return found

    def wrong(self, number: int, column: int, why: str) -> Refused:
        return Refused(f"{self.name}:{number}:{column}: {why}")

    def entry(self, number: int, line: str) -> Entry:
        """The entry that a line has."""
        words = list(re.finditer(r"\S+", line))
        if len(words) < 4:
            raise self.wrong(number, len(line.rstrip()) + 1, "a map line has an index, a key and a value")
        if len(words) > 4:
            raise self.wrong(number, words[4].start() + 1, "nothing comes after the value")
        at = [it.start() + 1 for it in words]
        if not re.fullmatch("[0-9]{1,9}", words[1][0]) or int(words[1][0]) >= len(self.rows):
            rest = f"maps 0 to {len(self.rows) - 1}" if self.rows else "no maps"
            raise self.wrong(number, at[1], f"there is no map {words[1][0]}: the image has {rest}")
        index = int(words[1][0])
        row = self.rows[index]
        key = self.part(number, at[2], words[2][0], row.key, f"a key of map {index}")
        value = self.part(number, at[3], words[3][0], row.value, f"a value of map {index}")
        if row.kind == ARRAY and int.from_bytes(key, "little") >= row.entries:
            last = (row.entries - 1).to_bytes(4, "little").hex()
            raise self.wrong(number, at[2], f"map {index} is an array whose last key is {last}")
        keys = self.keys.setdefault(index, set())
        keys.add(key)
        if len(keys) > row.entries:
            raise self.wrong(number, at[2], f"map {index} has room for {row.entries:,} keys, and this is one more")
        return Entry(index, key, value)

    def part(self, number: int, column: int, word: str, size: int, what: str) -> bytes:
        """The bytes of a word in hexadecimal."""
        bad = re.search("[^0-9a-fA-F]", word)
        if bad:
            raise self.wrong(number, column + bad.start(), f"{bad[0]!r} is no hexadecimal digit")
        if len(word) != 2 * size:
            raise self.wrong(number, column, f"{what} has {size} bytes, so {2 * size} digits, and here are {len(word)}")
        return bytes.fromhex(word)


def dumped(index: int, is_hash: bool, text: bytes) -> list[Entry]:
    """What `bpftool -j map dump` says of a map, in the order of a report: a hash map's keys in that of their bytes."""
    pairs = [
        (bytes.fromhex(key.replace(b'","0x', b"").decode()), bytes.fromhex(value.replace(b'","0x', b"").decode()))
        for key, value in DUMPED.findall(text)
    ]
    ordered = sorted(pairs) if is_hash else sorted(pairs, key=lambda it: int.from_bytes(it[0], "little"))
    return [Entry(index, *it) for it in ordered]
