"""Random contents of maps, as a text of maps (docs/FORMATS.md): keys and values of zeros, of ones and of any bytes. And bytes for
packets."""
import random
import struct

Row = tuple[int, int, int, int]  # type, key size, value size, entries
ANY = bytes(range(256))


def some_bytes(chance: random.Random, of: bytes, count: int) -> bytes:
    """Random ones of these bytes."""
    return chance.randbytes(count).translate((of * 256)[:256])


def contents(chance: random.Random, rows: list[Row]) -> str:
    """Map lines for maps of these rows, in both cases of digits, with comments and with keys that come twice."""
    lines = ["# contents"]
    for index, (kind, size, value, entries) in enumerate(rows):
        keys = [chance.choice([bytes(size), b"\xff" * size, chance.randbytes(size)]) for _ in range(entries)]
        if kind == 2:
            keys = [struct.pack("<I", key) for key in range(entries)]
        for key in chance.choices(keys, k=chance.randrange(2 * entries + 1)):
            body = chance.choice([bytes(value), b"\xff" * value, chance.randbytes(value)])
            line = f"map {'0' * chance.choice([0, 0, 3])}{index} {key.hex()} {body.hex()}"
            longest = max(6 + len(str(at)) + 2 * (row[1] + row[2]) for at, row in enumerate(rows))
            line = line if len(line) <= longest else line.replace(" 000", " ", 1)
            lines.append(line.upper().replace("MAP", "map") if chance.random() < 0.3 else line)
    return "\n".join(lines) + chance.choice(["\n", "\n\n", ""])
