"""Files that gzip packed, unpacked as they come, and the first bytes of what comes."""

import os
import zlib
from collections.abc import Iterable, Iterator
from itertools import chain
from typing import BinaryIO

GZIP = b"\x1f\x8b"
PIECE = 1 << 16  # bytes that are read at once
MOST = 1 << 20  # bytes that are unpacked at once
WITH_HEAD = 31  # zlib's window for a member with gzip's head


class Packed(Exception):
    """Why what gzip packed is not whole."""


def pieces_of(source: BinaryIO) -> Iterator[bytes]:
    """The bytes of a file, each piece as it comes."""
    while data := os.read(source.fileno(), PIECE):
        yield data


def looked_at(pieces: Iterator[bytes]) -> tuple[bytes, Iterator[bytes]]:
    """The first four bytes, or fewer where there are no more, and all of the pieces."""
    begin = b""
    for data in pieces:
        begin += data
        if len(begin) >= 4:
            break
    return begin[:4], chain([begin], pieces)


def unpacked(pieces: Iterable[bytes]) -> Iterator[bytes]:
    """What is packed in these pieces, member after member."""
    member = zlib.decompressobj(WITH_HEAD)
    for data in pieces:
        while data and not (member.eof and not data.strip(b"\0")):
            if member.eof:
                member = zlib.decompressobj(WITH_HEAD)
            try:
                made = member.decompress(data, MOST)
            except zlib.error:
                raise Packed("what gzip packed is damaged: what is before that was read") from None
            if made:
                yield made
            data = member.unconsumed_tail or member.unused_data
    if not member.eof:
        raise Packed("what gzip packed ends early: what is before that was read")
