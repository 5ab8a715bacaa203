"""Files of maps: the one beside an image, IMAGE.maps, with map lines of what its variables and constants begin with,
and what a run is given of it and of a file of the user's.

The first line of IMAGE.maps is a comment that has the image's SHA-256 sum, so a file that is left from another image is
not taken for this one's."""

import hashlib
import os
import re
import shutil
import sys
from dataclasses import dataclass
from collections.abc import Iterable

from objects import Refused
from outputs import is_plain, refuse_inputs, write_whole

ENDING = ".maps"
MARK = "# what the variables and constants begin with, of the image with this SHA-256 sum: "


class NotIts(Exception):
    """The file of maps beside an image is another image's, or another tool's; the message names it."""


def path_of(image: str) -> str:
    """The path of the file of maps beside an image."""
    return image + ENDING


def first_line(image: bytes) -> str:
    """The line by which a file of maps is known as that of an image."""
    return f"{MARK}{hashlib.sha256(image).hexdigest()}\n"


def text_of(path: str) -> str | None:
    """The text of a file of maps that image.py made, or nothing. One that is there and cannot be read is an error."""
    if not is_plain(path):
        return None
    try:
        with open(path, encoding="ascii") as file:
            return MARK + file.read() if file.read(len(MARK)) == MARK else None
    except (FileNotFoundError, UnicodeDecodeError):
        return None
    except OSError as why:
        why.filename = path
        raise


def refuse_others(path: str, fill: str) -> None:
    """Refuses an image that has no place for its file of maps, or in whose place another one is."""
    if fill and (path == "-" or not is_plain(path)):
        raise Refused(f"its variables begin with values, which are written beside the image: {path} has to be a file")
    if fill and os.path.lexists(path_of(path)) and text_of(path_of(path)) is None:
        raise NotIts(f"{path_of(path)}: it is there, and image.py did not make it; call the image something else")


def write_beside(path: str, image: bytes, fill: str, read: Iterable[str | None]) -> None:
    """Writes an image, and the file of maps beside it; where there is nothing to say of maps, an old one of image.py's
    is removed. The file of maps is written first: an image is never beside one that lacks its values."""
    read = list(read)
    refuse_inputs(path, read)
    refuse_others(path, fill)
    if fill:
        write_whole(path_of(path), (first_line(image) + fill).encode(), read)
    write_whole(path, image, read)
    if not fill and text_of(path_of(path)) is not None:
        os.remove(path_of(path))


def lines_beside(path: str, copy: str | None = None) -> str:
    """The map lines of the file beside an image, or nothing where image.py made none. `copy` has the image's bytes, if
    they are not read from `path`."""
    text = text_of(path_of(path))
    if text is None:
        return ""
    with open(copy or path, "rb") as file:
        image = file.read()
    if not text.startswith(first_line(image)):
        raise NotIts(f"{path_of(path)}: it is of another image than {path}; make the image again, or remove it")
    return text[len(first_line(image)) :]


@dataclass(frozen=True)
class Filling:
    """The text of maps that a run is given, in a file: what variables and constants begin with, and then the lines of a
    file of the user's, if there is one."""

    path: str
    lines: int = 0
    named: str | None = None

    def told(self, said: str) -> str:
        """What a program says of the text, with the user's file and its line numbers."""
        if self.named is None or self.named == self.path:
            return said
        line = re.sub(r"\bline (\d+)", lambda it: f"line {max(int(it[1]) - self.lines, 0)}", said)
        return line.replace(self.path, self.named)


def filling(fill: str, given: str | None, folder: str) -> Filling | None:
    """The text of maps of these lines and of a file, `-` for standard input; or nothing, where there is neither. It is
    made in the folder, unless a file has all of it."""
    if not fill and (given is None or is_plain(given) and given != "-"):
        return None if given is None else Filling(given, named=given)
    path = os.path.join(folder, "filling.maps")
    with open(path, "wb") as out:
        out.write(fill.encode())
        if given == "-":
            shutil.copyfileobj(sys.stdin.buffer, out)
        elif given is not None:
            with open(given, "rb") as file:
                shutil.copyfileobj(file, out)
    return Filling(path, fill.count("\n"), given)
