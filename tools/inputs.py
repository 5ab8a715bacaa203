"""What the tools are given: their words, by the name that each was called by, and texts, line by line."""
import os
import re
import sys
from collections.abc import Callable, Iterator

# Tools that are not installed as xdpvm-NAME: xdpvm-filter would be xdpvm_filter, the program, but for one character.
INSTALLED = {"filter": "expression"}


def named(text: str) -> str:
    """A tool's help with the names that tools have where they are installed, if it was called by such a name."""
    called = os.path.basename(sys.argv[0])
    if called.endswith((".py", ".sh")):
        return text
    return re.sub(r"(?:python3|bash) (?:tools|examples)/(\w+)\.(?:py|sh)", lambda it: f"xdpvm-{INSTALLED.get(it[1], it[1])}", text)


LINE = 1 << 16  # no line of a text is longer, in bytes


class NoText(Exception):
    """A line that is none of a text, by its number, and why."""

    def __init__(self, number: int, why: str) -> None:
        super().__init__(f"line {number} {why}")
        self.number = number


def text_lines(readline: Callable[[int], bytes]) -> Iterator[tuple[int, str]]:
    """The lines of a text with their numbers, as `readline` gives their bytes."""
    number = 0
    while line := readline(LINE):
        number += 1
        try:
            text = line.decode("utf-8")
        except UnicodeDecodeError:
            raise NoText(number, "is not UTF-8") from None
        if "\0" in text:
            raise NoText(number, "has a byte 0")
        if len(line) >= LINE:
            raise NoText(number, f"has {LINE:,} bytes or more")
        yield number, text
