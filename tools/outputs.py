"""Files that the tools write: never one that is read, and whole, or as they were before."""
import contextlib
import os
import signal
import stat
import sys
import tempfile
from types import TracebackType
from collections.abc import Iterable
from typing import BinaryIO


class IsRead(Exception):
    """An output is one of the inputs; the message names it."""


def is_same(one: str, other: str) -> bool:
    """Whether two paths lead to one file on a disk, by whatever names and links."""
    try:
        here, there = os.stat(one), os.stat(other)
    except OSError:
        return False
    return stat.S_ISREG(here.st_mode) and os.path.samestat(here, there)


def refuse_inputs(path: str, read: Iterable[str | None]) -> None:
    """Refuses an output that is one of the files that are read."""
    if any(is_same(path, other) for other in read if other):
        raise IsRead(f"{path}: it is one of the files that are read")


def is_plain(path: str) -> bool:
    """Whether a path is a file on a disk, or may become one."""
    try:
        return stat.S_ISREG(os.stat(path).st_mode)
    except FileNotFoundError:
        return True
    except OSError:
        return False


def end_by_signal() -> None:
    """Has a signal to end raise SystemExit, so that a file that is half written is removed."""

    def end(number: int, _: object) -> None:
        sys.exit(128 + number)

    for number in (signal.SIGTERM, signal.SIGHUP):
        signal.signal(number, end)


class Output:
    """A file that is written. Its bytes go into a new file beside it, which takes its name and its mode once all is
    written; until then, and where anything fails, it stays as it was. `-` is standard output. A pipe or a device is
    written directly, and each piece is handed on at once. A failure to write names the file."""

    def __init__(self, path: str, read: Iterable[str | None] = ()) -> None:
        refuse_inputs(path, read)
        self.path = path
        self.is_standard = path == "-"
        self.is_plain = not self.is_standard and is_plain(path)
        self.part: str | None = None
        self.file: BinaryIO | None = None
        self.is_live = not self.is_plain and not (self.is_standard and is_plain_output())

    def __enter__(self) -> "Output":
        if self.is_standard:
            self.file = sys.stdout.buffer
        elif self.is_plain:
            self._named(self._open_part)
        else:
            self._named(self._open_directly)
        return self

    def _open_directly(self) -> None:
        self.file = open(self.path, "wb")

    def _open_part(self) -> None:
        at = os.path.realpath(self.path)
        try:
            mode = stat.S_IMODE(os.stat(at).st_mode)
        except FileNotFoundError:
            mask = os.umask(0)
            os.umask(mask)
            mode = 0o666 & ~mask
        handle, self.part = tempfile.mkstemp(prefix=f".{os.path.basename(at)}.", dir=os.path.dirname(at))
        self.file = os.fdopen(handle, "wb")
        os.fchmod(handle, mode)

    def put(self, data: bytes) -> None:
        """Writes a piece."""
        self._named(lambda: self._put(data))

    def _put(self, data: bytes) -> None:
        assert self.file is not None
        self.file.write(data)
        if self.is_live:
            self.file.flush()

    def __exit__(self, kind: type[BaseException] | None, *_: BaseException | TracebackType | None) -> None:
        if kind is None:
            self._named(self._finish)
        else:
            self._give_up()

    def _finish(self) -> None:
        assert self.file is not None
        try:
            self.file.flush()
            if not self.is_standard:
                self.file.close()
            if self.part is not None:
                os.replace(self.part, os.path.realpath(self.path))
                self.part = None
        finally:
            self._give_up()

    def _give_up(self) -> None:
        if self.file is not None and not self.is_standard:
            with contextlib.suppress(OSError):
                self.file.close()
        if self.part is not None:
            with contextlib.suppress(OSError):
                os.remove(self.part)
            self.part = None

    def _named(self, act: object) -> None:
        assert callable(act)
        try:
            act()
        except BrokenPipeError:
            raise
        except OSError as why:
            why.filename = "standard output" if self.is_standard else self.path
            why.filename2 = None
            raise


def is_plain_output() -> bool:
    """Whether standard output is a file on a disk."""
    try:
        return stat.S_ISREG(os.fstat(1).st_mode)
    except OSError:
        return False


def copy_whole(path: str, source: str, read: Iterable[str | None]) -> None:
    """Writes a file with the bytes of another one; it is none of those that are read."""
    with Output(path, read) as out, open(source, "rb") as file:
        while data := file.read(1 << 20):
            out.put(data)


def write_whole(path: str, data: bytes, read: Iterable[str | None]) -> None:
    """Writes a file of these bytes; it is none of those that are read."""
    with Output(path, read) as out:
        out.put(data)
