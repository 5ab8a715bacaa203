"""A run of an image on frames, by `xdpvm run` or `trace`, or by `xdpvm_filter` where maps are filled or kept, and the
programs that convert the frames before and after it: `xdpvm_filter convert`, and frames.py for texts."""

import contextlib
import os
import subprocess
import sys
import threading
from dataclasses import dataclass, field
from collections.abc import Callable, Iterator
from typing import IO, BinaryIO

from map_files import Filling
from outputs import copy_whole, is_plain, write_whole
from packed import GZIP, Packed, looked_at, pieces_of, unpacked
from sources import HERE, Failed, the_filter

FRAMES = os.path.join(HERE, "frames.py")
STREAMS = (b"XPF1", b"XPF2")
PCAP = (b"\xd4\xc3\xb2\xa1", b"\xa1\xb2\xc3\xd4", b"\x4d\x3c\xb2\xa1", b"\xa1\xb2\x3c\x4d")
PCAPNG = b"\x0a\x0d\x0d\x0a"
SENT = "what is sent on"
CUT_OFF = "the file was cut"  # what xdpvm_filter says of a capture that ends within a frame, with status 3
ENDED = (0, 3)  # the statuses of a run to the end of its frames, or to a fault of theirs


@dataclass
class Wanted:
    """What runs on the frames: the program, and the one for maps that are filled, how it runs, and what is given to
    it."""

    xdpvm: str
    filter: str
    image: str
    folder: str
    is_traced: bool = False
    limit: list[str] = field(default_factory=list)
    filling: Filling | None = None
    maps_out: str | None = None
    read: list[str | None] = field(default_factory=list)

    def path(self, name: str) -> str:
        """A file of the folder of this run."""
        return os.path.join(self.folder, name)

    def words(self, frames: str, sent: str) -> list[str]:
        """The command, but for where the report goes."""
        if not self.filter:
            return [self.xdpvm, "trace" if self.is_traced else "run", self.image, frames, sent, *self.limit]
        words = [self.filter, self.image, frames, sent, *["--checked"] * self.is_traced, *self.limit]
        words += ["--maps", self.filling.path] if self.filling else []
        return words + (["--maps-out", self.path("kept.maps")] if self.maps_out else [])


class Chain:
    """Programs that hand frames on to one another, each as it comes: a converter, xdpvm, and a converter."""

    def __init__(self) -> None:
        self.running: list[tuple[str, "subprocess.Popen[bytes]"]] = []

    def start(self, name: str, words: list[str], **how: object) -> "subprocess.Popen[bytes]":
        """Starts one of them."""
        child: "subprocess.Popen[bytes]" = subprocess.Popen(words, **how)  # type: ignore[call-overload]
        self.running.append((name, child))
        return child

    def stop(self) -> None:
        """Ends those that still run."""
        for _, child in self.running:
            if child.poll() is None:
                child.terminate()

    def failed(self) -> list[str]:
        """The names of those that ended with a status other than 0."""
        return [name for name, child in self.running if child.wait()]


class Run:
    """The program on frames: its report comes line by line. Where it is xdpvm_filter, standard output has a refusal, or
    counts that are not needed. Standard error is kept where that is wanted, of a trace, and of xdpvm_filter."""

    def __init__(self, wanted: Wanted, chain: Chain, keeps_errors: bool = False) -> None:
        self.wanted, self.chain = wanted, chain
        self.keeps_errors = keeps_errors or wanted.is_traced or bool(wanted.filter)
        self.report: IO[bytes] | None = None
        self.child: "subprocess.Popen[bytes] | None" = None

    def start(self, frames: str, sent: str, passed: tuple[int, ...] = (), **how: object) -> None:
        """Starts it. `passed` are the files that it gets beside the standard ones."""
        words = self.wanted.words(frames, sent)
        with contextlib.ExitStack() as files:
            if self.keeps_errors:
                how["stderr"] = files.enter_context(open(self.wanted.path("errors"), "wb"))
            if not self.wanted.filter:
                self.child = self.chain.start("xdpvm", words, stdout=subprocess.PIPE, pass_fds=passed, **how)
                self.report = self.child.stdout
                return
            how["stdout"] = files.enter_context(open(self.wanted.path("said"), "wb"))
            read_end, write_end = os.pipe()
            words += ["--report", f"/dev/fd/{write_end}"]
            self.child = self.chain.start("xdpvm", words, pass_fds=(*passed, write_end), **how)
        os.close(write_end)
        self.report = os.fdopen(read_end, "rb")

    def lines(self) -> Iterator[str]:
        """The lines of the report."""
        assert self.report is not None
        with self.report:
            for line in self.report:
                yield line.decode(errors="replace").rstrip("\n")

    def finish(self) -> tuple[int, str]:
        """Waits for the end; the status, and what is said of a refusal. What the maps hold is written where it is asked
        for."""
        assert self.child is not None
        wanted, status = self.wanted, self.child.wait()
        if status in ENDED and wanted.maps_out:
            with open(wanted.path("kept.maps"), "rb") as file:
                write_whole(wanted.maps_out, file.read(), wanted.read)
        if not wanted.filter or status != 2:
            return status, ""
        with open(wanted.path("said"), encoding="utf-8", errors="replace") as said:
            return status, self.told(said.read())

    def told(self, said: str) -> str:
        """What the program says, in the names and lines of the user's files."""
        filling = self.wanted.filling
        return filling.told(said) if filling else said

    def errors(self) -> str:
        """What the program said on standard error, where that is kept."""
        with contextlib.suppress(FileNotFoundError):
            with open(self.wanted.path("errors"), encoding="utf-8", errors="replace") as file:
                return self.told(file.read())
        return ""


@dataclass
class Conversion:
    """How frames are converted: what they become, with reasons or without, and the xdpvm beside which is the program that
    does it. frames.py makes a frame stream of a text."""

    xdpvm: str
    kind: str
    reasons: list[str]

    def words(self, begin: bytes, source: str, made: str, named: str = "") -> list[str]:
        """The command for frames that begin so. `named` is what messages of frames.py call the source."""
        if begin in (*STREAMS, *PCAP, PCAPNG):
            kind = "text" if self.kind == "txt" else self.kind
            return [the_filter(self.xdpvm), "convert", "--to", kind, *self.reasons, source, made]
        told = ["--named", named] if named else []
        return [sys.executable, FRAMES, *told, *self.reasons, source, made]

    def made(self, begin: bytes, source: str, made: str, name: str) -> str:
        """Converts a file, which gzip may have packed; the result is what is said of its frames. `name` is what messages
        call the file if that is a temporary one."""
        if begin[: len(GZIP)] == GZIP:
            begin, source = written_unpacked(source, f"{made}.unpacked")
        ran = subprocess.run(
            self.words(begin, source, made, name), stderr=subprocess.PIPE, text=True, errors="replace", check=False
        )
        sys.stderr.write(ran.stderr.replace(source, name))
        if ran.returncode and not is_cut(ran.returncode, ran.stderr):
            raise Failed(f"{name} cannot be converted")
        return ran.stderr


def looked_at_unpacked(packed: Iterator[bytes], name: str) -> tuple[bytes, Iterator[bytes]]:
    """The first bytes of what is packed in these pieces, and all of it. `name` is what messages call the file."""
    try:
        return looked_at(unpacked(packed))
    except Packed as why:
        raise Failed(f"{name}: {why}") from None


def written_unpacked(path: str, made: str) -> tuple[bytes, str]:
    """Unpacks a file; the first bytes of what was packed in it, and the file that has it. What is said of a file that
    ends early is said."""
    with open(path, "rb") as source, open(made, "wb") as out:
        begin, pieces = looked_at_unpacked(pieces_of(source), path)
        try:
            out.writelines(pieces)
        except Packed as why:
            print(f"{path}: {why}", file=sys.stderr)
    return begin, made


def is_cut(status: int, said: str) -> bool:
    """Whether the frames end within one, of which those before it were converted."""
    return status == 3 and CUT_OFF in said


def handed_on(pieces: Iterator[bytes], sink: IO[bytes], name: str) -> None:
    """Hands on pieces as they come. `name` is what messages call the file that they are of."""
    with contextlib.suppress(BrokenPipeError), sink:
        try:
            for data in pieces:
                sink.write(data)
                sink.flush()
        except Packed as why:
            print(f"{name}: {why}", file=sys.stderr)


@dataclass
class Ends:
    """Where frames come from and go to: a capture, what gets those that are sent on, if anything does, and in which
    format."""

    capture: str
    out: str | None
    kind: str
    reasons: list[str]


class Live:
    """A run on frames as they come, which hands on those that are sent on as they come."""

    def __init__(self, wanted: Wanted, ends: Ends) -> None:
        self.ends, self.chain, self.wanted = ends, Chain(), wanted
        self.sent = "/dev/null"
        self.said = wanted.path("converted")  # what is said of the capture
        self.run = Run(wanted, self.chain, keeps_errors=True)
        self.start(sys.stdin.buffer if ends.capture == "-" else open(ends.capture, "rb"))

    def start(self, capture: BinaryIO) -> None:
        """Starts the programs, and what feeds the first of them."""
        ends = self.ends
        begin, pieces = looked_at(pieces_of(capture))
        if begin[: len(GZIP)] == GZIP:
            begin, pieces = looked_at_unpacked(pieces, ends.capture)
        source: object = subprocess.PIPE
        if begin[:3] != b"XPF":
            words = Conversion(self.wanted.xdpvm, "frames", ends.reasons).words(begin, "-", "-", ends.capture)
            with open(self.said, "wb") as said:
                how = {"stdin": subprocess.PIPE, "stdout": subprocess.PIPE, "stderr": said}
                source = self.chain.start(ends.capture, words, **how).stdout
        read_end, write_end = os.pipe()
        if ends.out:
            self.sent = f"/dev/fd/{write_end}"
        self.run.start("/dev/stdin", self.sent, (write_end,), stdin=source)
        os.close(write_end)
        if ends.out:
            words = Conversion(self.wanted.xdpvm, ends.kind, ends.reasons).words(STREAMS[0], "-", self.made(ends.out))
            self.chain.start(SENT, words, stdin=read_end)
        os.close(read_end)
        sink = self.chain.running[0][1].stdin
        assert sink is not None
        threading.Thread(target=handed_on, args=(pieces, sink, ends.capture), daemon=True).start()

    def made(self, out: str) -> str:
        """The file that the frames are written to: that one, or where it is on a disk, one that is copied when it is
        whole."""
        return self.wanted.path("out") if out != "-" and is_plain(out) else out

    def told(self) -> str:
        """What is said of the capture."""
        with contextlib.suppress(FileNotFoundError):
            with open(self.said, encoding="utf-8", errors="replace") as file:
                return file.read().replace("/dev/stdin", self.ends.capture)
        return ""

    def is_cut(self, name: str) -> bool:
        """Whether the program of this name read a capture that ends within a frame."""
        return name == self.ends.capture and is_cut(self.chain.running[0][1].wait(), self.told())

    def finish(self, tell: Callable[[str], None]) -> tuple[int, str]:
        """Waits for all programs, and tells the errors of the run, which name what the user named; its status, and its
        refusal."""
        status, said = self.run.finish()
        if status not in ENDED:
            self.chain.stop()
        failed = [name for name in self.chain.failed() if name != "xdpvm" and not self.is_cut(name)]
        sys.stderr.write(self.told())
        tell(self.run.errors().replace(self.sent, SENT).replace("/dev/stdin", self.ends.capture))
        if failed and status in ENDED:
            raise Failed(f"{failed[0]} cannot be converted")
        out = self.ends.out
        if out and self.made(out) != out and status in ENDED:
            copy_whole(out, self.made(out), self.wanted.read)
        return status, said
