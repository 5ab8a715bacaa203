#!/usr/bin/env python3
"""Makes a frame stream of a text of frames.

usage: python3 tools/frames.py [--reasons] TEXT OUT

TEXT has a line with the time of each frame, and then its bytes, as `xdpvm_filter show` prints them:

    frame 1000 interface 1 queue 0 reason 7
      0000: 02 00 00 00 00 01 02 00 00 00 00 02 08 00 45 00 |..............E.|

The first number is the time in nanoseconds; interface, queue and reason may be left out. A line of bytes is in
hexadecimal, in any groups; its offset and what follows `|` may be left out, and `#` begins a comment.

OUT is a frame stream of XPF1, with frames of up to 4,096 bytes. With --reasons it is XPF2, with frames of up to 9,216
bytes and a reason for each: why it was dropped, or 0. Longer frames are left out of XPF1, so that later ones have a
smaller number than in the text; in XPF2 an empty frame with the reason 4294967295 takes the place of each, so that
numbers stay. A message says both.

`-` is standard input or standard output. Into a pipe each frame is handed on before the next is read. OUT may not be
TEXT. A file OUT is written beside it and takes its name once it is whole: where anything fails, an old OUT stays as it
was. `xdpvm_filter convert` turns captures into frame streams, and frame streams into captures.

examples:
    python3 tools/frames.py capture.text capture.frames
    python3 tools/frames.py --reasons four.text - | xdpvm_filter convert - four.pcapng

The exit status is 0, or 1 with a message if a file cannot be read or written, or TEXT is no text of frames.
"""
import argparse
import os
import re
import struct
import sys
from collections.abc import Callable, Iterable, Iterator
from typing import NamedTuple

from failures import Words, end, said
from inputs import NoText, named, text_lines
from outputs import IsRead, Output, end_by_signal


class Frame(NamedTuple):
    """A frame of a stream: nanoseconds, where it came in, its bytes, and why it is not run, or 0."""

    time: int
    interface: int
    queue: int
    body: bytes
    reason: int = 0


class Form(NamedTuple):
    """The head of a record, and how many bytes a frame has at most."""

    head: str
    most: int


FORMS = {b"XPF1": Form("<QIII", 4096), b"XPF2": Form("<QIIII", 9216)}  # time, interface, queue, length, reason
TOO_LONG = 2**32 - 1  # the reason of a frame that a stream cannot hold
PIECE = 1 << 24  # no frame of a text is longer
MOST_DIGITS = 21  # a number with so many is too large
MOST_TOLD = 3  # so many frames that are too long are told one by one
GZIP = b"\x1f\x8b"
HEAD = re.compile(r"frame (\d+)(?: interface (\d+))?(?: queue (\d+))?(?: reason (\d+))?")
# What a file is that is no text, by its first bytes.
OTHERS = {
    b"XPF1": "a frame stream",
    b"XPF2": "a frame stream",
    b"\xa1\xb2\xc3\xd4": "a capture (pcap)",
    b"\xd4\xc3\xb2\xa1": "a capture (pcap)",
    b"\xa1\xb2\x3c\x4d": "a capture (pcap)",
    b"\x4d\x3c\xb2\xa1": "a capture (pcap)",
    b"\x0a\x0d\x0d\x0a": "a capture (pcapng)",
}


class Damaged(Exception):
    """A text that cannot be read to its end, and why."""


def tell(message: str) -> None:
    print(message, file=sys.stderr)


def head_of(numbers: Iterable[str | None], frame: int) -> Frame:
    """The frame, without bytes yet, that the first line of one says."""
    digits = [(it or "0").lstrip("0") for it in numbers]
    time, interface, queue, reason = (int(it[:MOST_DIGITS] or "0") for it in digits)
    if time >> 64 or interface >> 32 or queue >> 32 or reason >> 32 or max(map(len, digits)) >= MOST_DIGITS:
        raise Damaged(f"frame {frame} has a number that is too large")
    return Frame(time, interface, queue, b"", reason)


def read_text(line_of: Callable[[int], bytes]) -> Iterator[Frame]:
    """The frames of a text, as `line_of` gives its lines."""
    frame: Frame | None = None
    pieces: list[bytes] = []
    size = count = 0
    for number, line in text_lines(line_of):
        words = line.split("#")[0].split("|")[0].strip()
        head = HEAD.fullmatch(words)
        if head:
            if frame:
                yield frame._replace(body=b"".join(pieces))
            frame, pieces, size, count = head_of(head.groups(), count), [], 0, count + 1
        elif words:
            try:
                pieces.append(bytes.fromhex(re.sub(r"^[0-9a-f]+:", "", words)))
            except ValueError:
                frame = None
            if frame is None:
                raise Damaged(f"line {number} is neither a frame's first line nor bytes of one: {line.strip()[:60]!a}")
            size += len(pieces[-1])
            if size > PIECE:
                raise Damaged(f"frame {count - 1} has over {PIECE:,} bytes")
    if frame:
        yield frame._replace(body=b"".join(pieces))


def tell_long(number: int, frame: Frame, form: Form, has_reasons: bool) -> None:
    """Says what becomes of a frame that is too long."""
    told = f"it has {len(frame.body)} bytes, more than {form.most}"
    if has_reasons:
        tell(f"frame {number} is an empty one with the reason {TOO_LONG}: {told}")
    else:
        tell(f"frame {number} is left out: {told} (--reasons keeps up to {FORMS[b'XPF2'].most:,})")


def write_stream(frames: Iterable[Frame], magic: bytes, put: Callable[[bytes], object]) -> None:
    """Writes a frame stream of this magic."""
    form, has_reasons, lost, too_long = FORMS[magic], magic == b"XPF2", False, 0
    put(magic)
    for number, frame in enumerate(frames):
        is_long = len(frame.body) > form.most
        if is_long:
            too_long += 1
            if too_long <= MOST_TOLD:
                tell_long(number, frame, form, has_reasons)
            frame = frame._replace(body=b"", reason=TOO_LONG)
        lost = lost or (frame.reason != 0 and not is_long and not has_reasons)
        if has_reasons or not is_long:
            reason = [frame.reason] if has_reasons else []
            put(struct.pack(form.head, frame.time, frame.interface, frame.queue, len(frame.body), *reason) + frame.body)
    if too_long > MOST_TOLD:
        tell(f"{too_long - MOST_TOLD:,} more frames are too long")
    if lost:
        tell("this form of frame streams has no reasons: they are lost (--reasons keeps them)")


def convert(words: argparse.Namespace) -> None:
    """Reads the text and writes the stream."""
    path, out = words.files
    with open(0 if path == "-" else path, "rb", closefd=path != "-") as source:
        begin = source.peek(4)[:4]
        if not begin:
            raise Damaged("it is empty, and a text has a frame at least")
        if begin in OTHERS:
            raise Damaged(f"it is {OTHERS[begin]} and no text: xdpvm_filter convert reads it")
        if begin[:2] == GZIP:
            raise Damaged("it is packed by gzip: gunzip unpacks it")
        with Output(out, [path]) as sink:
            write_stream(read_text(source.readline), b"XPF2" if words.reasons else b"XPF1", sink.put)


def main() -> None:
    parser = Words(
        description=named(__doc__ or ""),
        formatter_class=argparse.RawDescriptionHelpFormatter,
        usage=named("python3 tools/frames.py [--reasons] TEXT OUT"),
    )
    parser.add_argument("--reasons", action="store_true", help="a frame stream of XPF2, with reasons")
    parser.add_argument("--named", metavar="NAME", help="what messages call standard input")
    parser.add_argument("files", nargs=2, metavar="FILE", help="TEXT and OUT")
    words = parser.parse_intermixed_args()
    path = words.named or words.files[0]
    end_by_signal()
    try:
        convert(words)
    except BrokenPipeError:
        os.dup2(os.open(os.devnull, os.O_WRONLY), 1)
        sys.exit(1)
    except OSError as error:
        end(f"{said(error, path)}")
    except IsRead as error:
        end(f"{error}")
    except NoText as why:
        end(f"{path}: " + ("it is no text of frames" if why.number == 1 else f"{why}"))
    except Damaged as error:
        end(f"{path}: {error}")


if __name__ == "__main__":
    main()
