#!/usr/bin/env python3
"""Damages inputs: cuts images and frame streams at every length, and changes every byte of an image.

usage: python3 attacks/damage.py [PROGRAM] [--every N] [--versions] [--library FILE]

Images and streams are those of examples/. A cut image is refused; a changed one may be accepted,
and then `run` and `trace` have to agree, with no trap and within the bound. A cut stream leads to
the lines and the frames out of the frames before the cut, and to the fault that the cut makes. With
--versions an image of version 2 and small streams of both versions are taken instead, cut at each
byte, and each byte with each other value; the report and the frames out are judged here. With
--every N one in N bytes is taken. Each wrong result is printed; the last line counts,
and the exit status is 1 if there was one. --library is as for fuzz.py.
"""
import glob
import os
import shutil
import struct
import sys
import tempfile

from in_process import Run, loadable
from fuzz import built, differs, runner
import common
from common import bytes_of, write

EXAMPLES = f"{common.TOP}/examples"


class Tally:
    def __init__(self) -> None:
        self.tried, self.wrong = 0, 0

    def take(self, name: str, problem: str | None) -> None:
        self.tried += 1
        if problem:
            self.wrong += 1
            print(f"{name}: {problem}", flush=True)


MOST = {1: 4096, 2: 9216}  # bytes of a frame, by the version of the stream


def judged(stream: bytes) -> tuple[list[str], bytes]:
    """The report of examples/pass.image on a stream, which passes each frame in two steps, and the frames out."""
    version = {b"XPF1": 1, b"XPF2": 2}.get(stream[:4])
    if version is None:
        return ["fault F1 at 0"], b"XPF1"
    lines: list[str] = []
    at, sent, head = 4, stream[:4], 16 + 4 * version
    while at < len(stream):
        if len(stream) - at < head:
            return [*lines, f"fault F2 at {at}"], sent
        (size,) = struct.unpack_from("<I", stream, at + 16)
        (reason,) = struct.unpack_from("<I", stream, at + 20) if version == 2 else (0,)
        if size > MOST[version]:
            return [*lines, f"fault F3 at {at}"], sent
        if len(stream) - at < head + size:
            return [*lines, f"fault F4 at {at}"], sent
        said = f"SKIP {size} 0 {reason}" if reason else f"PASS {size} 2" + " 0" * (version - 1)
        lines, sent, at = [*lines, f"{len(lines)} {said}"], sent + stream[at : at + head + size], at + head + size
    return [*lines, f"end {len(lines)}"], sent


def try_stream(run: Run, folder: str, name: str, stream: bytes, tally: Tally) -> None:
    cut, sent = os.path.join(folder, "cut"), os.path.join(folder, "sent")
    write(cut, stream)
    answer, (lines, out) = run("run", os.path.join(EXAMPLES, "pass.image"), cut, sent), judged(stream)
    right = (
        answer.stdout.decode().splitlines() == lines
        and answer.returncode == (3 if lines[-1][:5] == "fault" else 0)
        and bytes_of(sent) == out
    )
    tally.take(name, None if right else f"{answer.stdout!r} {answer.returncode}")


def cut_streams(run: Run, folder: str, every: int, tally: Tally) -> None:
    """Each frame stream, cut."""
    for path in sorted(glob.glob(os.path.join(EXAMPLES, "*.frames"))):
        stream = bytes_of(path)
        for length in range(0, min(len(stream), 2_000) + 1, every):
            try_stream(run, folder, f"{path} cut to {length}", stream[:length], tally)


# Two frames of a stream with reasons, the second of which is not run.
TWO = b"XPF2" + struct.pack("<QIIII", 1000, 1, 0, 3, 0) + b"\xca\xfe\x00" + struct.pack("<QIIII", 2000, 2, 7, 2, 9) + b"\x01\xff"


def changed_streams(run: Run, folder: str, every: int, tally: Tally) -> None:
    """Each cut of a small stream of either version, and each byte of it with each other value."""
    for stream in (
        TWO,
        b"XPF1" + struct.pack("<QIII", 1000, 1, 0, 3) + b"\xca\xfe\x00" + struct.pack("<QIII", 2000, 2, 7, 2) + b"\x01\xff",
    ):
        name = stream[:4].decode()
        for length in range(0, len(stream) + 1, every):
            try_stream(run, folder, f"{name} cut to {length}", stream[:length], tally)
        for at in range(0, len(stream), every):
            for byte in range(256):
                try_stream(run, folder, f"{name} with {byte} at {at}", stream[:at] + bytes([byte]) + stream[at + 1 :], tally)


# Of version 2: an action by a packet byte, and a reason in the upper half of r0.
SECOND = """version 2
map array 4 8 1
r2 = *(u32 *)(r1 + 0); r3 = *(u32 *)(r1 + 4); r4 = r2; r4 += 4; r0 = 2; if r4 > r3 goto done
r0 = *(u8 *)(r2 + 3); r0 &= 3; r5 = 0x700000000 ll; r0 |= r5
done: exit
"""


def changed_second_version(run: Run, folder: str, every: int, tally: Tally) -> None:
    """Each cut of an image of version 2, and each byte of it with each other value: refused, or run as it is traced."""
    paths = [os.path.join(folder, name) for name in ("image", "frames", "sent", "resent")]
    text = os.path.join(folder, "text")
    write(text, SECOND.encode())
    run("asm", text, paths[0])
    image = bytes_of(paths[0])
    write(paths[1], TWO + struct.pack("<QIIII", 3000, 0, 0, 20, 0) + bytes(range(20)))
    for length in range(0, len(image), every):
        try_image(run, paths, f"XBP2 cut to {length}", image[:length], tally, (b"refused I1", b"refused I2"))
    for at in range(0, len(image), every):
        for byte in range(256):
            try_image(run, paths, f"XBP2 with {byte} at {at}", image[:at] + bytes([byte]) + image[at + 1 :], tally)


def try_image(
    run: Run, paths: list[str], name: str, image: bytes, tally: Tally, refusals: tuple[bytes, ...] = (b"refused ",)
) -> None:
    """Refused, in one of these ways, or run as it is traced."""
    write(paths[0], image)
    answer = run("verify", paths[0])
    problem = None
    if answer.returncode == 0 and answer.stdout[:9] == b"ok bound " and refusals == (b"refused ",):
        problem = differs(paths, int(answer.stdout.split()[2]), run)
    elif answer.returncode != 2 or not answer.stdout.startswith(refusals):
        problem = f"{answer.stdout!r} {answer.returncode}"
    tally.take(name, problem)


def damaged_images(run: Run, folder: str, every: int, tally: Tally) -> None:
    paths = [os.path.join(folder, name) for name in ("image", "frames", "sent", "resent")]
    for path in sorted(glob.glob(os.path.join(EXAMPLES, "*.image"))):
        image = bytes_of(path)
        for length in range(0, len(image), every):
            try_image(run, paths, f"{path} cut to {length}", image[:length], tally, (b"refused I1", b"refused I2"))
        stream = path[:-6] + ".frames"
        write(paths[1], bytes_of(stream) if os.path.exists(stream) else b"XPF1")
        for at in range(0, len(image), every):
            for change in (1, 0x80, 0xFF):
                try_image(
                    run,
                    paths,
                    f"{path} with byte {at} changed by {change}",
                    image[:at] + bytes([image[at] ^ change]) + image[at + 1 :],
                    tally,
                )


def main() -> None:
    words = common.command_line()
    words.add_argument("program", nargs="?", type=built, default=common.built())
    words.add_argument("--every", type=int, default=1)
    words.add_argument("--versions", action="store_true", help="each other value of each byte of small inputs")
    words.add_argument("--library", type=loadable, help="a shared library, or an archive, that answers in this process")
    asked = words.parse_args()
    folder, tally, run = tempfile.mkdtemp(), Tally(), runner(asked.program, asked.library)
    for damages in (changed_streams, changed_second_version) if asked.versions else (cut_streams, damaged_images):
        damages(run, folder, asked.every, tally)
    shutil.rmtree(folder)
    print(f"{tally.tried} damaged inputs, {tally.wrong} wrong answers")
    sys.exit(1 if tally.wrong else 0)


if __name__ == "__main__":
    main()
