#!/usr/bin/env python3
"""Compares xdpvm with the Linux kernel of this machine: the verdict on a filter, and its runs on frames.

usage: python3 tools/kernel.py FILTER FRAMES [--maps MAPS] [--xdpvm PROGRAM] [--plain] [--log LINES] [--section NAME]
                               [--program NAME] [--btf FILE] [--lru-as-hash] [--clang COMPILER] [-- FLAG ..]

FILTER is an image, a text, an object or C, as xdp.py takes it. The image's maps are made in the kernel and its program
is loaded there, by bpf(2); nothing is attached or pinned, and all is closed at the end. The program runs on each frame
of FRAMES (a frame stream, a capture or a text of frames) by the kernel's test run, and by `xdpvm run`. It prints
both verdicts, and where the runs agree or differ: for each frame the action and the bytes after the run, and at the end
the contents of the maps.

Before the first frame both have the maps filled alike: with what the filter's variables and constants begin with, and
then with the map lines of MAPS. Then `xdpvm_filter` runs in place of `xdpvm run`.

The kernel's test run takes frames of 14 to 3,520 bytes that came in on interface 1, queue 0: other lengths are left
out, and all frames are given that interface and queue. Helper 5 reads another clock there: if a program calls it, both
are given the same time at each call, and a line says so. With --plain the kernel loads the program without CAP_PERFMON,
so under the stricter rules of its verifier (no leaks of pointers, no reads of bytes of the stack that were not
written), which are like those of xdpvm. --log prints the last lines of the kernel's verifier log.

examples:
    sudo python3 tools/kernel.py examples/firewall.image examples/firewall.frames --xdpvm crates/xdpvm/out/xdpvm
    sudo python3 tools/kernel.py filter.image traffic.pcapng --plain --log 20
    sudo python3 tools/kernel.py filter.c traffic.pcapng --maps allowed.maps

The exit status is 0 if verdicts and runs agree, 1 if not, 2 if the command is wrong, and 77 where bpf(2) cannot be
used: it needs Linux on x86-64 and root.
"""
from __future__ import annotations

import argparse
import shutil
import struct
import subprocess
import sys
import tempfile
from collections.abc import Iterable
from dataclasses import dataclass
from pathlib import Path

import sources
from failures import Words, said, tell
from inputs import named
from kernel_calls import LEAST, MOST, Entry, Kernel, NoKernel, parsed, without_perfmon
from map_files import Filling, filling
from runs import STREAMS, Conversion

ACTIONS = ["ABORTED", "DROP", "PASS", "TX", "REDIRECT"]
TIME = 10**9  # in nanoseconds, where both are given the same
Frame = tuple[int, bytes]  # time and body


# ---- images and frames


def records(stream: bytes) -> list[Frame]:
    """Time and body of each record of a frame stream without a reason."""
    form, at = stream[:4], 4
    found: list[Frame] = []
    if form not in (b"XPF1", b"XPF2"):
        raise ValueError("this is no frame stream")
    head = 20 if form == b"XPF1" else 24
    while at + head <= len(stream):
        time, _, _, length = struct.unpack_from("<QIII", stream, at)
        reason = 0 if head == 20 else struct.unpack_from("<I", stream, at + 20)[0]
        if reason == 0:
            found.append((time, stream[at + head : at + head + length]))
        at += head + length
    return found


def stream_of(frames: list[Frame]) -> bytes:
    """A stream with reasons of these frames, each from interface 1 and queue 0."""
    return b"XPF2" + b"".join(struct.pack("<QIIII", time, 1, 0, len(body), 0) + body for time, body in frames)


def asks_for_time(image: bytes) -> bool:
    """Whether a program calls helper 5."""
    return with_time(image) != image


def with_time(image: bytes) -> bytes:
    """The image with each call of helper 5 replaced by a move of the time into r0."""
    rows, slots = parsed(image)
    wide, made = False, []
    for slot in slots:
        opcode, registers, _, imm = struct.unpack("<BBhi", slot)
        is_call = opcode == 0x85 and registers == 0 and imm == 5 and not wide
        made.append(struct.pack("<BBhi", 0xB7, 0, 0, TIME) if is_call else slot)
        wide = opcode == 0x18 and not wide
    return image[: 8 + 12 * len(rows)] + b"".join(made)


# ---- xdpvm


@dataclass(frozen=True)
class Filled:
    """The text of maps that both are given before the first frame, and the program that takes it."""

    program: str
    filling: Filling

    def report(self, image: str | Path, frames: str, sent: str, path: str) -> str:
        """The report of a run on these maps, which is written to a file first."""
        words = [self.program, image, frames, sent, "--maps", self.filling.path, "--report", path]
        ran = subprocess.run(words, capture_output=True, text=True, check=False)
        if ran.returncode:
            raise ValueError(self.filling.told(f"{ran.stdout}{ran.stderr}").strip())
        with open(path, encoding="ascii") as file:
            return file.read()

    def entries(self) -> list[Entry]:
        """What the text says of maps, line by line."""
        with open(self.filling.path, encoding="utf-8", errors="replace") as file:
            return entries_of(file)


class Report:
    """What a run over a stream with reasons left: the lines of the frames, in words, the frames' bytes after it, and
    the maps' keys and values."""

    def __init__(self, lines: list[str], sent: bytes) -> None:
        words = [line.split() for line in lines]
        self.rows = [it for it in words if it[0] not in ("map", "end", "fault")]
        self.bodies = [body for _, body in whole(sent)]
        self.entries = entries_of(lines)


class Ran:
    """What `xdpvm` says of an image: its verdict, and the report of a run, on maps that are filled."""

    def __init__(self, program: str, image: str | Path, frames: list[Frame], filled: Filled | None = None) -> None:
        verdict = subprocess.run([program, "verify", image], capture_output=True, text=True, check=False)
        self.verdict = verdict.stdout.strip() or verdict.stderr.strip()
        self.accepted = verdict.returncode == 0
        self.report = self.run(program, image, frames, filled) if self.accepted else Report([], b"")

    @staticmethod
    def run(program: str, image: str | Path, frames: list[Frame], filled: Filled | None) -> Report:
        """Runs the image on the frames."""
        with tempfile.TemporaryDirectory() as folder:
            given, sent = f"{folder}/in", f"{folder}/out"
            with open(given, "wb") as file:
                file.write(stream_of(frames))
            if filled:
                report = filled.report(image, given, sent, f"{folder}/report")
            else:
                words = [program, "run", image, given, sent]
                report = subprocess.run(words, capture_output=True, text=True, check=False).stdout
            with open(sent, "rb") as file:
                return Report(report.splitlines(), file.read())


def entries_of(lines: Iterable[str]) -> list[Entry]:
    """What map lines say; others are left out."""
    words = [line.split() for line in lines if line.startswith("map ")]
    return [(int(index), bytes.fromhex(key), bytes.fromhex(value)) for _, index, key, value in words]


def whole(stream: bytes) -> list[Frame]:
    """Time and body of each record of a stream with reasons."""
    at = 4
    found: list[Frame] = []
    while at < len(stream):
        time, _, _, length, _ = struct.unpack_from("<QIIII", stream, at)
        found.append((time, stream[at + 24 : at + 24 + length]))
        at += 24 + length
    return found


def action_of(answer: int) -> str:
    """The name of an action."""
    return ACTIONS[answer] if answer < len(ACTIONS) else "INVALID"


def differences(kernel: Kernel, ran: Report, frames: list[Frame]) -> tuple[list[str], int]:
    """Where the runs differ, a line each; and how many frames were run by both."""
    found: list[str] = []
    both = 0
    if len(ran.rows) != len(frames) or len(ran.bodies) != len(frames):
        return [f"xdpvm ran {len(ran.rows)} frames of {len(frames)}"], 0
    for number, ((_, body), row, after) in enumerate(zip(frames, ran.rows, ran.bodies)):
        answered = kernel.run(body)
        if answered is None:
            return (
                found + [f"frame {number} has {len(body)} bytes: the kernel's test run takes {LEAST} to {MOST}"],
                both,
            )
        both += 1
        if action_of(answered[0]) != row[1]:
            found.append(f"frame {number}: xdpvm {row[1]}, the kernel {action_of(answered[0])} ({answered[0]})")
        if answered[1] != after:
            at = next((k for k, (a, b) in enumerate(zip(answered[1], after)) if a != b), min(len(answered[1]), len(after)))
            ours, theirs = after[at : at + 8].hex(), answered[1][at : at + 8].hex()
            found.append(f"frame {number}: the bytes differ at {at}: xdpvm {ours}, the kernel {theirs}")
    left, right = sorted(ran.entries), sorted(kernel.entries())
    if left != right:
        one = next((it for it in left + right if (it in left) != (it in right)))
        whose = "of xdpvm" if one in left else "of the kernel"
        found.append(f"map {one[0]}: the key {one[1].hex()} with the value {one[2].hex()} is only {whose}")
    return found, both


# ---- the command


def fitting(stream: bytes) -> tuple[list[Frame], int]:
    """The frames of a stream that fit the kernel's test run, and how many are left out."""
    found = records(stream)
    fit = [it for it in found if LEAST <= len(it[1]) <= MOST]
    return fit, len(found) - len(fit)


def frames_in(path: str, xdpvm: str, folder: str) -> tuple[list[Frame], int]:
    """The same of a stream, a capture or a text of frames."""
    begin, made = sources.begin_of(path), path
    if begin not in STREAMS:
        made = f"{folder}/made.frames"
        Conversion(xdpvm, "frames", []).made(begin, path, made, path)
    with open(made, "rb") as file:
        return fitting(file.read())


def arguments() -> argparse.Namespace:
    """The words of the command line."""
    words, text = sys.argv[1:], named(__doc__ or "")
    usage = text.split("usage: ")[1].split("\n\n")[0]
    parser = Words(description=text, usage=usage, formatter_class=argparse.RawDescriptionHelpFormatter)
    parser.add_argument("filter", metavar="FILTER")
    parser.add_argument("frames", metavar="FRAMES")
    parser.add_argument("--maps")
    parser.add_argument("--xdpvm", default=sources.the_xdpvm())
    for name in ("section", "program", "btf"):
        parser.add_argument(f"--{name}")
    parser.add_argument("--lru-as-hash", action="store_true")
    parser.add_argument("--clang", default="clang")
    parser.add_argument("--plain", action="store_true")
    parser.add_argument("--log", type=int, default=0)
    given = parser.parse_intermixed_args(words[: words.index("--")] if "--" in words else words)
    given.flags = words[words.index("--") + 1 :] if "--" in words else []
    return given


def judged(given: argparse.Namespace, kernel: Kernel, ran: Ran) -> int | None:
    """Prints both verdicts; the status, where the runs are not compared."""
    print(f"xdpvm:  {ran.verdict}")
    print(f"kernel: {'ok' if kernel.refusal is None else 'refused: ' + kernel.refusal}{kernel.processed()}")
    if given.log and kernel.log:
        print(*kernel.log.decode(errors="replace").splitlines()[-given.log :], sep="\n")
    if ran.accepted != (kernel.refusal is None):
        return 1
    return None if ran.accepted else 0


def compared(given: argparse.Namespace, folder: str) -> int:
    """Prints how both judge and run the filter; the status."""
    choice = sources.Choice(given.xdpvm, given.section, given.program, given.clang, given.flags, given.btf, given.lru_as_hash)
    path, source = sources.image_of(given.filter, choice, folder)
    with open(path, "rb") as file:
        image = file.read()
    frames, left_out = frames_in(given.frames, given.xdpvm, folder)
    has_clock = asks_for_time(image)
    if has_clock:
        frames = [(TIME, body) for _, body in frames]
    text = filling(source.fill, given.maps, folder)
    filled = Filled(sources.the_filter(given.xdpvm), text) if text else None
    ran = Ran(given.xdpvm, path, frames, filled)
    entries = filled.entries() if filled and ran.accepted else []
    if given.plain:
        without_perfmon()
    with Kernel(image, counts=True) as kernel:
        status = judged(given, kernel, ran)
        if status is not None:
            return status
        if not has_clock:
            kernel.fill(entries)
            found, both = differences(kernel, ran.report, frames)
    if has_clock:
        print(f"the program asks for the time: both are given {TIME:,} nanoseconds at each call")
        with Kernel(with_time(image)) as kernel:
            kernel.fill(entries)
            found, both = differences(kernel, ran.report, frames)
    print(f"frames: {both} run by both, {left_out} left out; {'alike' if not found else 'not alike'}")
    print(*found[:20], sep="\n", end="\n" if found else "")
    return 1 if found else 0


def main() -> int:
    """Compares, and says where that cannot be done; the exit status."""
    given = arguments()
    if not shutil.which(given.xdpvm):
        tell(f"kernel.py: there is no program {given.xdpvm}; `bash install.sh FOLDER` makes one")
        return 2
    try:
        with tempfile.TemporaryDirectory() as folder:
            return compared(given, folder)
    except NoKernel as error:
        tell(f"kernel.py: {error}: this needs Linux on x86-64 and root")
        return 77
    except sources.TextRefused as refused:
        print(refused.out, end="")
        print(refused.err, end="", file=sys.stderr)
        return 2
    except OSError as error:
        tell(f"kernel.py: {said(error, given.filter)}")
        return 2
    except (sources.Failed, ValueError, struct.error) as error:
        tell(f"kernel.py: {error}")
        return 2


if __name__ == "__main__":
    sys.exit(main())
