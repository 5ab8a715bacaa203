#!/usr/bin/env python3
"""Whether a frame is handed on before the next one is waited for.

usage: python3 attacks/pipes.py [PROGRAM]

`run` and `trace` read frames from a pipe, into which they are written one by one; one is written in
two parts. The line of each in the report has to come within a second, and then its record, if it is
sent on, before the next frame is written: into a pipe, into a named pipe and into a file.

A slow writer sends frames one by one: half of them have to be downstream within 50 ms, which all
are on an idle machine; on a busy one it is tried up to five times.

A report into /dev/null, which nobody watches, and frames out into it, are written in as few calls
as into a file, and so are frames that come together through a pipe; that is left out where the
system does not count calls. PROGRAM is the program that `rt run` leaves in crates/xdpvm (the
default: crates/xdpvm/out/xdpvm). The exit status is 0 if it is so, and 1 if not.
"""
import os
import select
import subprocess
import sys
import tempfile
import time

sys.path.insert(0, os.path.join(os.path.dirname(os.path.abspath(__file__)), "../checks"))
from common import TOP, need, program, write

PROGRAM = program()
IMAGE = os.path.join(TOP, "examples/filter.image")
# For how many seconds something is waited for.
WAIT = 1
# How many frames a slow writer sends, how many seconds lie between two, and within how many half of them are
# downstream.
SLOW, PAUSE, SOON = 20, 0.01, 0.05
TRIES = 5


def record(interface: int, body: bytes) -> bytes:
    """A frame of a stream: it came in on this interface."""
    return bytes(8) + interface.to_bytes(4, "little") + bytes(4) + len(body).to_bytes(4, "little") + body


def dropped(body: bytes) -> bytes:
    return record(1, body)


def passed(body: bytes) -> bytes:
    return record(2, body)


# What is written, part by part, and the line and the record that are due after each part.
TURNS = [
    (b"XPF1", b"", b"XPF1"),
    (passed(b"ab"), b"0 PASS 2 5\n", passed(b"ab")),
    (dropped(b"c"), b"1 DROP 1 4\n", b""),
    (passed(b"") + passed(b"defg")[:9], b"2 PASS 0 5\n", passed(b"")),
    (passed(b"defg")[9:], b"3 PASS 4 5\n", passed(b"defg")),
    (dropped(b"h") + passed(4096 * b"i"), b"4 DROP 1 4\n5 PASS 4096 5\n", passed(4096 * b"i")),
]


def read_soon(file: int, wanted: bytes) -> bytes:
    """As many bytes as are wanted, or those that come in time."""
    found, end = b"", time.monotonic() + WAIT
    while len(found) < len(wanted) and time.monotonic() < end:
        if select.select([file], [], [], 0.01)[0]:
            found += os.read(file, len(wanted) - len(found))
    return found


def is_prompt(name: str, command: str, program: subprocess.Popen[bytes], out: int) -> bool:
    """Whether all turns are handed on in time; `out` reads the frames out."""
    assert program.stdin and program.stdout
    for count, (part, line, frame) in enumerate(TURNS):
        program.stdin.write(part)
        program.stdin.flush()
        for what, file, wanted in (("report", program.stdout.fileno(), line), ("frames out", out, frame)):
            got = read_soon(file, wanted)
            if got != wanted:
                print(f"{command} into {name}: after part {count} the {what} had {got!r}, not {wanted!r}")
                return False
    program.stdin.close()
    last = program.stdout.read()
    if program.wait() != 0 or last != b"end 6\n":
        print(f"{command} into {name}: status {program.returncode}, {last!r}")
        return False
    return True


def tell_prompt(folder: str, command: str, name: str) -> bool:
    """Whether frames are handed on in time into a pipe, a named pipe or a file."""
    sent = os.path.join(folder, f"{command} {name}")
    kept: tuple[int, ...] = ()
    if name == "a pipe":
        out, into = os.pipe()
        words, kept = f"/dev/fd/{into}", (into,)
    else:
        if name == "a named pipe":
            os.mkfifo(sent)
        else:
            open(sent, "wb").close()
        # A named pipe is opened for both, so that nobody waits for the other side.
        out, words = os.open(sent, os.O_RDWR), sent
    with subprocess.Popen(
        [PROGRAM, command, IMAGE, "/dev/stdin", words], stdin=subprocess.PIPE, stdout=subprocess.PIPE, pass_fds=kept
    ) as program:
        for file in kept:
            os.close(file)
        assert program.stdin and program.stdout
        is_right = is_prompt(name, command, program, out)
        program.stdin.close()
        program.stdout.close()
        program.kill()
    os.close(out)
    return is_right


def tell_slow() -> bool:
    """Whether frames of a slow writer are soon downstream."""
    out, into = os.pipe()
    delays: list[float] = []
    with subprocess.Popen(
        [PROGRAM, "run", IMAGE, "/dev/stdin", f"/dev/fd/{into}"], stdin=subprocess.PIPE, stdout=subprocess.DEVNULL, pass_fds=(into,)
    ) as program:
        assert program.stdin
        os.close(into)
        program.stdin.write(b"XPF1")
        program.stdin.flush()
        read_soon(out, b"XPF1")
        for count in range(SLOW):
            time.sleep(PAUSE)
            frame = passed(count.to_bytes(2, "little"))
            begun = time.monotonic()
            program.stdin.write(frame)
            program.stdin.flush()
            came = read_soon(out, frame) == frame
            delays.append(time.monotonic() - begun if came else float("inf"))
        program.stdin.close()
    os.close(out)
    half = sorted(delays)[SLOW // 2]
    if half > SOON:
        print(f"frames of a slow writer came after {half:.3f} seconds, the slowest after {max(delays):.3f}")
    return half <= SOON


def written_by(program: subprocess.Popen[bytes]) -> int | None:
    """How many calls of a program wrote something, which is waited for. `None`: the system does not count them."""
    os.waitid(os.P_PID, program.pid, os.WEXITED | os.WNOWAIT)
    try:
        with open(f"/proc/{program.pid}/io", encoding="ascii") as counts:
            return int(dict(line.split(": ") for line in counts)["syscw"])
    except OSError:
        return None


def calls(frames: str, out: str, report: str) -> int | None:
    """How many calls wrote something in a run."""
    with open(report, "wb") as file, subprocess.Popen([PROGRAM, "run", IMAGE, frames, out], stdout=file) as program:
        return written_by(program)


def calls_through_pipes(frames: bytes) -> int | None:
    """The same where the frames come through a pipe together, and the report goes into one."""
    with subprocess.Popen(
        [PROGRAM, "run", IMAGE, "/dev/stdin", "/dev/stderr"], stdin=subprocess.PIPE, stdout=subprocess.PIPE, stderr=subprocess.PIPE
    ) as program:
        assert program.stdin
        program.stdin.write(frames)
        program.stdin.close()
        return written_by(program)


def tell_unwatched(folder: str) -> bool:
    """Whether nothing is handed on frame by frame that nobody waits for."""
    frames = os.path.join(folder, "frames")
    stream = b"XPF1" + 1000 * passed(b"ab")
    write(frames, stream)
    sent = os.path.join(folder, "sent")
    counts = [
        calls(frames, sent, os.path.join(folder, "report")),
        calls(frames, sent, "/dev/null"),
        calls(frames, "/dev/null", "/dev/null"),
        calls_through_pipes(stream),
    ]
    counted = [count for count in counts if count is not None]
    if len(counted) < len(counts):
        print("calls are not counted here", file=sys.stderr)
        return True
    if max(counted) >= 100:
        print(f"1000 frames into a file, /dev/null or a pipe were written in {counts} calls")
    return max(counted) < 100


def main() -> int:
    need(PROGRAM)
    with tempfile.TemporaryDirectory() as folder:
        told = [tell_prompt(folder, command, name) for command in ("run", "trace") for name in ("a pipe", "a named pipe", "a file")]
        told += [any(tell_slow() for _ in range(TRIES)), tell_unwatched(folder)]
    return 0 if all(told) else 1


if __name__ == "__main__":
    sys.exit(main())
