#!/usr/bin/env python3
"""What a terminal shows of work that takes over a second.

usage: python3 attacks/terminal.py [PROGRAM [SURVEY]]

The frames of a run come through a pipe, the last one after more than a second. If standard error is
a terminal and standard output is not, the terminal shows how much was read, and at the end that is
cleared; otherwise standard error gets nothing, nor does it within the first second. The report is
the same each time. What counts as a terminal is tried with standard output on devices of several
numbers, which are named and not opened, so that the report fails; that part is left out where no
device can be made.

`verify` shows how many instructions it has explored. It is stopped here again and again, so that it
takes seconds, and what it shows are multiples of 4096 that grow, up to what there is to explore.

PROGRAM is the program that `rt run` leaves in crates/xdpvm (the default: crates/xdpvm/out/xdpvm),
SURVEY the one that it leaves in crates/xdpvm_survey: it shows how many of the images are judged,
once for each hundredth, and clears that before each row. The exit status is 0 if it is so, 1 if not,
and 77 if there are no terminals.
"""
import os
import re
import select
import signal
import stat
import subprocess
import sys
import tempfile
import time
from typing import BinaryIO

sys.path.insert(0, os.path.join(os.path.dirname(os.path.abspath(__file__)), "../checks"))
from common import CANNOT, TOP, branches, bytes_of, need, program, there, write

PROGRAM, SURVEY = program(), program("xdpvm_survey", 2)
Output = int | BinaryIO  # a file of a command
CLEARED = b"\r\x1b[K"
FRAME = bytes(16) + b"\x02\0\0\0\xaa\xbb"
# How many frames come at once: with the last one they have 3,326 bytes.
AT_ONCE = 150
REPORT = b"".join(b"%d PASS 2 2\n" % at for at in range(AT_ONCE + 1)) + b"end %d\n" % (AT_ONCE + 1)
UNWRITTEN = b"cannot write standard output\r\nthe system gave another error\r\n"
# The tests of bits in `many_paths`, and its instructions: each test and each addition once for each
# path that leads there, two at the end of each path, four at the start, and the exit.
TESTS = 17
TO_EXPLORE = 2 * (2**TESTS - 1) + 3 * 2**TESTS + 3
BOUND = f"ok bound {2 + 2 * TESTS + 4}\r\n".encode()  # the longest path takes no jump of a test
# What numbers Linux gives to terminals, and those beside them.
TERMINALS = {3: False, 4: True, 5: True, 6: False, 135: False, 136: True, 143: True, 144: False}


def running(folder: str, output: Output, error: Output) -> subprocess.Popen[bytes]:
    """A run on frames that are written to it; these files are standard output and standard error."""
    words = [PROGRAM, "run", os.path.join(TOP, "examples/pass.image"), "/dev/stdin", os.path.join(folder, "sent")]
    return subprocess.Popen(words, stdin=subprocess.PIPE, stdout=output, stderr=error)


def give(child: subprocess.Popen[bytes], data: bytes) -> None:
    """Sends a run some frames."""
    given = there(child.stdin)
    given.write(data)
    given.flush()


def run(folder: str, output: Output, error: Output) -> int:
    """Runs frames of which the last one comes late; these files are standard output and standard error."""
    with running(folder, output, error) as child:
        give(child, b"XPF1" + AT_ONCE * FRAME)
        time.sleep(1.3)
        give(child, FRAME)
        there(child.stdin).close()
    return child.returncode


def read(kib: int) -> bytes:
    """What a terminal shows of a run that has read this many KiB when it is shown, and then ends."""
    return CLEARED + b"%d KiB of frames read" % kib + CLEARED


def is_early(folder: str) -> bool | None:
    """Whether a terminal gets anything within a second. `None`: the frames came too late to say."""
    reading, terminal = os.openpty()
    started = time.monotonic()
    with running(folder, subprocess.PIPE, terminal) as child:
        for data in (b"XPF1" + FRAME, FRAME):
            give(child, data)
            there(child.stdout).readline()
            early = bool(select.select([reading], [], [], 0)[0])
            is_in_time = time.monotonic() - started < 1
            time.sleep(0.4)
        there(child.stdin).close()
    os.close(terminal)
    os.close(reading)
    return early if is_in_time else None


def tell_start(folder: str) -> bool:
    """Whether a terminal gets nothing within a second, as far as frames come in time to say that."""
    found = next((early for early in (is_early(folder) for _ in range(5)) if early is not None), None)
    if found is None:
        print("frames came too late to say what is shown within a second", file=sys.stderr)
    return tell("shown within a second", found or False, False)


def shown_beside(folder: str, devices: list[str]) -> list[bytes]:
    """What a terminal shows of a run whose standard output is a device, for each of these paths."""
    runs = []
    for path in devices:
        reading, terminal = os.openpty()
        device = os.open(path, os.O_PATH)
        runs.append((reading, running(folder, device, terminal)))
        os.close(device)
        os.close(terminal)
    for _, child in runs:
        give(child, b"XPF1")
    time.sleep(1.3)
    for _, child in runs:
        give(child, FRAME)
        there(child.stdin).close()
        child.wait()
    return [shown(reading) for reading, _ in runs]


def tell_numbers(folder: str) -> bool:
    """Whether a run takes the devices with the numbers of terminals for terminals, and no others."""
    devices = [os.path.join(folder, f"device{number}") for number in TERMINALS]
    try:
        for path, number in zip(devices, TERMINALS):
            os.mknod(path, 0o600 | stat.S_IFCHR, os.makedev(number, 64))
    except OSError as error:
        print(f"no device can be made here, so none is tried: {error}", file=sys.stderr)
        return True
    wanted = [(b"" if is_one else read(0)) + UNWRITTEN for is_one in TERMINALS.values()]
    told = [tell(f"beside {path}", got, its) for path, got, its in zip(devices, shown_beside(folder, devices), wanted)]
    return all(told)


def many_paths() -> str:
    """A program on whose paths r0 is another number each, until all of them end in one state."""
    return branches(TESTS, ["r0 &= 0", "goto +0", "exit"])


def used_by(child: subprocess.Popen[bytes]) -> float:
    """The processor seconds of a process, or 0 if it has ended."""
    try:
        return time.clock_gettime((~child.pid << 3) | 2)
    except OSError:
        return 0


def stopped_often(words: list[str], output: int) -> int:
    """Runs a command that takes seconds, since it is stopped after each 30 milliseconds of its own."""
    with subprocess.Popen(words, stdin=subprocess.DEVNULL, stdout=output, stderr=output) as child:
        pause, most, end = 1.1, 0.03, time.monotonic() + 60
        while child.poll() is None and time.monotonic() < end:
            if used_by(child) < most:
                time.sleep(0.002)
                continue
            child.send_signal(signal.SIGSTOP)
            time.sleep(pause)
            child.send_signal(signal.SIGCONT)
            pause, most = 0.21, most + 0.03
        child.kill()
    return child.returncode


def tell_counts(folder: str) -> bool:
    """Whether `verify` shows on a terminal how far it is, and clears that before it says the bound."""
    text, image = os.path.join(folder, "text"), os.path.join(folder, "image")
    write(text, many_paths())
    subprocess.run([PROGRAM, "asm", text, image], stdout=subprocess.DEVNULL, check=True)
    reading, terminal = os.openpty()
    status = stopped_often([PROGRAM, "verify", image], terminal)
    os.close(terminal)
    data = shown(reading)
    counts = [int(count) for count in re.findall(rb"(\d+) instructions explored", data)]
    wanted = b"".join(CLEARED + f"{count} instructions explored".encode() for count in counts)
    good = [tell("status", status, 0), tell("verifying", data, wanted + CLEARED + BOUND)]
    right = sorted({count for count in counts if count % 4096 == 0 and 0 < count <= TO_EXPLORE})
    if len(counts) < 2 or counts != right:
        print(f"verifying: {counts} of {TO_EXPLORE} instructions")
        good.append(False)
    return all(good)


def survey(count: int, output: Output, error: Output) -> int:
    """Judges an image this many times; these files are standard output and standard error."""
    words = [SURVEY, "--format", "csv", "--no-header", *count * [os.path.join(TOP, "examples/pass.image")]]
    return subprocess.run(words, stdin=subprocess.DEVNULL, stdout=output, stderr=error, check=False).returncode


def progress(count: int) -> bytes:
    """What a terminal shows of a survey of this many images that are accepted."""
    shown_at = [at for at in range(count) if at == 0 or at * 100 // count != (at - 1) * 100 // count]
    lines = [CLEARED + f"{at} of {count}".encode() if at in shown_at else b"" for at in range(count)]
    said = f"{count} accepted, 0 refused, 0 unreadable, 0 out of memory\r\n".encode()
    return b"".join(line + CLEARED for line in lines) + CLEARED + said


def shown(terminal: int) -> bytes:
    """What was written to a terminal whose other end is closed."""
    data = b""
    try:
        while more := os.read(terminal, 4096):
            data += more
    except OSError:
        pass
    return data


def tell(what: str, got: object, wanted: object) -> bool:
    if got != wanted:
        print(f"{what}: {got!r}, not {wanted!r}")
    return got == wanted


def main() -> int:
    need(PROGRAM, SURVEY)
    try:
        reading, terminal = os.openpty()
    except OSError as error:
        print(f"there are no terminals here: {error}", file=sys.stderr)
        return CANNOT
    good = []
    with tempfile.TemporaryDirectory() as folder:
        report = os.path.join(folder, "report")
        with open(report, "wb") as output:
            good.append(tell("status", run(folder, output, terminal), 0))
        os.close(terminal)
        good.append(tell("a terminal", shown(reading), read(3)))
        good.append(tell("the report", bytes_of(report), REPORT))
        errors = os.path.join(folder, "error")
        with open(report, "wb") as output, open(errors, "wb") as plain:
            good.append(tell("status", run(folder, output, plain), 0))
        good.append(tell("a file", bytes_of(errors), b""))
        reading, terminal = os.openpty()
        good.append(tell("status", run(folder, terminal, terminal), 0))
        os.close(terminal)
        good.append(tell("one terminal for both", shown(reading), REPORT.replace(b"\n", b"\r\n")))
        good += [tell_start(folder), tell_numbers(folder), tell_counts(folder)]
        reading, terminal = os.openpty()
        with open(report, "wb") as output:
            good.append(tell("status", survey(150, output, terminal), 0))
        os.close(terminal)
        good.append(tell("a survey", shown(reading), progress(150)))
    return 0 if all(good) else 1


if __name__ == "__main__":
    sys.exit(main())
