#!/usr/bin/env python3
"""examples/bridge between two network namespaces: what it passes on, what it says, and how it ends.

usage: python3 tests/bridge.py [ARCHIVE [PROGRAM]] [--fuzz SECONDS [--pause MICROSECONDS]]

Builds the bridge over the library ARCHIVE (the default: crates/xdpvm_c/out/libxdpvm_c.a), and runs it between two pairs of
virtual interfaces: ICMP, 100 MB of TCP with their checksum, UDP to a port that is allowed and to one that is not, a filter that
changes and one that is refused while frames come, and random frames, of which those that come out are those that PROGRAM
(crates/xdpvm/out/xdpvm) writes for the bridge's own capture. --fuzz only sends random frames, for so long, with a pause after each
(50 microseconds).

The exit status is 0 if all is as it is to be, 1 if not, and 77 where network namespaces cannot be made.
"""
import argparse
import ctypes
import fcntl
import hashlib
import json
import os
import random
import shutil
import signal
import socket
import struct
import subprocess
import sys
import tempfile
import time
from pathlib import Path
from collections.abc import Callable
from typing import Any

TOP = Path(__file__).resolve().parent.parent
sys.path.insert(0, str(TOP / "checks"))
from common import CANNOT, command_line

NEW_NET = 0x40000000  # CLONE_NEWNET
LEFT, RIGHT = "10.9.0.1", "10.9.0.2"
LONGEST = 9216  # bytes of a frame
ETHTOOL, OFF = 0x8946, {0x1F: "TSO", 0x24: "GSO", 0x2C: "GRO"}  # SIOCETHTOOL, and what a sender does not do
UDP_ALLOWED, UDP_FORBIDDEN = 7000, 7001
MEGABYTES = 100
LAST = bytes((2, 0, 0, 0, 0, 1, 2, 0, 0, 0, 2, 2)) + b"\x88\xb5the last frame"  # passes by MIXED


class Wrong(Exception):
    """What is not as it is to be."""


def need(holds: object, what: str) -> None:
    if not holds:
        raise Wrong(what)


# ---- namespaces


def moved_to(pid: int) -> None:
    """Puts this process into the network namespace of another."""
    with open(f"/proc/{pid}/ns/net", encoding="ascii") as file:
        if ctypes.CDLL(None, use_errno=True).setns(file.fileno(), NEW_NET):
            raise OSError(ctypes.get_errno(), "setns")


class Task:
    """A function that runs in a process of its own, in a namespace; its answer is taken by `answer`."""

    def __init__(self, pid: int, function: Callable[..., Any], *given: Any) -> None:
        read, write = os.pipe()
        self.child = os.fork()
        if self.child == 0:
            os.close(read)
            try:
                moved_to(pid)
                said = json.dumps([True, function(*given)])
            except Exception as why:  # pylint: disable=broad-exception-caught
                said = json.dumps([False, f"{function.__name__}: {type(why).__name__}: {why}"])
            with os.fdopen(write, "w") as file:
                file.write(said)
            os._exit(0)
        os.close(write)
        self.read = read

    def answer(self) -> Any:
        with os.fdopen(self.read) as file:
            said = file.read()
        os.waitpid(self.child, 0)
        fine, found = json.loads(said)
        need(fine, str(found))
        return found


def called(*words: str) -> None:
    ran = subprocess.run(words, capture_output=True, text=True, check=False)
    need(not ran.returncode, f"{' '.join(words)}: {ran.stderr.strip()}")


def whole_frames(interface: str) -> bool:
    """Has the interface divide what is sent by itself, as Linux does where a filter is attached to its peer."""
    with socket.socket(socket.AF_INET, socket.SOCK_DGRAM) as control:
        for command in OFF:
            value = ctypes.create_string_buffer(struct.pack("II", command, 0))
            fcntl.ioctl(control, ETHTOOL, struct.pack("16sQ", interface.encode(), ctypes.addressof(value)))
    return True


class Ends:
    """Two namespaces, each with one end of a pair whose other end is here: `in0` to the left, `out0` to the right."""

    def __init__(self) -> None:
        self.sleepers = [subprocess.Popen(["unshare", "-n", "sleep", "100000"]) for _ in range(2)]
        time.sleep(0.3)
        for here, there, address, sleeper in zip(("in0", "out0"), ("left0", "right0"), (LEFT, RIGHT), self.sleepers):
            called(
                "ip",
                "link",
                "add",
                "name",
                here,
                "mtu",
                str(LONGEST - 14),
                "type",
                "veth",
                "peer",
                "name",
                there,
                "mtu",
                str(LONGEST - 14),
            )
            called("ip", "link", "set", "dev", there, "netns", str(sleeper.pid))
            called("sysctl", "-qw", f"net.ipv6.conf.{here}.disable_ipv6=1")
            called("ip", "link", "set", "dev", here, "up")
            inside = ["nsenter", "-t", str(sleeper.pid), "-n"]
            called(*inside, "sysctl", "-qw", f"net.ipv6.conf.{there}.disable_ipv6=1")
            called(*inside, "ip", "addr", "add", f"{address}/24", "dev", there)
            called(*inside, "ip", "link", "set", "dev", there, "up")
            Task(sleeper.pid, whole_frames, there).answer()
        self.left, self.right = (it.pid for it in self.sleepers)

    def end(self) -> None:
        for it in self.sleepers:
            it.kill()
            it.wait()


# ---- what the two ends do


def pinged(count: int) -> int:
    """How many echo requests to the right are answered."""
    with socket.socket(socket.AF_INET, socket.SOCK_RAW, socket.IPPROTO_ICMP) as it:
        it.settimeout(2)
        answered = 0
        for number in range(count):
            body = struct.pack("!BBHHH", 8, 0, 0, 77, number) + bytes(48)
            total = sum(struct.unpack(f"!{len(body) // 2}H", body))
            total = (total & 0xFFFF) + (total >> 16)
            it.sendto(body[:2] + struct.pack("!H", ~(total + (total >> 16)) & 0xFFFF) + body[4:], (RIGHT, 0))
            try:
                got = it.recv(4096)
            except TimeoutError:
                continue
            answered += got[20] == 0 and got[24:28] == struct.pack("!HH", 77, number)
    return answered


def taken() -> str:
    """The checksum of all that one connection to the right sends."""
    found = hashlib.sha256()
    with socket.create_server((RIGHT, 5000)) as server:
        server.settimeout(20)
        there, _ = server.accept()
        with there:
            there.settimeout(20)
            while part := there.recv(1 << 20):
                found.update(part)
    return found.hexdigest()


def given() -> str:
    found, part = hashlib.sha256(), os.urandom(1 << 20)
    with socket.create_connection((RIGHT, 5000), timeout=20) as there:
        for _ in range(MEGABYTES):
            there.sendall(part)
            found.update(part)
    return found.hexdigest()


def received(port: int, seconds: float) -> int:
    """How many datagrams come to a port until none has come for so long."""
    with socket.socket(socket.AF_INET, socket.SOCK_DGRAM) as it:
        it.bind((RIGHT, port))
        it.settimeout(seconds)
        count = 0
        try:
            while it.recv(65536):
                count += 1
        except TimeoutError:
            return count
    return count


def sent(port: int, count: int) -> int:
    with socket.socket(socket.AF_INET, socket.SOCK_DGRAM) as it:
        for _ in range(count):
            it.sendto(b"datagram", (RIGHT, port))
            time.sleep(0.0005)
    return count


def random_frames(seed: int, count: int) -> list[bytes]:
    """Frames of any bytes and of 14 to 9,216 bytes, most of them short; some are of UDP over IPv4, some have a VLAN tag. Linux
    drops a frame with a tag and less than two bytes after it, so there are none."""
    made, found = random.Random(seed), []
    for number in range(count):
        length = made.choice((made.randint(14, 100), made.randint(14, 1514), made.randint(14, LONGEST - 4)))
        frame = bytearray(made.randbytes(length))
        frame[0] &= 0xFE  # to one station
        if number % 3 == 0 and length >= 42:
            frame[12:24] = b"\x08\0\x45\0" + made.randbytes(5) + b"\0" * 2 + b"\x11"
            frame[36:38] = struct.pack("!H", made.choice((UDP_ALLOWED, UDP_FORBIDDEN)))
        if number % 5 == 0 and length >= 16:
            frame[12:12] = b"\x81\0" + made.randbytes(2)
        if bytes(frame[12:14]) in (b"\x81\0", b"\x88\xa8") and len(frame) < 20:
            frame[12] = 0
        found.append(bytes(frame))
    return found


def send_frames(seed: int, count: int, pause: float) -> int:
    with socket.socket(socket.AF_PACKET, socket.SOCK_RAW) as it:
        it.bind(("left0", 0))
        for frame in random_frames(seed, count) + [LAST]:
            it.send(frame)
            time.sleep(pause)
    return count + 1


def tagged(frame: bytes, beside: list[tuple[int, int, bytes]]) -> bytes:
    """A frame as it was on the wire: the kernel hands a VLAN tag on beside it."""
    for level, kind, data in beside:
        if (level, kind) == (263, 8):  # SOL_PACKET, PACKET_AUXDATA
            status, _, _, _, _, tag, protocol = struct.unpack("IIIHHHH", data)
            if status & 0x10:
                return frame[:12] + struct.pack("!HH", protocol if status & 0x40 else 0x8100, tag) + frame[12:]
    return frame


def frames_out() -> list[str]:
    """The frames that come to the right, in hexadecimal, up to the last one that is sent."""
    found: list[str] = []
    with socket.socket(socket.AF_PACKET, socket.SOCK_RAW, socket.htons(3)) as it:
        it.setsockopt(263, 8, 1)
        it.setsockopt(socket.SOL_SOCKET, 33, 1 << 28)  # SO_RCVBUFFORCE
        it.bind(("right0", 3))
        it.settimeout(60)
        while not found or not found[-1].endswith(LAST[14:].hex()):
            frame, beside, _, origin = it.recvmsg(65536, 256)
            if origin[2] != socket.PACKET_OUTGOING:
                found.append(tagged(frame, beside).hex())
    return found


# ---- the bridge


class Bridge:
    """A bridge that runs, from `in0` to `out0`."""

    def __init__(self, program: Path, work: Path, *words: str) -> None:
        self.said = work / "bridge.said"
        self.told = work / "bridge.told"
        with self.said.open("w") as said, self.told.open("w") as told:
            self.ran = subprocess.Popen([str(program), *words], stdout=said, stderr=told)
        self.tells(" to out0: ")

    def tells(self, words: str) -> None:
        """Waits until standard error has these words."""
        for _ in range(400):
            if words in self.told.read_text():
                return
            need(self.ran.poll() is None, f"the bridge ended: {self.told.read_text()}")
            time.sleep(0.01)
        raise Wrong(f"the bridge did not say {words!r}: {self.told.read_text()}")

    def send(self, which: signal.Signals) -> None:
        self.ran.send_signal(which)

    def end(self, which: signal.Signals = signal.SIGTERM) -> int:
        self.ran.send_signal(which)
        return self.ran.wait(20)

    def counts(self) -> dict[str, int]:
        """The last counts of the way from `in0` that were printed."""
        lines = [it for it in self.said.read_text().splitlines() if it.startswith("in0 to out0: ")]
        need(lines, "no counts were printed")
        return {
            name: int(number)
            for number, _, name in (it.partition(" ") for it in lines[-1].removeprefix("in0 to out0: ").split(", "))
        }

    def maps(self) -> list[str]:
        return [it for it in self.said.read_text().splitlines() if it.startswith("map ")]


def ends_with(program: Path, status: int, words: str, *given_words: str, prefix: tuple[str, ...] = ()) -> None:
    """The bridge ends at once with this status, and one line that has these words."""
    ran = subprocess.run([*prefix, str(program), *given_words], capture_output=True, text=True, timeout=20, check=False)
    need(
        ran.returncode == status and ran.stderr.count("\n") == 1 and words in ran.stderr,
        f"bridge {' '.join(given_words)}: {ran.returncode}, {ran.stderr}",
    )


def filter_beside(xdpvm: Path) -> str:
    """The program that converts captures: the one beside xdpvm, or that of this repository."""
    beside = xdpvm.parent / "xdpvm_filter"
    return str(beside) if beside.exists() else str(TOP / "crates/xdpvm_filter/out/xdpvm_filter")


def image_of(xdpvm: Path, text: str, image: Path) -> Path:
    source = image.with_suffix(".text")
    source.write_text(text)
    called(str(xdpvm), "asm", str(source), str(image))
    return image


# ---- the tests


def test_refusals(program: Path, work: Path, images: dict[str, Path]) -> None:
    ends_with(program, 1, "usage: ", "in0")
    ends_with(program, 1, "usage: ", str(images["pass"]), "in0", "in0")
    ends_with(program, 2, "refused V", str(images["wrong"]), "in0", "out0")
    ends_with(program, 3, "No such file", str(work / "none"), "in0", "out0")
    ends_with(program, 6, "no such interface", str(images["pass"]), "in0", "none0")
    maps = work / "wrong.maps"
    maps.write_text("map 0 1b58 0000000000000000\nmap 0 1b58 00\n")
    ends_with(program, 2, "line 2: the value has another size", str(images["ports"]), "in0", "out0", "--maps", str(maps))
    open_to_all = work / "bridge_of_all"
    shutil.copy(program, open_to_all)
    work.chmod(0o755)
    ends_with(
        open_to_all,
        7,
        "CAP_NET_RAW",
        str(images["pass"]),
        "in0",
        "out0",
        prefix=("setpriv", "--reuid=65534", "--clear-groups", "--inh-caps=-all"),
    )


def test_traffic(program: Path, work: Path, ends: Ends, images: dict[str, Path]) -> None:
    """ICMP, TCP, UDP by a list that is filled from a file; another filter, and one that is refused, while frames come."""
    maps, image = work / "ports.maps", work / "filter.image"
    maps.write_text(f"# ports\nmap 0 {UDP_ALLOWED:04x} {'0' * 16}\n")
    shutil.copy(images["ports"], image)
    bridge = Bridge(program, work, str(image), "in0", "out0", "--both", "--maps", str(maps))
    need(Task(ends.left, pinged, 20).answer() == 20, "not all echo requests were answered")
    there = Task(ends.right, taken)
    time.sleep(0.3)
    here = Task(ends.left, given)
    need(here.answer() == there.answer(), "what came by TCP is not what was sent")
    for port, wanted in ((UDP_ALLOWED, 200), (UDP_FORBIDDEN, 0)):
        there = Task(ends.right, received, port, 1.0)
        time.sleep(0.2)
        Task(ends.left, sent, port, 200).answer()
        came = there.answer()
        need(came == wanted, f"{came} datagrams came to port {port}, not {wanted}")
    # a filter that is refused stays out; then one with equal rows, which keeps the list
    there = Task(ends.right, received, UDP_ALLOWED, 2.0)
    time.sleep(0.2)
    here = Task(ends.left, sent, UDP_ALLOWED, 2000)
    shutil.copy(images["wrong"], image)
    bridge.send(signal.SIGHUP)
    bridge.tells("the filter stays as it was")
    shutil.copy(images["ports"], image)
    bridge.send(signal.SIGHUP)
    bridge.tells("loaded again")
    here.answer()
    came = there.answer()
    need(came == 2000, f"{came} of 2000 datagrams came while the filter changed")
    bridge.send(signal.SIGUSR1)
    time.sleep(0.3)
    need(f"map 0 {UDP_ALLOWED:04x} {struct.pack('<Q', 2200).hex()}" in bridge.maps(), f"the list did not stay: {bridge.maps()}")
    need(f"map 1 00000000 {struct.pack('<Q', 200).hex()}" in bridge.maps(), f"the count did not stay: {bridge.maps()}")
    need(bridge.end() == 0, "the bridge did not end with 0")
    counts = bridge.counts()
    need(counts["DROP"] == 200 and not counts["lost"] and not counts["not sent"] and not counts["too long"], f"{counts}")


def test_frames(
    program: Path, xdpvm: Path, work: Path, ends: Ends, image: Path, seed: int, count: int, pause: float = 0.00005
) -> int:
    """Random frames: those that come out are those that `xdpvm run` writes for the bridge's capture, in order."""
    capture, stream, out, report = (work / name for name in ("capture.pcap", "capture.frames", "out.frames", "report"))
    bridge = Bridge(program, work, str(image), "in0", "out0", "--pcap", str(capture))
    there = Task(ends.right, frames_out)
    time.sleep(0.3)
    count = Task(ends.left, send_frames, seed, count, pause).answer()
    came = there.answer()
    need(bridge.end(signal.SIGINT) == 0, "the bridge did not end with 0")
    counts = bridge.counts()
    need(counts["received"] == count and not counts["lost"] and not counts["not sent"], f"{count} frames were sent: {counts}")
    called(filter_beside(xdpvm), "convert", "--reasons", str(capture), str(stream))
    with report.open("w") as file:
        subprocess.run([str(xdpvm), "run", str(image), str(stream), str(out)], stdout=file, check=True)
    actions = [line.split(" ")[1] for line in report.read_text().splitlines() if line[0].isdigit()]
    for action in ("PASS", "TX", "DROP", "ABORTED", "INVALID"):
        need(
            actions.count(action) == counts[action],
            f"{action}: {counts[action]} of the bridge, {actions.count(action)} of the report",
        )
    data, at, wanted = out.read_bytes(), 4, []
    while at < len(data):
        length, reason = (int(it) for it in struct.unpack_from("<II", data, at + 16))
        if reason == 0:
            wanted.append(data[at + 24 : at + 24 + length].hex())
        at += 24 + length
    need(came == wanted, f"{len(came)} frames came out, and the report's are {len(wanted)}")
    return len(came)


def test_down(program: Path, work: Path, image: Path) -> None:
    bridge = Bridge(program, work, str(image), "in0", "out0")
    called("ip", "link", "set", "dev", "in0", "down")
    need(
        bridge.ran.wait(20) == 8 and "in0: Network is down" in bridge.told.read_text(),
        f"an interface went down: {bridge.told.read_text()}",
    )
    called("ip", "link", "set", "dev", "in0", "up")


def tried(program: Path, xdpvm: Path, work: Path, fuzz: int, pause: float) -> None:
    texts = {"pass": "r0 = 2\nexit\n", "ports": (TOP / "examples/bridge/ports.text").read_text(), "wrong": "exit\n", "mixed": MIXED}
    images = {name: image_of(xdpvm, text, work / f"{name}.image") for name, text in texts.items()}
    ends = Ends()
    try:
        if fuzz:
            end, count = time.monotonic() + fuzz, 0
            while time.monotonic() < end:
                seed = random.randrange(1 << 30)
                print(f"seed {seed}", flush=True)
                count += test_frames(program, xdpvm, work, ends, images["mixed"], seed, 20000, pause)
                print(f"{count} frames came out so far", flush=True)
            return
        test_refusals(program, work, images)
        test_traffic(program, work, ends, images)
        test_frames(program, xdpvm, work, ends, images["mixed"], 1, 3000)
        test_down(program, work, images["pass"])
    finally:
        ends.end()


# What a frame's tenth byte says: any action, and one that does not exist. TX is left out of what comes to the right.
MIXED = """r6 = *(u32 *)(r1 + 0)
r2 = *(u32 *)(r1 + 4)
r3 = r6
r3 += 12
r0 = 1
if r3 > r2 goto out
r0 = *(u8 *)(r6 + 10)
r4 = *(u8 *)(r6 + 11)
*(u8 *)(r6 + 11) = r0
r0 &= 7
if r0 != 3 goto out
r0 = 2
out: exit
"""


def can_be_tried() -> bool:
    """Whether network namespaces with virtual interfaces can be made here."""
    words = ["unshare", "-n", "ip", "link", "add", "name", "try0", "type", "veth", "peer", "name", "try1"]
    return not os.geteuid() and not subprocess.run(words, capture_output=True, check=False).returncode


def main() -> int:
    words = command_line()
    words.add_argument("archive", nargs="?", type=Path, default=TOP / "crates/xdpvm_c/out/libxdpvm_c.a")
    words.add_argument("program", nargs="?", type=Path, default=TOP / "crates/xdpvm/out/xdpvm")
    words.add_argument("--fuzz", type=int, default=0)
    words.add_argument("--pause", type=float, default=50)
    words.add_argument("--inside", action="store_true", help=argparse.SUPPRESS)
    given_words = words.parse_intermixed_args()
    if not given_words.inside:
        if not can_be_tried():
            print("bridge.py: not tried, since network namespaces with virtual interfaces cannot be made here")
            return CANNOT
        return subprocess.run(["unshare", "-n", sys.executable, __file__, "--inside", *sys.argv[1:]], check=False).returncode
    with tempfile.TemporaryDirectory() as folder:
        work = Path(folder)
        try:
            called("bash", str(TOP / "examples/bridge/build.sh"), str(work / "bridge"), str(given_words.archive.resolve()))
            tried(work / "bridge", given_words.program.resolve(), work, given_words.fuzz, given_words.pause / 1e6)
        except Wrong as why:
            print(f"bridge.py: {why}")
            return 1
    return 0


if __name__ == "__main__":
    sys.exit(main())
