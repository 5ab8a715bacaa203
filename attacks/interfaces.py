#!/usr/bin/env python3
"""Runs images on a pair of virtual interfaces of the Linux kernel, and compares with `xdpvm run`: the kernel's
loaders, object.py's own commands, and frames that are sent.

usage: python3 attacks/interfaces.py [IMAGE ..] [--program XDPVM] [--all]

In a network namespace of its own it makes the interfaces in0 and out0, and tries
  loaders  each example as an object by `ip`, `bpftool`, `xdp-loader` and libbpf, which load those that `verify`
           accepts and no others; the kernel's tag of the program is the one that `object.py --tag` prints
  updates  a program that drops and counts is replaced again and again while frames arrive: none gets through, and all
           are counted; what fails on the way leaves the old program and its maps
  frames   five of the examples (each IMAGE; --all: all of them) on in0, and frames sent one by one from out0: each has
           the action and the bytes that `xdpvm run` says, and in the end the maps have what its report says, but for
           programs that ask for the time

What differs is printed; the last line counts. The exit status is 0 if nothing differs, 1 if something does, and 77
where it cannot be tried: it needs Linux, root, bpf(2), and the tools that the message names. """
import argparse
import glob
import json
import os
import random
import select
import socket
import struct
import subprocess
import sys
import tempfile
import threading
import time
from typing import NamedTuple

sys.path.insert(0, os.path.join(os.path.dirname(os.path.abspath(__file__)), "../checks"))
from common import TOP, built, bytes_of, command_line, runnable, write

sys.dont_write_bytecode = True
import libbpf
import loading
import object_image
import send
from object_sweep import object_of

OBJECT = [sys.executable, "-B", f"{TOP}/tools/object.py"]
EXAMPLES = f"{TOP}/examples"
FEW = ["firewall", "echo", "tagged", "traffic", "talkers"]
MTU, LONGEST = 3000, 3000
SOL_PACKET, PACKET_AUXDATA, OUTGOING = 263, 8, 4  # linux/if_packet.h
HAS_VLAN, HAS_TPID = 16, 64  # TP_STATUS_VLAN_VALID and TP_STATUS_VLAN_TPID_VALID
DROPPED = ("ABORTED", "INVALID", "REDIRECT")
CLOCK = "call 5"


class Tried:
    """What was tried, and what was not as wanted."""

    def __init__(self) -> None:
        self.count = self.differ = 0

    def say(self, what: str, is_right: bool, more: str = "") -> None:
        self.count += 1
        if not is_right:
            self.differ += 1
            print(f"{what}: {more or 'not as wanted'}", flush=True)

    def same(self, what: str, wanted: object, found: object) -> None:
        self.say(what, wanted == found, f"wanted {wanted!r}, found {found!r}")


def ran(*words: str) -> "subprocess.CompletedProcess[str]":
    return subprocess.run(words, stdin=subprocess.DEVNULL, capture_output=True, text=True, check=False)


def must(*words: str) -> str:
    done = ran(*words)
    if done.returncode:
        sys.exit(f"{' '.join(words)}: {done.stdout}{done.stderr}")
    return done.stdout


def stored() -> list[str]:
    return sorted(glob.glob(f"{EXAMPLES}/*.image") + glob.glob(f"{EXAMPLES}/compiled/*.image"))


def called(path: str) -> str:
    return os.path.basename(path).removesuffix(".image")


def interfaces() -> None:
    """in0, which has the number 2, and out0, without what the kernel would send by itself."""
    must("ip", "link", "add", "name", "in0", "index", "2", "type", "veth", "peer", "name", "out0", "index", "3")
    for name in ("in0", "out0"):
        write(f"/proc/sys/net/ipv6/conf/{name}/disable_ipv6", "1")
        must("ip", "link", "set", name, "up", "arp", "off", "mtu", str(MTU), "promisc", "on")


# ---- loaders


def loaders(program: str, tried: Tried, paths: list[str]) -> None:
    there = libbpf.library()
    tried.say("libbpf.so.1", there is not None, "it is not there (Debian: libbpf1)")
    for path in paths:
        wanted = ran(program, "verify", path).returncode == 0
        made, data = f"{called(path)}.o", bytes_of(path)
        write(made, object_of(data))
        tags = object_image.tags(object_image.Program(data))
        tried.same(f"{made} by ip", wanted, by_ip(made, tags, tried))
        tried.same(f"{made} by bpftool", wanted, by_bpftool(made))
        tried.same(f"{made} by xdp-loader", wanted, by_xdp_loader(made))
        tried.same(f"{made} by libbpf", wanted, bool(there and there.loads(bytes_of(made), 2)))


def by_ip(made: str, tags: list[str], tried: Tried) -> bool:
    if ran("ip", "link", "set", "dev", "in0", "xdp", "obj", made, "sec", "xdp").returncode:
        return False
    shown = json.loads(must("ip", "-j", "-d", "link", "show", "dev", "in0"))[0]["xdp"]["prog"]
    tried.say(f"{made}: the kernel's tag", shown["tag"] in tags, f"{shown['tag']} is none of {tags}")
    must("ip", "link", "set", "dev", "in0", "xdp", "off")
    return True


def by_bpftool(made: str) -> bool:
    pin, maps = "/sys/fs/bpf/one", "/sys/fs/bpf/maps"
    if ran("bpftool", "prog", "load", made, pin, "pinmaps", maps).returncode:
        return False
    must("bpftool", "net", "attach", "xdp", "pinned", pin, "dev", "in0")
    must("bpftool", "net", "detach", "xdp", "dev", "in0")
    for it in [pin, *glob.glob(f"{maps}/*")]:
        os.unlink(it)
    if os.path.isdir(maps):
        os.rmdir(maps)
    return True


def by_xdp_loader(made: str) -> bool:
    if ran("xdp-loader", "load", "-m", "native", "in0", made).returncode:
        return False
    must("xdp-loader", "unload", "in0", "--all")
    return True


# ---- updates

COUNTING = """\
map array 4 8 1
        r6 = map_val(map_by_idx(0)) + 0
        r1 = 1
        lock *(u64 *)(r6 + 0) += r1
        r0 = 1
        exit
"""
REFUSED = "exit\n"
TOO_DEEP = "*(u64 *)(r10 - 512) = 0; call f; r0 = 2; exit; f: *(u64 *)(r10 - 512) = 0; r0 = 0; exit\n"


class Sender(threading.Thread):
    """Sends frames from out0 until it is told to stop."""

    def __init__(self) -> None:
        super().__init__()
        self.sent, self.stops = 0, False

    def run(self) -> None:
        with send.opened("out0") as there:
            while not self.stops:
                there.send(bytes(12) + b"\x12\x34" + struct.pack("<Q", self.sent) * 8)
                self.sent += 1


def updates(program: str, tried: Tried) -> None:
    """Filters that are replaced while frames come."""
    for name, text in (("counting", COUNTING), ("refused", REFUSED), ("deep", TOO_DEEP)):
        write(f"{name}.text", text)
        must(program, "asm", f"{name}.text", f"{name}.image")
    load = [*OBJECT, "--xdpvm", program, "--load", "in0"]
    must(*load, "counting.image")
    sender = Sender()
    with received("in0") as there:
        sender.start()
        for _ in range(10):
            tried.same("an update", 0, ran(*load, "--keep", "counting.image").returncode)
        for words, status, said in FAILURES:
            done = ran(*load, *words)
            tried.same(f"--load {' '.join(words)}", status, done.returncode)
            tried.say(f"--load {' '.join(words)}", said in done.stderr, done.stderr)
        sender.stops = True
        sender.join()
        time.sleep(0.2)
        passed = [it for it in frames_of(there) if it[12:14] == b"\x12\x34"]
    tried.same("frames that got through while programs were replaced", 0, len(passed))
    counted = must(*OBJECT, "--read", "in0").split()
    tried.same("frames counted by all of them", sender.sent, int.from_bytes(bytes.fromhex(counted[3]), "little"))
    tried.say("frames sent meanwhile", sender.sent > 100, str(sender.sent))
    must(*OBJECT, "--unload", "in0")
    tried.same("pins that are left", [], os.listdir("/sys/fs/bpf/xdpvm"))


FAILURES = [
    (["refused.image"], 2, "r0 is no number at the last exit"),
    (["--force", "refused.image"], 1, "the kernel refuses it:"),
    (["deep.image"], 1, "each call frame has 512 bytes of its own"),
    (["--fill", "wrong.text", "counting.image"], 1, "wrong.text:2:16: a value of map 0 has 8 bytes"),
    (["--keep", f"{EXAMPLES}/allow.image"], 1, "is another map than map 0 of the image"),
    (["--mode", "generic", "counting.image"], 1, "can't be active at the same time"),
]


# ---- frames


def received(device: str) -> socket.socket:
    it = send.opened(device)
    it.setsockopt(SOL_PACKET, PACKET_AUXDATA, 1)
    it.setblocking(False)
    return it


def frames_of(it: socket.socket) -> list[bytes]:
    """What arrived since the last time; a VLAN tag, which the kernel takes out, is put back."""
    found: list[bytes] = []
    while True:
        try:
            data, beside, _, address = it.recvmsg(65536, socket.CMSG_SPACE(20))
        except BlockingIOError:
            return found
        for level, kind, body in beside:
            if level == SOL_PACKET and kind == PACKET_AUXDATA:
                status, tag, protocol = struct.unpack_from("<I12xHH", body)
                if status & HAS_VLAN:
                    data = data[:12] + struct.pack(">HH", protocol if status & HAS_TPID else 0x8100, tag) + data[12:]
        if address[2] != OUTGOING:
            found.append(data)


class Expected(NamedTuple):
    """A frame, and what `xdpvm run` says of it: the action, and its bytes after the run."""

    body: bytes
    action: str
    after: bytes


def bodies(path: str) -> list[bytes]:
    """Frames for an image: those of the stream beside it, or of its source's, and changed frames of all streams."""
    chance, found = random.Random(called(path)), []
    streams = [f"{EXAMPLES}/{it}.frames" for it in (called(path), called(path).split(".")[0])]
    for stream in [it for it in streams if os.path.exists(it)][:1]:
        found += list(send.bodies(bytes_of(stream)))
    shapes = [body for it in sorted(glob.glob(f"{EXAMPLES}/*.frames")) for body in send.bodies(bytes_of(it))]
    for _ in range(40):
        one = bytearray(chance.choice([it for it in shapes if it]))
        for _ in range(chance.randrange(3)):
            one[chance.randrange(len(one))] = chance.choice([0, 1, 6, 17, 23, 69, 80, 255, chance.randrange(256)])
        found.append(bytes(one))
    return [it for it in found if send.LEAST <= len(it) <= LONGEST]


def expected(program: str, path: str) -> tuple[list[Expected], list[str]]:
    """What `xdpvm run` says of each frame, and the map lines at the end."""
    given = bodies(path)
    with open("given.frames", "wb") as file:
        file.write(b"XPF2")
        for place, body in enumerate(given):
            file.write(struct.pack("<QIIII", 1000 * place, 2, 0, len(body), 0) + body)
    lines = must(program, "run", path, "given.frames", "sent.frames").splitlines()
    actions = [it.split()[1] for it in lines if it[0].isdigit()]
    stream, at, after = bytes_of("sent.frames"), 4, []
    while at < len(stream):
        (length,) = struct.unpack_from("<I", stream, at + 16)
        after.append(stream[at + 24 : at + 24 + length])
        at += 24 + length
    return [Expected(*it) for it in zip(given, actions, after)], [it for it in lines if it.startswith("map ")]


def arrived(here: socket.socket, back: socket.socket, waits: bool) -> tuple[list[bytes], list[bytes]]:
    """The frames that came through, and those that came back: for as long as a frame should take, or a while in which
    none should come."""
    end = time.monotonic() + (0.5 if waits else 0.006)
    through: list[bytes] = []
    returned: list[bytes] = []
    while time.monotonic() < end and not through and not returned:
        select.select([here, back], [], [], 0.003)
        through += frames_of(here)
        returned += frames_of(back)
    return through, returned


def sent_one(it: Expected, here: socket.socket, back: socket.socket) -> str | None:
    """Sends a frame; the result is what differs, if something does."""
    back.send(it.body)
    wanted = "DROP" if it.action in DROPPED else it.action
    through, returned = arrived(here, back, wanted in ("PASS", "TX"))
    action = {(0, 0): "DROP", (1, 0): "PASS", (0, 1): "TX"}.get((len(through), len(returned)), "both")
    if action != wanted:
        return f"{it.body[:40].hex()}: {wanted} here, and {action} there"
    if action != "DROP" and (through + returned)[0] != it.after:
        return f"{it.body[:40].hex()}: {it.after.hex()} here, and {(through + returned)[0].hex()} there"
    return None


def frames(program: str, tried: Tried, paths: list[str]) -> tuple[int, int]:
    """Each image on in0; the result is how many there were, and how many frames were sent. A program on out0 lets what comes
    back arrive."""
    must(*OBJECT, "--xdpvm", program, "--load", "out0", f"{EXAMPLES}/pass.image")
    time.sleep(0.3)
    count = total = 0
    for path in paths:
        if ran(program, "verify", path).returncode:
            continue
        must(*OBJECT, "--xdpvm", program, "--load", "in0", path)
        rows, maps = expected(program, path)
        with received("in0") as here, received("out0") as back:
            wrong = [it for it in (sent_one(row, here, back) for row in rows) if it]
        count, total = count + 1, total + len(rows)
        tried.say(called(path), not wrong, f"{len(wrong)} frames differ, as {wrong[:1]}")
        if CLOCK not in must(program, "dis", path):
            tried.same(f"{called(path)}: maps", maps, must(*OBJECT, "--read", "in0").splitlines())
        must(*OBJECT, "--unload", "in0")
    must(*OBJECT, "--unload", "out0")
    return count, total


def run_all(given: argparse.Namespace) -> int:
    tried = Tried()
    with tempfile.TemporaryDirectory() as folder:
        os.chdir(folder)
        write("wrong.text", "# a value of one byte\nmap 0 00000000 01\n")
        interfaces()
        few = [f"{EXAMPLES}/{it}.image" for it in FEW]
        images = stored() if given.all else given.images or few
        loaders(given.program, tried, stored() if given.all else sorted(glob.glob(f"{EXAMPLES}/*.image")))
        updates(given.program, tried)
        count, total = frames(given.program, tried, images)
        os.chdir("/")
    print(f"{tried.count} tried, with {total:,} frames through {count} images, {tried.differ} differ")
    return 1 if tried.differ or not count else 0


def main() -> int:
    words = command_line()
    words.add_argument("images", nargs="*")
    words.add_argument("--program", type=runnable, default=built())
    words.add_argument("--all", action="store_true")
    words.add_argument(loading.INSIDE, action="store_true", help=argparse.SUPPRESS)
    given = words.parse_args()
    given.images = [os.path.abspath(it) for it in given.images]
    return run_all(given) if given.inside else loading.inside(os.path.abspath(__file__), *sys.argv[1:])


if __name__ == "__main__":
    sys.exit(main())
