#!/usr/bin/env python3
"""Damages captures: xdpvm_filter runs the packets before the damage, and then says which fault there is.

usage: python3 attacks/damage_captures.py [XDPVM_FILTER] [--count N] [--seconds N] [--seed N] [--tshark]

Each of N captures (30,000; with --seconds as many as come in so long) is one of tests/captures.py with one to three of these
changes: a byte, or four bytes of a length, have another value; bytes are left out or put in; or the file is cut. Some have their
packets many times, up to a megabyte. What has to come is worked out here, by the drafts of both formats (draft-ietf-opsawg-pcap,
draft-ietf-opsawg-pcapng): the packets before the damage, with times and bytes, and then the end, or the fault F1 to F4 with its
offset in the frame stream, and on standard error the byte at which the damaged record begins. A signal, and a run of over a
second of the processor or 300 MB are wrong too. With --tshark each capture that has no fault here is also read by tshark, and the
counts of packets are compared; tshark reads on after some faults, so these are left out.

What differs is printed, and kept in /tmp as damaged.N.capture; the last line counts, and the status is 1 if anything differs.
"""
import argparse
import itertools
import os
import random
import struct
import subprocess
import sys
import tempfile
import time
from dataclasses import dataclass, field

TOP = os.path.dirname(os.path.dirname(os.path.abspath(__file__)))
sys.path.insert(0, os.path.join(TOP, "checks"))
sys.path.insert(0, os.path.join(TOP, "tests"))
from captures import LINKS, PASS, SEEDS, Packet, capture, packets_of_stream
from common import built, bytes_of, measured, write

MOST, SECONDS, KIB = 1_000_000, 1.0, 300 << 10  # bytes of a capture, and what one may take
MOST_CAPTURED, MOST_BLOCK, MOST_FRAME, MOST_INTERFACES = 262_144, 4_194_304, 9216, 4096
LEAST = {0x0A0D0D0A: 28, 1: 20, 2: 32, 3: 16, 6: 32}
PCAPS = {0xA1B2C3D4: 1000, 0xA1B23C4D: 1}
RAW, IPV4, IPV6 = (101, 12, 228, 229), 0x0800, 0x86DD


class Fault(Exception):
    """Why a record is none, as a fault of the stream."""


@dataclass
class Found:
    """The packets of a capture, and how they end: `end N`, or a fault."""

    packets: list[Packet] = field(default_factory=list)
    size: int = 4
    ending: str = ""
    at: int = 0  # where the last record begins that was looked at

    def add(self, time: int, data: bytes) -> None:
        data = b"" if len(data) > MOST_FRAME else data
        self.packets.append((time % 2**64, data))
        self.size += 24 + len(data)


@dataclass
class Interface:
    """An interface that a section describes."""

    link: int
    scale: int
    offset: int
    snap: int


def ethernet_type(link: int, data: bytes) -> int:
    """The EtherType of a packet without an Ethernet head: of an IP version or an address family, or 0."""
    if link in RAW:
        return {4: IPV4, 6: IPV6}.get(data[0] >> 4, 0) if data else 0
    if len(data) < 4:
        return 0
    high, low = int.from_bytes(data[:4], "big"), int.from_bytes(data[:4], "little")
    family = low if link == 0 and high >= 65536 else high
    return {2: IPV4, 10: IPV6, 24: IPV6, 28: IPV6, 30: IPV6}.get(family, 0)


def framed(link: int, data: bytes) -> bytes:
    """The Ethernet frame that the bytes of a packet become."""
    if link in (*RAW, 0, 108):
        return bytes(12) + struct.pack(">H", ethernet_type(link, data)) + data[0 if link in RAW else 4 :]
    if link == 113 and len(data) >= 16:
        return bytes(6) + data[6:12] + data[14:]
    if link == 276 and len(data) >= 20:
        return bytes(6) + data[12:18] + data[:2] + data[20:]
    return data


def pcap(data: bytes, found: Found) -> None:
    """The packets of a pcap file, up to its end or a fault."""
    order = ">" if struct.unpack_from(">I", data)[0] in PCAPS else "<"
    unit, link, at = PCAPS[struct.unpack_from(order + "I", data)[0]], struct.unpack_from(order + "I", data, 20)[0] & 0xFFFF, 24
    while at < len(data):
        found.at = at
        if len(data) - at < 16:
            raise Fault("F2")
        seconds, fraction, size, _ = struct.unpack_from(order + "4I", data, at)
        if size > MOST_CAPTURED:
            raise Fault("F3")
        if len(data) - at - 16 < size:
            raise Fault("F4")
        found.add(seconds * 10**9 + fraction * unit, framed(link, data[at + 16 : at + 16 + size]))
        at += 16 + size


def option(order: str, code: int, options: bytes) -> bytes | None:
    """The value of the first option with this code."""
    while len(options) >= 4:
        kind, size = struct.unpack_from(order + "HH", options)
        if kind == 0:
            return None
        if kind == code:
            return options[4 : 4 + size]
        options = options[4 + (size + 3) // 4 * 4 :]
    return None


def interface_of(order: str, block: bytes) -> Interface:
    link, _, snap = struct.unpack_from(order + "HHI", block, 8)
    options = block[16:-4]
    scale, offset = option(order, 9, options), option(order, 14, options)
    byte = scale[0] if scale is not None and len(scale) == 1 else 6
    units = 1 << (byte & 127) if byte & 128 else int(10**byte)
    seconds = struct.unpack(order + "q", offset)[0] if offset is not None and len(offset) == 8 else 0
    return Interface(link, units, seconds, snap)


def packet_of(order: str, kind: int, block: bytes, interfaces: list[Interface]) -> tuple[int, bytes]:
    """The time and the frame of a packet block."""
    index = 0
    if kind == 2:
        index = struct.unpack_from(order + "H", block, 8)[0]
    elif kind == 6:
        index = struct.unpack_from(order + "I", block, 8)[0]
    if index >= len(interfaces):
        raise Fault("F3")
    its = interfaces[index]
    if kind == 3:
        whole = struct.unpack_from(order + "I", block, 8)[0]
        size, start, time = min(whole, its.snap or whole, len(block) - 16), 12, 0
    else:
        high, low, size = struct.unpack_from(order + "3I", block, 12)
        start, time = 28, (high << 32 | low) * 10**9 // its.scale + its.offset * 10**9
    if its.link not in LINKS or start + size + 4 > len(block):
        raise Fault("F3")
    return time, framed(its.link, block[start : start + size])


def pcapng(data: bytes, found: Found) -> None:
    """The packets of a pcapng file, up to its end or a fault."""
    order, interfaces, at = ">", list[Interface](), 0
    while at < len(data):
        found.at = at
        if len(data) - at < 12:
            raise Fault("F2")
        own = order
        if data[at : at + 4] == b"\x0a\x0d\x0d\x0a":
            magic = data[at + 8 : at + 12]
            if magic not in (b"\x1a\x2b\x3c\x4d", b"\x4d\x3c\x2b\x1a"):
                raise Fault("F3")
            own = ">" if magic == b"\x1a\x2b\x3c\x4d" else "<"
        kind, size = struct.unpack_from(own + "II", data, at)
        if size < LEAST.get(kind, 12) or size % 4 or size > MOST_BLOCK:
            raise Fault("F3")
        if len(data) - at < size:
            raise Fault("F4")
        block = data[at : at + size]
        if struct.unpack_from(own + "I", block, size - 4)[0] != size:
            raise Fault("F3")
        if kind == 0x0A0D0D0A:
            order, interfaces = own, []
        elif kind == 1:
            if len(interfaces) == MOST_INTERFACES:
                raise Fault("F3")
            interfaces.append(interface_of(order, block))
        elif kind in (2, 3, 6):
            found.add(*packet_of(order, kind, block, interfaces))
        at += size


def expected(data: bytes) -> Found:
    """What xdpvm_filter has to say of a capture, and the packets."""
    found, begin = Found(), data[:4]
    is_pcap = any(struct.pack(order + "I", magic) == begin for order in "<>" for magic in PCAPS)
    if not is_pcap and begin != b"\x0a\x0d\x0d\x0a":
        return Found(ending="not a capture")
    if len(data) < 24:
        found.ending = "fault F1 at 0"
        return found
    if is_pcap:
        order = ">" if struct.unpack(">I", begin)[0] in PCAPS else "<"
        if struct.unpack_from(order + "I", data, 20)[0] & 0xFFFF not in LINKS:
            found.ending = "fault F1 at 0"
            return found
    try:
        (pcap if is_pcap else pcapng)(data, found)
        found.ending = f"end {len(found.packets)}"
    except Fault as fault:
        found.ending = f"fault {fault} at {found.size}"
    return found


def damaged(chance: random.Random, data: bytes) -> bytes:
    """A capture with one to three changes."""
    if chance.random() < 0.01:
        rest = data if data[:4] == b"\x0a\x0d\x0d\x0a" else data[24:]
        data += rest * chance.randrange(MOST // (len(rest) or 1))
    made = bytearray(data)
    for _ in range(chance.randint(1, 3)):
        at = chance.randrange(len(made) + 1)
        match chance.randrange(5):
            case 0 if made:
                made[at % len(made)] = chance.randrange(256)
            case 1:
                word = chance.choice(
                    (0, 1, 11, 12, 28, 32, 0xFFFF, 262_145, 4_194_308, 2**31, 2**32 - 1, chance.randrange(2**32))
                )
                start = at // 4 * 4
                made[start : start + 4] = struct.pack(chance.choice("<>") + "I", word)
            case 2:
                del made[at : at + chance.randint(1, 40)]
            case 3:
                made[at:at] = chance.randbytes(chance.randint(1, 40))
            case _:
                del made[at:]
    return bytes(made)


def counted_by_tshark(path: str) -> int | None:
    """How many packets tshark reads, if it says that the file is whole."""
    ran = subprocess.run(["tshark", "-n", "-r", path, "-T", "fields", "-e", "frame.number"], capture_output=True, check=False)
    return len(ran.stdout.split()) if ran.returncode == 0 else None


def differs(program: str, path: str, out: str, wanted: Found) -> str:
    """What is wrong with a run, or nothing."""
    ran = measured(["timeout", "-s", "KILL", "60", program, PASS, path, out])
    if ran.seconds > SECONDS or ran.kib > KIB:
        return f"{ran.seconds:.2f} seconds, {ran.kib} KiB"
    status = 0 if wanted.ending.startswith("end") else 3
    said = ran.out.splitlines()
    if ran.status != status or not said or said[-1] != wanted.ending:
        return f"status {ran.status}, {said[-1:]}, wanted {wanted.ending}"
    places = [line for line in ran.err.splitlines() if line.startswith("at byte ")]
    there = [f"at byte {wanted.at}:"] if status and "F1" not in wanted.ending else []
    if [line[: line.find(":") + 1] for line in places] != there:
        return f"it says {places}, wanted {there}"
    got = packets_of_stream(bytes_of(out)) if "F1" not in wanted.ending else []
    return "" if got == wanted.packets else f"{len(got)} packets, wanted {len(wanted.packets)}, or other bytes"


def main() -> int:
    parser = argparse.ArgumentParser(description=__doc__, formatter_class=argparse.RawDescriptionHelpFormatter)
    parser.add_argument("program", nargs="?", default=built("xdpvm_filter"))
    parser.add_argument("--count", type=int, default=30_000)
    parser.add_argument("--seconds", type=int)
    parser.add_argument("--seed", type=int, default=1)
    parser.add_argument("--tshark", action="store_true")
    given = parser.parse_args()
    chance, wrong, faults, tried = random.Random(given.seed), 0, 0, 0
    whole = [capture(seed) for seed in SEEDS]
    with tempfile.TemporaryDirectory() as folder:
        path, out = os.path.join(folder, "a.capture"), os.path.join(folder, "a.frames")
        end = time.monotonic() + (given.seconds or 0)
        for number in itertools.count() if given.seconds else range(given.count):
            if given.seconds and time.monotonic() > end:
                break
            data = damaged(chance, chance.choice(whole))
            wanted = expected(data)
            if wanted.ending == "not a capture":
                continue
            write(path, data)
            tried, faults = tried + 1, faults + wanted.ending.startswith("fault")
            why = differs(os.path.abspath(given.program), path, out, wanted)
            if not why and given.tshark and wanted.ending.startswith("end"):
                count = counted_by_tshark(path)
                why = "" if count in (None, len(wanted.packets)) else f"tshark reads {count} packets, here {len(wanted.packets)}"
            if why:
                wrong += 1
                print(f"{number}: {why}: {write(f'/tmp/damaged.{number}.capture', data)}")
    print(f"{tried} damaged captures, {faults} with a fault, {wrong} differ")
    return 1 if wrong else 0


if __name__ == "__main__":
    sys.exit(main())
