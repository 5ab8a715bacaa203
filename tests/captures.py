#!/usr/bin/env python3
"""Captures as frames, and frames as captures: xdpvm_filter reads the packets that Wireshark reads, and writes them. In the gate.

usage: python3 tests/captures.py [XDPVM_FILTER] [--store]

Each capture is made from a seed: a pcapng of up to four sections in either byte order, with interfaces of several resolutions
and offsets of times, enhanced, simple and old packets, comments, and blocks of unknown types; or a pcap in one of its four forms.
tests/captures.txt has the SHA-256 of the times and bytes of its packets as Wireshark's mergecap copied them into a pcap with
nanoseconds; --store writes it. Where Wireshark is installed, each capture is tried anew against it. A resolution of 10^-10 and
finer is left out: there Wireshark multiplies beyond 64 bits.

The captures from seed 40 on have IP packets of other link types: Linux's `any` interface, raw IP, and BSD's loopback in either
byte order; some packets are none of IP. Their rows have the SHA-256 of what Wireshark's tshark says of each: its time, addresses,
UDP ports and payload, which are read here from the Ethernet frames.

Each capture is also written, as a pcap, as a pcapng and as a frame stream: the packets of the pcap and of the stream, and those
that Wireshark reads of the pcap and the pcapng where it is installed, have to be the same, and each frame of the stream has the
reason that its packet's comment says, or 0.

A start of tshark takes half a second, so that Wireshark reads all captures one behind the other, which a pcapng may be; where it
reads anything else than is stored, it is asked of each by itself.

What differs is printed; the last line counts, and the status is 1 if anything differs.
"""
import contextlib
import hashlib
import ipaddress
import os
import random
import re
import shutil
import struct
import subprocess
import sys
import tempfile
from collections.abc import Callable, Iterator
from itertools import islice

sys.path.insert(0, os.path.join(os.path.dirname(os.path.abspath(__file__)), "../checks"))
from common import TOP, built, bytes_of, need, text_of, write

STORED = os.path.join(TOP, "tests/captures.txt")
PASS = os.path.join(TOP, "examples/pass.image")
SEEDS = range(64)
LINKED = 40  # the first seed of a capture with other link types
SCALES = (None, 0, 3, 6, 7, 9, 0x80 | 10, 0x80 | 20, 0x80 | 30)  # values of if_tsresol
OFFSETS = (None, None, 1000, -5)  # values of if_tsoffset, in seconds
COMMENTS = (b"hello %d", b"reason %d", b"reason %07d", b"reason %d ")  # of a number
LENGTHS = (14, 15, 60, 61, 62, 63, 90, 1514)
PCAPS = ((">", 0xA1B2C3D4), ("<", 0xA1B2C3D4), (">", 0xA1B23C4D), ("<", 0xA1B23C4D))
LINKS = (1, 113, 276, 101, 12, 228, 229, 0, 108)
FAMILIES = {4: (2,), 6: (24, 28, 30)}
FIELDS = "frame.time_epoch ip.src ip.dst ipv6.src ipv6.dst udp.srcport udp.dstport udp.payload".split()
PCAPNG = b"\x0a\x0d\x0d\x0a"  # with which a pcapng begins
Packet = tuple[int, bytes]  # its nanoseconds and its bytes


def block(order: str, kind: int, body: bytes) -> bytes:
    body += bytes(-len(body) % 4)
    size = len(body) + 12
    return struct.pack(order + "II", kind, size) + body + struct.pack(order + "I", size)


def option(order: str, code: int, value: bytes) -> bytes:
    return struct.pack(order + "HH", code, len(value)) + value + bytes(-len(value) % 4)


def units_per_second(scale: int | None) -> int:
    if scale is None:
        return 10**6
    return 1 << (scale & 127) if scale & 128 else int(10**scale)


def datagram(chance: random.Random, version: int) -> bytes:
    """An IP packet with a UDP datagram."""
    data = chance.randbytes(chance.choice((1, 2, 3, 4, 100, 1400)))
    udp = struct.pack(">4H", 40001, 40002, 8 + len(data), 0) + data
    if version == 4:
        return struct.pack(">BBHHHBBH", 0x45, 0, 20 + len(udp), 1, 0, 64, 17, 0) + chance.randbytes(8) + udp
    return struct.pack(">IHBB", 6 << 28, len(udp), 17, 64) + chance.randbytes(32) + udp


def linked(chance: random.Random, link: int) -> bytes:
    """The bytes of a packet of a link type, as https://www.tcpdump.org/linktypes.html describes it: one of IP, or none."""
    version = {228: 4, 229: 6}.get(link) or chance.choice((4, 6))
    packet, kind = datagram(chance, version), struct.pack(">H", {4: 0x0800, 6: 0x86DD}[version])
    order, family = (">" if link == 108 else chance.choice("<>")), chance.choice(FAMILIES[version])
    if chance.randrange(8) == 0:
        packet, kind, family = bytes([0x50]) + packet[1:], b"\x88\xb5", 7
    if chance.randrange(16) == 0 and link not in (1, 113, 276):
        return bytes(chance.randrange(4) if link in (0, 108) else 0)
    heads = {
        1: chance.randbytes(12) + kind,
        113: struct.pack(">3H8s", 0, 1, 6, chance.randbytes(6)) + kind,
        276: kind + struct.pack(">HIHBB8s", 0, chance.randrange(9), 1, 0, 6, chance.randbytes(6)),
        0: struct.pack(order + "I", family),
        108: struct.pack(order + "I", family),
    }
    return heads.get(link, b"") + packet


def linked_section(chance: random.Random, order: str) -> bytes:
    """A section with interfaces of several link types."""
    made = block(order, 0x0A0D0D0A, struct.pack(order + "IHHq", 0x1A2B3C4D, 1, 0, -1))
    links = [chance.choice(LINKS) for _ in range(chance.randint(1, 5))]
    for link in links:
        made += block(order, 1, struct.pack(order + "HHI", link, 0, 0))
    for _ in range(chance.randint(0, 40)):
        number = chance.randrange(len(links))
        data = linked(chance, links[number])
        head = (1, chance.randrange(2**32), len(data), len(data))
        match chance.choice((6, 6, 2, 3)):
            case 6:
                made += block(order, 6, struct.pack(order + "5I", number, *head) + data)
            case 2:
                made += block(order, 2, struct.pack(order + "HH4I", number, 0, *head) + data)
            case _:
                data = linked(chance, links[0])
                made += block(order, 3, struct.pack(order + "I", len(data)) + data)
    return made


def linked_capture(seed: int) -> bytes:
    """A capture with IP packets: a pcap of each link type, or a pcapng of several."""
    chance, which = random.Random(seed), seed - LINKED
    if which >= len(LINKS):
        return b"".join(linked_section(chance, order) for order in chance.sample("<><>", chance.randint(1, 4)))
    order, magic = PCAPS[seed % 4]
    made = struct.pack(order + "IHHiIII", magic, 2, 4, 0, 0, 262144, LINKS[which])
    for at in range(50):
        data = linked(chance, LINKS[which])
        made += struct.pack(order + "4I", 1_700_000_000 + at, chance.randrange(10**6), len(data), len(data)) + data
    return made


def reason_of(comment: bytes) -> int:
    """The reason that a comment says, or 0."""
    said = re.fullmatch(rb"reason ([0-9]{1,10})", comment)
    return int(said[1]) if said and int(said[1]) < 2**32 else 0


def section(chance: random.Random, order: str, reasons: list[int]) -> bytes:
    """A section with its interfaces and packets, whose reasons are added to those of the packets before."""
    end = option(order, 0, b"")
    made = block(order, 0x0A0D0D0A, struct.pack(order + "IHHq", 0x1A2B3C4D, 1, 0, -1) + option(order, 1, b"a comment") + end)
    interfaces = []
    for _ in range(chance.randint(1, 5)):
        scale, offset, snap = chance.choice(SCALES), chance.choice(OFFSETS), chance.choice((0, 100, 65535, 262144))
        body = struct.pack(order + "HHI", 1, 0, snap) + option(order, 2, b"eth0")
        body += option(order, 9, bytes([scale])) if scale is not None else b""
        body += option(order, 14, struct.pack(order + "q", offset)) if offset is not None else b""
        made += block(order, 1, body + end)
        interfaces.append((scale, snap))
    for _ in range(chance.randint(0, 40)):
        number, data = chance.randrange(len(interfaces)), chance.randbytes(chance.choice(LENGTHS))
        units = int((1_700_000_000 + chance.random()) * units_per_second(interfaces[number][0])) % 2**60
        head = (units >> 32, units % 2**32, len(data), len(data))
        kind = chance.choice((6, 6, 6, 2, 3, 0x80000BAD))
        if kind == 6:
            padding, said = bytes(-len(data) % 4), COMMENTS[units % len(COMMENTS)] % (units % 10 ** (units % 13))
            made += block(order, 6, struct.pack(order + "5I", number, *head) + data + padding + option(order, 1, said) + end)
            reasons.append(reason_of(said))
        elif kind == 2:
            made += block(order, 2, struct.pack(order + "HH4I", number, 7, *head) + data)
            reasons.append(0)
        elif kind == 3:
            data = data[: interfaces[0][1] or len(data)]
            made += block(order, 3, struct.pack(order + "I", len(data)) + data)
            reasons.append(0)
        else:
            made += block(order, kind, chance.randbytes(chance.choice((0, 4, 8, 100))))
    return made


def capture(seed: int, reasons: list[int] | None = None) -> bytes:
    """The capture of a seed; the list gets the reasons that the comments of its packets say, if it has comments."""
    if seed >= LINKED:
        return linked_capture(seed)
    chance = random.Random(seed)
    if seed % 4 == 0:
        order, magic = PCAPS[seed // 4 % 4]
        made = struct.pack(order + "IHHiIII", magic, 2, 4, 0, 0, 262144, 1)
        for at in range(chance.randint(0, 50)):
            data = chance.randbytes(chance.choice(LENGTHS))
            made += struct.pack(order + "4I", 1_700_000_000 + at, chance.randrange(10**6), len(data), len(data) + 3) + data
        return made
    said: list[int] = [] if reasons is None else reasons
    return b"".join(section(chance, order, said) for order in chance.sample("<><>", chance.randint(1, 4)))


def packets_of_pcap(data: bytes) -> list[Packet]:
    """The packets of a pcap with nanoseconds and the low byte first."""
    found, at = [], 24
    while at < len(data):
        seconds, nanoseconds, size, _ = struct.unpack_from("<4I", data, at)
        found.append((seconds * 10**9 + nanoseconds, data[at + 16 : at + 16 + size]))
        at += 16 + size
    return found


def packets_of_stream(data: bytes) -> list[Packet]:
    """Those of a frame stream of the second version."""
    found, at = [], 4
    while at < len(data):
        time, _, _, size, _ = struct.unpack_from("<Q4I", data, at)
        found.append((time, data[at + 24 : at + 24 + size]))
        at += 24 + size
    return found


def reasons_of_stream(data: bytes) -> list[int]:
    """The reasons of a frame stream of the second version."""
    found, at = [], 4
    while at < len(data):
        size, reason = struct.unpack_from("<2I", data, at + 16)
        found.append(reason)
        at += 24 + size
    return found


def told(time: int, data: bytes) -> str:
    """The fields of an Ethernet frame, in the words of tshark."""
    sizes = {0x0800: (12, 4), 0x86DD: (8, 16)}
    kind = int.from_bytes(data[12:14], "big")
    seen = [f"{time // 10**9}.{time % 10**9:09}"] + [""] * 7
    if kind in sizes:
        (start, size), at = sizes[kind], 14
        for which in range(2):
            address = data[at + start + which * size : at + start + (which + 1) * size]
            seen[(1 if size == 4 else 3) + which] = str(ipaddress.ip_address(address))
        at += start + 2 * size
        seen[5:] = [*map(str, struct.unpack_from(">2H", data, at)), data[at + 8 :].hex()]
    return ",".join(seen)


def items_of(seed: int, packets: list[Packet]) -> list[bytes]:
    """What the row of a capture is a sum of, where it has these packets: one item for each."""
    if seed >= LINKED:
        return [told(*it).encode() for it in packets]
    return [struct.pack("<QI", time, len(data)) + data for time, data in packets]


def row_of(seed: int, items: list[bytes]) -> str:
    whole = (b"\n" if seed >= LINKED else b"").join(items)
    return f"{len(items)} {hashlib.sha256(whole).hexdigest()}"


def summed_of(seed: int, packets: list[Packet]) -> str:
    """What the row of a capture has to say, where it has these packets."""
    return row_of(seed, items_of(seed, packets))


def copied(folder: str, paths: list[str]) -> list[bytes]:
    """The packets of captures of Ethernet frames, one capture after the other, as mergecap copies them."""
    out = os.path.join(folder, "copied.pcap")
    subprocess.run(["mergecap", "-a", "-F", "nsecpcap", "-w", out, *paths], check=True, stderr=subprocess.DEVNULL)
    return items_of(0, packets_of_pcap(bytes_of(out)))


def dissected(folder: str, paths: list[str]) -> list[bytes]:
    """What tshark says of the packets of captures, one capture after the other; editcap makes a pcapng of a pcap."""
    whole, out = os.path.join(folder, "whole.pcapng"), os.path.join(folder, "one.pcapng")
    with open(whole, "wb") as file:
        for path in paths:
            data = bytes_of(path)
            if not data.startswith(PCAPNG):
                subprocess.run(["editcap", "-F", "pcapng", path, out], check=True, stderr=subprocess.DEVNULL)
                data = bytes_of(out)
            file.write(data)
    fields = [it for name in FIELDS for it in ("-e", name)]
    words = ["tshark", "-n", "-r", whole, "-T", "fields", "-E", "separator=,", *fields]
    ran = subprocess.run(words, capture_output=True, check=True)
    # a simple packet has no time there, and 0 here
    return [b"0.000000000" + it if it.startswith(b",") else it for it in ran.stdout.splitlines()]


def reader_of(seed: int) -> Callable[[str, list[str]], list[bytes]]:
    """What reads the packets of captures such as that of this seed."""
    return dissected if seed >= LINKED else copied


def from_outside(folder: str, asked: list[tuple[int, str]], stored: list[str]) -> dict[str, str]:
    """The rows of captures, each a seed and a path, by their paths, as Wireshark reads them; empty where it is not installed."""
    rows: dict[str, str] = {}
    if not all(shutil.which(it) for it in ("mergecap", "editcap", "tshark")):
        return rows
    for some in ([it for it in asked if it[0] < LINKED], [it for it in asked if it[0] >= LINKED]):
        items: Iterator[bytes] = iter(())
        with contextlib.suppress(subprocess.CalledProcessError):
            items = iter(reader_of(some[0][0])(folder, [path for _, path in some]))
        found = [row_of(seed, [*islice(items, int(stored[seed].split()[0]))]) for seed, _ in some]
        if found != [stored[seed] for seed, _ in some] or next(items, None) is not None:
            found = [row_of(seed, reader_of(seed)(folder, [path])) for seed, path in some]
        rows.update(zip((path for _, path in some), found))
    return rows


def read(program: str, folder: str, path: str, seed: int) -> str:
    """What xdpvm_filter reads of a capture."""
    out = os.path.join(folder, "read.frames")
    ran = subprocess.run([program, PASS, path, out], capture_output=True, check=False)
    return summed_of(seed, packets_of_stream(bytes_of(out))) if ran.returncode == 0 else ran.stderr.decode(errors="replace")


def wrote(program: str, path: str, seed: int, kept: str) -> list[str]:
    """What differs in the packets that xdpvm_filter writes of a capture; it makes a pcap and a pcapng beside it."""
    wrong = []
    for ending in ("pcap", "pcapng"):
        subprocess.run([program, PASS, path, f"{path}.{ending}"], capture_output=True, check=False)
    found = summed_of(seed, packets_of_pcap(bytes_of(f"{path}.pcap")))
    if found != kept:
        wrong.append(f"written as a pcap: {found}")
    return wrong


def converted(program: str, folder: str, path: str, seed: int, kept: str, reasons: list[int]) -> list[str]:
    """What differs in the frame stream that xdpvm_filter makes of a capture, and in its reasons."""
    out = os.path.join(folder, "converted.frames")
    subprocess.run([program, "convert", "--reasons", path, out], capture_output=True, check=False)
    stream = bytes_of(out)
    seen, found = summed_of(seed, packets_of_stream(stream)), reasons_of_stream(stream)
    wrong = [] if seen == kept else [f"converted to a stream: {seen}"]
    return wrong + ([] if found == (reasons or [0] * len(found)) else ["xdpvm_filter convert reads other reasons"])


def differences(program: str, folder: str, path: str, seed: int, kept: str) -> list[str]:
    """What differs in a capture, which is written to the path."""
    reasons: list[int] = []
    write(path, capture(seed, reasons))
    ours = read(program, folder, path, seed)
    found = [] if ours == kept else [f"read: {ours}"]
    return found + wrote(program, path, seed, kept) + converted(program, folder, path, seed, kept, reasons)


def main(words: list[str]) -> int:
    named = [it for it in words if it != "--store"]
    program = os.path.abspath(named[0] if named else built("xdpvm_filter"))
    need(program)
    with tempfile.TemporaryDirectory() as folder:
        paths = [os.path.join(folder, f"{seed}.capture") for seed in SEEDS]
        if "--store" in words:
            rows = [row_of(seed, reader_of(seed)(folder, [write(path, capture(seed))])) for seed, path in zip(SEEDS, paths)]
            write(STORED, "\n".join(rows) + "\n")
            return 0
        stored, wrong = text_of(STORED).splitlines(), []
        for seed, kept in zip(SEEDS, stored, strict=True):
            wrong += [f"seed {seed}: stored {kept}, {it}" for it in differences(program, folder, paths[seed], seed, kept)]
        asked = [(seed, paths[seed] + ending) for ending in ("", ".pcap", ".pcapng") for seed in SEEDS]
        rows_outside = from_outside(folder, asked, stored)
        for seed, path in asked:
            if rows_outside.get(path, stored[seed]) != stored[seed]:
                wrong.append(f"seed {seed}: stored {stored[seed]}, Wireshark of {os.path.basename(path)}: {rows_outside[path]}")
    packets = sum(int(kept.split()[0]) for kept in stored)
    print(*wrong, f"{len(stored)} captures of {packets} packets, {len(wrong)} differ", sep="\n")
    return 1 if wrong else 0


if __name__ == "__main__":
    sys.exit(main(sys.argv[1:]))
