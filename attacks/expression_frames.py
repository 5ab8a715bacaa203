"""Generated Ethernet frames of the protocols that expressions of tcpdump know, whole, cut and changed."""
import random
import socket
import struct

from expression_corpus import ADDRESSES, ADDRESSES6, MACS, PORTS

M = [bytes.fromhex(mac.replace(":", "")) for mac in MACS]
A4 = [socket.inet_aton(it) for it in ADDRESSES]
A6 = [socket.inet_pton(socket.AF_INET6, it) for it in ADDRESSES6]


class Maker:
    """Makes frames of many protocols, most of them whole."""

    def __init__(self, seed: int) -> None:
        self.random = random.Random(seed)

    def some(self, most: int = 40) -> bytes:
        return self.random.randbytes(self.random.randrange(most))

    def port(self) -> int:
        return self.random.choice(PORTS) if self.random.random() < 0.8 else self.random.randrange(65536)

    # what is above IP

    def tcp(self) -> bytes:
        r = self.random
        options = self.random.randbytes(4 * r.choice([0, 0, 1, 3, 5, 10]))
        text = r.choice([b"", b"GET / HTTP/1.1\r\n", b"HTTP/1.1 200 OK\r\n", self.some()])
        return (
            struct.pack(
                ">HHIIBBHHH",
                self.port(),
                self.port(),
                r.getrandbits(32),
                r.getrandbits(32),
                (5 + len(options) // 4) << 4,
                r.choice([2, 18, 16, 24, 1, 17, 4, 20, 32, 0xC2]),
                1024,
                0,
                0,
            )
            + options
            + text
        )

    def udp(self) -> bytes:
        body = self.random.choice([b"", self.random.randbytes(12), self.some(60)])
        return struct.pack(">HHHH", self.port(), self.port(), 8 + len(body), 0) + body

    def geneve(self) -> bytes:
        r = self.random
        options = r.randbytes(4 * r.choice([0, 0, 1, 2, 5]))
        kind, body = r.choice([(0x6558, self.frame(1)), (0x800, self.ip4(2)), (0x86DD, self.ip6(2)), (0x1234, b"abcd")])
        body = (
            struct.pack(">BBHI", len(options) // 4 | r.choice([0, 0, 0, 0x40]), 0, kind, r.choice([0xB, 5]) << 8) + options + body
        )
        return struct.pack(">HHHH", self.port(), 6081, 8 + len(body), 0) + body

    def icmp(self) -> bytes:
        return struct.pack(">BBHHH", self.random.choice([0, 3, 5, 8, 11, 13]), self.random.randrange(3), 0, 1, 1) + self.some()

    def icmp6(self) -> bytes:
        return (
            struct.pack(">BBHHH", self.random.choice([1, 2, 128, 129, 133, 134, 135, 136]), self.random.randrange(2), 0, 1, 1)
            + self.some()
        )

    def sctp(self) -> bytes:
        return struct.pack(">HHII", self.port(), self.port(), 1, 0) + struct.pack(">BBHI", 1, 0, 20, 0) + self.some()

    def above(self, depth: int) -> tuple[int, bytes]:
        """What follows an Ethernet head: its type, and the bytes."""
        r = self.random
        kind = r.randrange(15)
        if kind < 4:
            return 6, self.tcp()
        if kind < 7:
            return 17, self.udp()
        if kind == 7:
            return 1, self.icmp()
        if kind == 8:
            return 132, self.sctp()
        if kind == 9:
            return r.choice(
                [
                    (2, bytes([r.choice([0x11, 0x16, 0x17]), 0, 0, 0]) + r.choice(A4)),
                    (103, b"\x20\0\0\0" + self.some()),
                    (112, b"\x21\1\x64\1" + self.some()),
                    (9, b"\1" + self.some()),
                ]
            )
        if kind == 10:
            return r.choice(
                [
                    (50, r.randbytes(24)),
                    (47, struct.pack(">HH", 0, 0x800) + self.some()),
                    (r.randrange(256), self.some()),
                ]
            )
        if kind == 11 and depth < 2:
            return 17, self.geneve()
        if kind == 12 and depth < 2:
            return 4, self.ip4(depth + 1)
        if kind == 13 and depth < 2:
            return 41, self.ip6(depth + 1)
        return self.chain(6 if r.random() < 0.5 else 17)

    def chain(self, last: int) -> tuple[int, bytes]:
        """An authentication header, as protochain follows it."""
        body = self.tcp() if last == 6 else self.udp()
        return 51, bytes([last, 4]) + bytes(22) + body

    def ip4(self, depth: int = 0) -> bytes:
        r = self.random
        proto, body = self.above(depth)
        options = r.randbytes(4 * r.choice([0, 0, 0, 0, 1, 2, 5, 10]))
        fragment = r.choice([0, 0, 0, 0x4000, 0x4000, 0x2000, 0x2000 | 185, 5, 0x1FFF])
        first = 0x40 | (5 + len(options) // 4)
        if r.random() < 0.03:
            first = r.randrange(256)
        return (
            struct.pack(
                ">BBHHHBBH",
                first,
                r.choice([0, 0, 0xB8]),
                20 + len(options) + len(body),
                r.getrandbits(16),
                fragment,
                r.choice([1, 64, 64, 128, 255, 0, 5]),
                proto,
                0,
            )
            + r.choice(A4)
            + r.choice(A4)
            + options
            + body
        )

    def ip6(self, depth: int = 0) -> bytes:
        r = self.random
        proto, body = (58, self.icmp6()) if r.random() < 0.2 else self.above(depth)
        for _ in range(r.choice([0, 0, 0, 1, 1, 2, 3])):
            kind = r.choice([0, 43, 44, 60])
            words = 0 if kind == 44 else r.choice([0, 0, 1, 2])
            body = bytes([proto, words]) + r.randbytes(6 + 8 * words) + body
            proto = kind
        return (
            struct.pack(">IHBB", 0x60000000 | r.choice([0, 0, 0x12345]), len(body), proto, r.choice([1, 64, 255]))
            + r.choice(A6)
            + r.choice(A6)
            + body
        )

    # what is above Ethernet

    def arp(self) -> bytes:
        r = self.random
        return (
            struct.pack(">HHBBH", 1, 0x800, 6, 4, r.choice([1, 2, 3, 4]))
            + r.choice(M)
            + r.choice(A4)
            + r.choice(M)
            + r.choice(A4)
            + bytes(r.choice([0, 18]))
        )

    def llc(self) -> bytes:
        """A frame of 802.3, with a length in place of a type."""
        r = self.random
        control = r.choice(
            [
                b"\x03",
                b"\x00\x02",
                b"\x01\x00",
                b"\x05\x00",
                b"\x09\x00",
                b"\x63",
                b"\x43",
                b"\x6f",
                b"\xe3",
                b"\xaf",
                b"\x87",
                b"\x7f",
                b"\xf3",
            ]
        )
        body = r.choice(
            [
                b"\x42\x42\x03" + bytes(35),
                b"\xfe\xfe\x03" + bytes([r.choice([0x81, 0x82, 0x83])]) + b"\x1b\1\0" + bytes([r.randrange(1, 32)]) + self.some(),
                b"\xf0\xf0" + control + self.some(),
                b"\xe0\xe0" + control + b"\xff\xff" + self.some(),
                b"\xaa\xaa\x03\x08\0\x07\x80\x9b" + self.some(),
                b"\xaa\xaa\x03\0\0\0\x80\xf3" + self.some(),
                b"\xaa\xaa\x03\0\0\0\x81\x37" + self.some(),
                b"\xff\xff" + self.some(),
                r.randbytes(2) + control + self.some(),
            ]
        )
        return struct.pack(">H", len(body) if r.random() < 0.9 else r.randrange(1501)) + body

    def mpls(self) -> bytes:
        r = self.random
        count = r.choice([1, 1, 2, 3])
        labels = b"".join(
            struct.pack(">I", r.choice([16, 1024, 100000]) << 12 | (at == count - 1) << 8 | 64) for at in range(count)
        )
        return labels + r.choice([self.ip4, self.ip4, self.ip6])(1)

    def pppoes(self) -> bytes:
        r = self.random
        kind, body = r.choice([(0x21, self.ip4(1)), (0x57, self.ip6(1)), (0xC021, self.some())])
        return struct.pack(">BBHHH", 0x11, 0, r.choice([0x27, 1]), len(body) + 2, kind) + body

    def other(self, depth: int) -> bytes:
        """The type and what follows."""
        r = self.random
        kind = r.randrange(24)
        if kind < 7:
            return struct.pack(">H", 0x800) + self.ip4(depth)
        if kind < 11:
            return struct.pack(">H", 0x86DD) + self.ip6(depth)
        if kind < 13:
            return struct.pack(">H", r.choice([0x806, 0x8035])) + self.arp()
        if kind < 15:
            return self.llc()
        if kind == 15:
            return struct.pack(">H", r.choice([0x8847, 0x8848])) + self.mpls()
        if kind == 16:
            return struct.pack(">H", 0x8864) + self.pppoes()
        if kind == 17:
            return (
                struct.pack(
                    ">H",
                    r.choice([0x8863, 0x88CC, 0x6001, 0x6002, 0x6003, 0x6004, 0x6007, 0x809B, 0x80F3, 0x8137, 0x9000, 0x6003]),
                )
                + self.decnet()
            )
        tags = b"".join(
            struct.pack(">HH", tpid, r.choice([1, 100, 200, 300]) | r.choice([0, 0, 0x6000, 0x1000]))
            for tpid in r.choice(
                [
                    [0x8100],
                    [0x8100],
                    [0x88A8, 0x8100],
                    [0x8100, 0x8100],
                    [0x9100, 0x8100],
                    [0x88A8, 0x88A8, 0x8100],
                    [0x9100],
                ]
            )
        )
        return tags + (self.other(depth + 1) if depth < 3 else struct.pack(">H", 0x800) + self.ip4(1))

    def decnet(self) -> bytes:
        return self.random.choice(
            [b"\x0a\0\x81\x26" + bytes(6) + b"\1\4" + bytes(6) + b"\1\4", self.some(), self.random.randbytes(46)]
        )

    def frame(self, depth: int = 0) -> bytes:
        r = self.random
        return r.choice(M) + r.choice(M) + self.other(depth)

    def any_frame(self) -> bytes:
        r = self.random
        frame = self.frame()
        kind = r.randrange(20)
        if kind < 3 and frame:
            frame = bytearray(frame)
            for _ in range(r.randrange(1, 4)):
                frame[r.randrange(len(frame))] = r.choice([0, 1, 6, 17, 0xFF, r.randrange(256)])
            frame = bytes(frame)
        elif kind == 3:
            frame = frame[: r.randrange(len(frame) + 1)]
        elif kind == 4:
            frame += bytes(max(0, 60 - len(frame)))
        elif kind == 5:
            frame += r.randbytes(r.choice([4, 100, 500, 1400]))
        elif kind == 6:
            frame = r.randbytes(r.randrange(100))
        return frame[:4096]


def frames(seed: int = 1, count: int = 3000, kinds: int = 60) -> list[bytes]:
    """Frames of so many kinds, each cut at every length up to 150 bytes; three long ones; and so many of any kind."""
    maker, found = Maker(seed), []
    for _ in range(kinds):
        frame = maker.frame()
        found += [frame[:length] for length in range(min(len(frame), 150) + 1)]
    found += [b"\xff" * 4096, bytes(4096), bytes(1514)]
    found += [maker.any_frame() for _ in range(count)]
    return found


def pcap_of(found: list[bytes], wire: int = 0) -> bytes:
    """A capture; frame n has the time n seconds, so that it is known again. `wire` is the least length on the wire."""
    parts = [struct.pack("<IHHiIII", 0xA1B23C4D, 2, 4, 0, 0, 0x40000, 1)]
    for number, frame in enumerate(found):
        parts.append(struct.pack("<IIII", number, 0, len(frame), max(len(frame), wire)) + frame)
    return b"".join(parts)
