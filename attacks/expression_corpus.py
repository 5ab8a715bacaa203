#!/usr/bin/env python3
"""Expressions of tcpdump: those of tests/expressions/man.txt, which are the man page's (names replaced by numbers of
generated frames) and some by hand, and composed ones.

usage: python3 attacks/expression_corpus.py [SEED [COUNT]]
"""
import os
import random
import sys
from typing import TypeVar

sys.path.insert(0, os.path.join(os.path.dirname(os.path.abspath(__file__)), "../checks"))
from common import command_line

T = TypeVar("T")
MAN = os.path.join(os.path.dirname(os.path.dirname(os.path.abspath(__file__))), "tests/expressions/man.txt")
LONGEST = 700  # letters of an expression

ADDRESSES = [
    "10.0.0.1",
    "10.0.0.2",
    "10.0.0.3",
    "192.168.1.7",
    "224.0.0.5",
    "255.255.255.255",
    "128.3.1.1",
    "192.9.200.1",
]
ADDRESSES6 = ["2001:db8::1", "2001:db8::2", "fe80::1", "ff02::1"]
MACS = ["02:00:00:00:00:01", "02:00:00:00:00:02", "ff:ff:ff:ff:ff:ff", "01:00:5e:00:00:05", "01:80:c2:00:00:00"]
PORTS = [20, 21, 22, 23, 53, 67, 80, 123, 443, 1024, 6081, 8080, 36412]


class Composer:
    """Composes expressions of primitives, comparisons of numbers from the frame, and what tags go before them."""

    def __init__(self, seed: int) -> None:
        self.random = random.Random(seed)

    def of(self, *words: "T") -> "T":
        return self.random.choice(words)

    def primitive(self) -> str:
        """A test of one word or some."""
        r, of = self.random, self.of
        d = of("", "", "src ", "dst ", "src or dst ", "src and dst ")
        kind = r.randrange(22)
        if kind < 3:
            return f"{of('', '', 'ip ', 'arp ')}{d}host {r.choice(ADDRESSES)}"
        if kind == 3:
            return f"{d}host {r.choice(ADDRESSES6)}"
        if kind == 4:
            return (
                f"{d}net {r.choice(ADDRESSES).rsplit('.', 1)[0]}.0/24"
                if r.random() < 0.5
                else f"{d}net {r.randrange(1, 255) if r.random() < .3 else 10}.0.0.0/8"
            )
        if kind == 5:
            bits = of(16, 32, 48, 64, 128)
            return f"{d}net " + {16: "2001::", 32: "2001:db8::", 48: "2001:db8::", 64: "fe80::", 128: "ff02::1"}[bits] + f"/{bits}"
        if kind < 9:
            return f"{of('', 'tcp ', 'udp ', 'sctp ')}{d}port {r.choice(PORTS)}"
        if kind == 9:
            low = r.choice(PORTS)
            return f"{of('', 'tcp ', 'udp ')}{d}portrange {low}-{low + r.randrange(2000)}"
        if kind == 10:
            return of("tcp", "udp", "icmp", "icmp6", "sctp", "igmp", "ah", "esp", "pim", "vrrp")
        if kind == 11:
            return of("ip", "ip6", "arp", "rarp", "stp", "iso", "isis", "ipx", "llc", "atalk")
        if kind == 12:
            return (
                f"ether {of('', 'src ', 'dst ', 'host ')}".strip() + f" {r.choice(MACS)}"
                if r.random() < 0.8
                else of("broadcast", "multicast", "ip multicast", "ip6 multicast")
            )
        if kind == 13:
            return f"{of('less', 'greater')} {r.randrange(0, 200)}"
        if kind == 14:
            return f"len {self.relation()} {r.randrange(0, 300)}"
        if kind == 15:
            return f"ip proto {r.randrange(0, 60)}" if r.random() < 0.5 else f"ip6 proto {of(0, 6, 17, 43, 44, 58, 60)}"
        return self.comparison()

    def relation(self) -> str:
        return self.of("=", "!=", "<", ">", "<=", ">=")

    def access(self, depth: int) -> str:
        r = self.random
        proto = self.of("ether", "ip", "ip", "tcp", "udp", "icmp", "ip6", "arp")
        size = self.of("", ":1", ":2", ":4")
        if depth > 0 and r.random() < 0.3:
            place = self.number(depth - 1)
        else:
            place = str(r.choice([0, 1, 2, 4, 6, 8, 9, 12, 13, 16, 20, r.randrange(60), r.randrange(200)]))
        return f"{proto}[{place}{size}]"

    def number(self, depth: int) -> str:
        r = self.random
        kind = r.randrange(10)
        if depth <= 0 or kind < 4:
            return self.access(depth)
        if kind < 6:
            access, sign = self.access(depth), self.of("&", "|", "^")
            return f"({access} {sign} {self.of('0xf', '0xff', '0x1fff', '0xf0', '1', '0x80000000', '0xffff0000')})"
        if kind == 6:
            return f"({self.access(depth)} {self.of('<<', '>>')} {r.randrange(32)})"
        if kind == 7:
            return f"({self.number(depth - 1)} {self.of('+', '-', '*', '/', '%', '&', '|', '^')} {self.number(depth - 1)})"
        if kind == 8:
            return f"({self.number(depth - 1)} {self.of('+', '-', '*', '/', '%')} {r.randrange(1, 100)})"
        return self.of("len", "(len - 14)", f"({self.number(depth - 1)} << {self.access(0)})")

    def comparison(self) -> str:
        r = self.random
        right = (
            self.number(1)
            if r.random() < 0.2
            else self.of(
                str(r.randrange(256)),
                hex(r.randrange(1 << 16)),
                hex(r.randrange(1 << 32)),
                "0",
                "6",
                "17",
                "0x800",
                "69",
            )
        )
        return f"{self.number(2)} {self.relation()} {right}"

    def group(self, depth: int) -> str:
        r = self.random
        if depth <= 0 or r.random() < 0.25:
            said = self.primitive()
            return said if r.random() < 0.85 else f"not {self.wrapped(said)}"
        said = f" {self.of('and', 'or')} ".join(self.group(depth - 1) for _ in range(r.randrange(2, 4)))
        return said if r.random() < 0.5 else self.of("(%s)", "not (%s)") % said

    def wrapped(self, said: str) -> str:
        return f"({said})"

    def expression(self) -> str:
        r = self.random
        said = self.group(r.randrange(0, 4))
        kind = r.randrange(16)
        before = {
            0: "vlan and ",
            1: f"vlan {self.of(1, 100, 200)} and ",
            2: "vlan and vlan and ",
            3: "mpls and ",
            4: "pppoes and ",
            5: "geneve and ",
            6: f"mpls {self.of(16, 1024, 100000)} and ",
        }.get(kind, "")
        return f"{before}({said})" if before else said


def of_man_page() -> list[str]:
    with open(MAN, encoding="utf-8") as file:
        return file.read().splitlines()


def expressions(seed: int = 1, count: int = 700) -> list[str]:
    """Those of the file, and so many composed ones."""
    found = dict.fromkeys(of_man_page())
    composer, most = Composer(seed), len(found) + count
    while len(found) < most:
        said = composer.expression()
        if len(said) < LONGEST:
            found[said] = None
    return list(found)


def main() -> None:
    words = command_line()
    words.add_argument("seed", type=int, nargs="?", default=1)
    words.add_argument("count", type=int, nargs="?", default=700)
    given = words.parse_args()
    print(*expressions(given.seed, given.count), sep="\n")


if __name__ == "__main__":
    main()
