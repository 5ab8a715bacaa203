#!/usr/bin/env python3
"""Sends the frames of a frame stream from an interface, as root, at once and in their order.

usage: python3 examples/send.py DEV FRAMES

It prints how many. Frames of fewer than 14 bytes, and those that are too long for the interface, are left out and
counted. Pages and tests use it on a pair of virtual interfaces: what is sent from one arrives at the other. """
import argparse
import errno
import socket
import struct
import sys
from pathlib import Path
from collections.abc import Iterator

LEAST = 14  # bytes of an Ethernet header


def bodies(stream: bytes) -> Iterator[bytes]:
    """The frames of a stream of either version, without those that have a reason."""
    head, at = {b"XPF1": 20, b"XPF2": 24}[stream[:4]], 4
    while at + head <= len(stream):
        length = struct.unpack_from("<I", stream, at + 16)[0]
        reason = struct.unpack_from("<I", stream, at + 20)[0] if head == 24 else 0
        if reason == 0:
            yield stream[at + head : at + head + length]
        at += head + length


def opened(device: str) -> socket.socket:
    """A socket that sends and receives whole frames on an interface."""
    it = socket.socket(socket.AF_PACKET, socket.SOCK_RAW, socket.htons(3))  # ETH_P_ALL
    it.bind((device, 0))
    return it


def is_sent(there: socket.socket, body: bytes) -> bool:
    """Sends a frame, if the interface takes it."""
    if len(body) < LEAST:
        return False
    try:
        there.send(body)
    except OSError as why:
        if why.errno != errno.EMSGSIZE:
            raise
        return False
    return True


def main() -> None:
    parser = argparse.ArgumentParser(description=__doc__, formatter_class=argparse.RawDescriptionHelpFormatter)
    parser.add_argument("device", metavar="DEV")
    parser.add_argument("frames", type=Path, metavar="FRAMES")
    given = parser.parse_args()
    sent = left_out = 0
    try:
        stream = given.frames.read_bytes()
        with opened(given.device) as there:
            for body in bodies(stream):
                if is_sent(there, body):
                    sent += 1
                else:
                    left_out += 1
    except KeyError:
        sys.exit(f"send.py: {given.frames} is no frame stream")
    except OSError as error:
        sys.exit(f"send.py: {error.filename or given.device}: {error.strerror}")
    print(f"{sent} frames sent" + (f", {left_out} left out" if left_out else ""))


if __name__ == "__main__":
    main()
