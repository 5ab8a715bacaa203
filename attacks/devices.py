#!/usr/bin/env python3
"""Whether files on two devices are two files, even if their numbers are alike.

usage: python3 attacks/devices.py [PROGRAM]

File systems in memory are mounted, seen by this script alone, until the device numbers of two of
them have the same last byte. The first file of each has the same inode number. `asm` has to write
the image on one of them over a file there, while the text that it reads is on the other; a text by
another name is still one file. PROGRAM is the program that `rt run` leaves in crates/xdpvm (the
default: crates/xdpvm/out/xdpvm). The exit status is 0 if it is so, 1 if not, and 77 if no file
system can be mounted here.
"""
import ctypes
import os
import subprocess
import sys
import tempfile

sys.path.insert(0, os.path.join(os.path.dirname(os.path.abspath(__file__)), "../checks"))
from common import CANNOT, need, program, write

PROGRAM = program()
TEXT = "r0 = 2; exit\n"
OWN_MOUNTS = 0x20000
PRIVATE_BELOW = 0x44000
SYSTEM = ctypes.CDLL(None, use_errno=True)


def asked(answer: int) -> None:
    """Fails as the system does, if a call's answer says that it failed."""
    if answer != 0:
        raise OSError(ctypes.get_errno(), os.strerror(ctypes.get_errno()))


def alike(folder: str) -> tuple[str, str]:
    """The folders of two new file systems whose device numbers have the same last byte."""
    found: dict[int, str] = {}
    for count in range(1000):
        place = os.path.join(folder, str(count))
        os.mkdir(place)
        asked(SYSTEM.mount(b"none", place.encode(), b"tmpfs", 0, None))
        other = found.setdefault(os.stat(place).st_dev & 0xFF, place)
        if other != place:
            return other, place
    raise OSError("no two device numbers have the same last byte")


def tell(words: list[str], wanted: tuple[int, str, str]) -> bool:
    """Whether a command ends with this status, standard output and standard error."""
    ran = subprocess.run([PROGRAM, *words], stdin=subprocess.DEVNULL, capture_output=True, text=True, check=False)
    got = ran.returncode, ran.stdout, ran.stderr
    if got != wanted:
        print(f"{' '.join(words)}: {got}, not {wanted}")
    return got == wanted


def main() -> int:
    need(PROGRAM)
    with tempfile.TemporaryDirectory() as folder:
        try:
            asked(SYSTEM.unshare(OWN_MOUNTS))
            asked(SYSTEM.mount(None, b"/", None, PRIVATE_BELOW, None))
            one, other = alike(folder)
        except OSError as error:
            print(f"no file system can be mounted here: {error}", file=sys.stderr)
            return CANNOT
        text, image, link = f"{one}/text", f"{other}/image", f"{other}/link"
        numbers = os.stat(write(text, TEXT)), os.stat(write(image, TEXT))
        assert numbers[0].st_ino == numbers[1].st_ino and numbers[0].st_dev != numbers[1].st_dev
        os.symlink(text, link)
        refused = f"cannot write {link}\nit is one of the files that are read\n"
        good = [
            tell(["asm", text, link], (4, "", refused)),
            tell(["asm", text, image], (0, "ok maps 0 slots 2\n", "")),
            tell(["verify", image], (0, "ok bound 2\n", "")),
        ]
        for place in os.listdir(folder):
            SYSTEM.umount2(os.path.join(folder, place).encode(), 2)
    return 0 if all(good) else 1


if __name__ == "__main__":
    sys.exit(main())
