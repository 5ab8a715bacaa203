#!/usr/bin/env python3
"""Makes an object file of an image, for loaders of the Linux kernel (libbpf, bpftool, ip, xdp-loader), or loads it.

usage: python3 tools/object.py IMAGE OBJECT [--name NAME] [--maps NAME,..] [--source TEXT] [--license L] [--pin]
                               [--xdpvm PROGRAM | --unverified]
       python3 tools/object.py --load DEV|PIN IMAGE [--fill FILE] [--keep] [--replace] [--mode native|generic]
                               [--force] [--by bpftool|ip|xdp-loader] [--name NAME] [--maps NAME,..] ..
       python3 tools/object.py --read DEV|PIN
       python3 tools/object.py --unload DEV|PIN
       python3 tools/object.py --check IMAGE
       python3 tools/object.py --tag IMAGE

The image is verified first, by the xdpvm beside this script, on the path, or named; --unverified leaves that out. The
program is called NAME (xdpvm_prog), and the maps have the NAMEs given (map0, map1, ..). --source is the text that the
image was assembled of: the kernel's messages then show its lines, and else those of `xdpvm dis`. An object has no
license if none is given. With --pin other loaders pin the maps by their names, or take those that are pinned.

What the variables and constants of an image from C begin with is in IMAGE.maps, beside it: their sections of the object
begin so, and each loader fills them in.

--load verifies and loads the program, fills its maps from the map lines of FILE (as a report and --read have them; - is
standard input), and puts it on the interface DEV, in one step in place of the one that was loaded before. It is pinned
in /sys/fs/bpf/xdpvm/DEV; with a path in place of DEV it is pinned there, and put on no interface. --keep goes on with
the maps of the program before. --replace replaces a program that another tool loaded, --force loads an image that
`verify` refuses. --read prints the maps, --unload takes all out again. --by ip and --by xdp-loader load on DEV without
pins, and so without --fill, --keep and --read.

--check says what Linux refuses of a program that `verify` accepts, and loads it for a test where that is allowed. --tag
prints the two tags by which `bpftool prog show` may name the program, from Linux 6.18 on and before.

examples:
    python3 tools/object.py --name talkers --maps frames_of,uncounted examples/talkers.image talkers.o
    sudo ip link set dev eth0 xdp obj talkers.o sec xdp
    sudo python3 tools/object.py --load eth0 --fill allowed examples/allow.image
    sudo python3 tools/object.py --read eth0

docs/LOADING.md leads through all of it. The exit status is 0; 1 with a message, and then no object is written; 2 if the
image is refused by xdpvm or, with --check, by Linux; or that of xdpvm.
"""
import argparse
import os
import re
import shutil
import subprocess
import sys
import tempfile
from typing import NamedTuple

import object_check
import object_link
import object_load
import object_maps
from failures import Words, end, said
from inputs import named
from map_files import NotIts, lines_beside, path_of
from object_image import Program, Refused, map_names, tags
from object_load import Failed
from object_types import Line
from outputs import IsRead, Output, end_by_signal
from sources import Failed as NotTaken
from sources import taken, the_xdpvm


class Verdict(NamedTuple):
    """What `xdpvm verify` said: the status, and the bound of an accepted program."""

    status: int
    bound: int | None


def content(path: str) -> bytes:
    with open(path, "rb") as file:
        return file.read()


def verified(given: argparse.Namespace, says_yes: bool = True) -> Verdict:
    """The verdict on the image, which is printed; a yes if that is wanted."""
    if not shutil.which(given.xdpvm):
        raise Failed(f"there is no program {given.xdpvm} to verify the image; --unverified leaves that out")
    ran = subprocess.run([given.xdpvm, "verify", given.taken], capture_output=True, text=True, check=False)
    if ran.returncode or says_yes:
        print(ran.stdout, end="", flush=True)
    sys.stderr.write(ran.stderr)
    bound = re.match(r"ok bound (\d+)$", ran.stdout)
    return Verdict(ran.returncode, int(bound[1]) if bound else None)


def lines(given: argparse.Namespace, program: Program, data: bytes) -> dict[int, Line]:
    """The lines of the source, or of the listing, if xdpvm may be called."""
    if given.source:
        if not given.unverified and assembled(given) != data:
            raise Refused(f"it is not the image of {given.source}")
        return object_link.lines_of_text(given.source, program)
    listing = ""
    if not given.unverified:
        ran = subprocess.run([given.xdpvm, "dis", given.taken], capture_output=True, check=False)
        listing = ran.stdout.decode() if ran.returncode == 0 else ""
    return object_link.lines_of_listing(given.image, program, listing)


def assembled(given: argparse.Namespace) -> bytes | None:
    """The image that xdpvm makes of the source."""
    with tempfile.TemporaryDirectory() as folder:
        words = [given.xdpvm, "asm", given.source, f"{folder}/image"]
        if subprocess.run(words, stdout=subprocess.DEVNULL, check=False).returncode:
            return None
        return content(f"{folder}/image")


def values_beside(given: argparse.Namespace, program: Program) -> dict[int, bytes]:
    """What the image's variables and constants begin with, as the file of maps beside it says."""
    text = lines_beside(given.image, given.taken)
    entries = object_maps.Lines(path_of(given.image), program.rows).entries(text)
    for it in entries:
        if not program.is_value(it.map):
            raise Failed(f"{path_of(given.image)}: map {it.map} is no memory of the program's; --fill takes its lines")
    return {it.map: it.value for it in entries}


def made(given: argparse.Namespace, data: bytes) -> object_load.Object:
    """The object of an image's bytes."""
    program = Program(data)
    names = map_names(program, given.maps, given.name)
    values = values_beside(given, program)
    wanted = object_link.Wanted(given.name, names, given.pin, given.license, values)
    whole = object_link.Maker(program, wanted, lines(given, program, data)).object()
    sections = [index for index in range(len(program.rows)) if program.is_value(index)]
    order = object_link.map_order(program)
    return object_load.Object(whole, given.name, names, program.rows, order, sections, sorted(values))


# ---- what is asked for


def write_object(given: argparse.Namespace, data: bytes) -> int:
    program = Program(data)
    if not given.unverified:
        verdict = verified(given, says_yes=False)
        if verdict.status:
            return verdict.status
    with Output(given.object, [given.image, given.source]) as out:
        it = made(given, data)
        out.put(it.bytes)
    if it.begins:
        which = ", ".join(it.maps[index] for index in it.begins)
        words = f"with the values of {path_of(given.image)}: each loader fills them in; other maps begin empty, or as zeros"
        print(f"{given.object}: {which} begin{'' if len(it.begins) > 1 else 's'} {words}", file=sys.stderr)
    if not program.is_in_order_of_calls():
        words = "its functions are not in the order of their calls, so image.py makes another image of the object"
        print(f"{given.image}: {words}, of the same program", file=sys.stderr)
    return 0


def load(given: argparse.Namespace, data: bytes) -> int:
    """Loads the object: the exit status."""
    program, is_accepted = Program(data), False
    if not given.unverified:
        verdict = verified(given)
        if verdict.status and not given.force:
            return verdict.status
        is_accepted = verdict.status == 0
    place, it = object_load.place_of(given.load), made(given, data)
    entries: list[object_maps.Entry] = []
    if given.fill:
        text = sys.stdin.read() if given.fill == "-" else content(given.fill).decode(errors="replace")
        entries = object_maps.Lines(given.fill, program.rows).entries(text)
    try:
        if given.by == "bpftool":
            print(object_load.Loader(place, it).load(entries, given.keep, given.replace, given.mode))
        else:
            print(object_load.load_by(given.by, place, it, given.replace, given.mode))
    except object_load.KernelRefused as why:
        row = object_check.told(object_check.row_of(str(why))) if is_accepted else "  `verify` refuses it, too"
        raise Failed(f"{why}\n{row if given.unverified is False else ''}".rstrip()) from None
    return 0


def check(given: argparse.Namespace, data: bytes) -> int:
    program, bound = Program(data), None
    if not given.unverified:
        verdict = verified(given)
        if verdict.status:
            return verdict.status
        bound = verdict.bound
    return 0 if object_check.checked(program, data, bound) else 2


def unload(given: argparse.Namespace) -> int:
    place = object_load.place_of(given.unload)
    print(object_load.unload(place) if given.by == "bpftool" else object_load.unload_by(given.by, place, given.name))
    return 0


def read(given: argparse.Namespace) -> int:
    for it in object_load.read(object_load.place_of(given.read)):
        print(it.line())
    return 0


def answered(given: argparse.Namespace) -> int:
    """Does what the command line asks for; the result is the exit status."""
    if given.unload:
        return unload(given)
    if given.read:
        return read(given)
    with tempfile.TemporaryDirectory() as folder:
        given.taken = taken(given.image, folder)
        data = content(given.taken)
        if given.tag:
            print(*tags(Program(data)))
            return 0
        if given.check:
            return check(given, data)
        return load(given, data) if given.load else write_object(given, data)


def arguments() -> argparse.Namespace:
    """The words of the command line."""
    text = named(__doc__ or "")
    usage = text.split("\n\n")[1].removeprefix("usage: ")
    words = Words(description=text, usage=usage, formatter_class=argparse.RawDescriptionHelpFormatter)
    words.add_argument("files", nargs="*", help=argparse.SUPPRESS)
    action = words.add_mutually_exclusive_group()
    for name in ("load", "read", "unload"):
        action.add_argument(f"--{name}", metavar="DEV|PIN")
    for name in ("check", "tag"):
        action.add_argument(f"--{name}", action="store_true")
    words.add_argument("--name", default="xdpvm_prog")
    for name in ("maps", "source", "license", "fill"):
        words.add_argument(f"--{name}")
    for name in ("pin", "keep", "replace", "force", "unverified"):
        words.add_argument(f"--{name}", action="store_true")
    words.add_argument("--mode", choices=["native", "generic"])
    words.add_argument("--by", choices=list(object_load.PACKAGES), default="bpftool")
    words.add_argument("--xdpvm", default=the_xdpvm())
    given = words.parse_intermixed_args()
    is_of_image = given.load or given.check or given.tag
    wanted = [] if given.read or given.unload else ["IMAGE"] if is_of_image else ["IMAGE", "OBJECT"]
    if len(given.files) != len(wanted):
        words.error(f"the files are {' and '.join(wanted) or 'none'} here, and {len(given.files)} are given")
    given.image, given.object = [*given.files, None, None][:2]
    loading = [name for name in ("fill", "keep", "replace", "mode", "force") if getattr(given, name)]
    if loading and not given.load:
        words.error(f"--{loading[0]} is for --load")
    if given.load and given.by != "bpftool" and (given.fill or given.keep):
        words.error("--fill and --keep need --by bpftool")
    if given.load and given.pin:
        words.error("--pin is for objects that other loaders take; --load pins by itself")
    return given


def main() -> int:
    given = arguments()
    end_by_signal()
    try:
        return answered(given)
    except BrokenPipeError:
        os.dup2(os.open(os.devnull, os.O_WRONLY), 1)
        return 1
    except OSError as why:
        end(f"object.py: {said(why)}")
    except (Failed, NotTaken, NotIts, IsRead) as why:
        end(f"object.py: {why}")
    except Refused as why:
        end(f"object.py: {why}" if given.fill and str(why).startswith(given.fill) else f"{given.image}: {why}")


if __name__ == "__main__":
    sys.exit(main())
