"""Filters of any form: the image of a text, of C, of an object or of an image, and the source line of each of its
slots."""
import os
import platform
import re
import shutil
import stat
import subprocess
import sys
from dataclasses import dataclass, field
from collections.abc import Mapping

import image as images
from failures import tell
from image_link import Image
from map_files import NotIts, lines_beside
from objects import Refused
from outputs import is_plain

HERE = os.path.dirname(os.path.realpath(__file__))
CAPTURES = (b"\xa1\xb2\xc3\xd4", b"\xd4\xc3\xb2\xa1", b"\xa1\xb2\x3c\x4d", b"\x4d\x3c\xb2\xa1", b"\x0a\x0d\x0d\x0a")
MOST_BYTES = 1 << 26  # of a filter that is read from a pipe


class Failed(Exception):
    """A step before the program's own failed; its message is printed."""


class TextRefused(Exception):
    """The assembler refused a text: what it printed, and its status."""

    def __init__(self, path: str, ran: "subprocess.CompletedProcess[str]") -> None:
        super().__init__(path)
        self.path, self.out, self.err, self.status = path, ran.stdout, ran.stderr, ran.returncode


@dataclass
class Choice:
    """Which program of a file is wanted, and how a file becomes an image."""

    xdpvm: str
    section: str | None = None
    program: str | None = None
    clang: str = "clang"
    flags: list[str] = field(default_factory=list)
    btf: str | None = None
    lru_as_hash: bool = False


@dataclass
class Source:
    """The lines of a filter's source by slots, each with its place, the names of its maps, and the map lines of what
    its variables and constants begin with."""

    path: str
    slots: list[tuple[str, str] | None] = field(default_factory=list)
    names: list[str] = field(default_factory=list)
    fill: str = ""

    def line(self, slot: int) -> tuple[str, str] | None:
        """The place and the text of a slot's line, if they are known."""
        return self.slots[slot] if slot < len(self.slots) else None

    @staticmethod
    def of_text(path: str, called: str | None = None) -> "Source":
        """Of a text: each statement that is an instruction has a slot, or two."""
        source = Source(called or path)
        with open(path, encoding="utf-8", errors="replace") as file:
            lines = file.read().split("\n")
        for number, line in enumerate(lines, 1):
            for part in line.split("#")[0].split(";"):
                part = re.sub(r"^\s*\w+\s*:", "", part).strip()
                if part and not re.match(r"(map|version)\s+\w+", part):
                    wide = re.search(r"\bll$|\bmap_by_idx\b|\bmap_val\b", part)
                    source.slots += [(f"{source.path}:{number}", line.strip())] * (2 if wide else 1)
        return source

    @staticmethod
    def of_object(path: str, image: Image) -> "Source":
        """Of an object: as its type information says."""
        lines = [it and (f"{os.path.relpath(it.file)}:{it.number}", it.text) for it in image.lines]
        return Source(path, lines, image.names, image.fill)

    @staticmethod
    def of_image(path: str, copy: str) -> "Source":
        """Of an image, whose bytes are in `copy`: it has no lines, but what stands beside it."""
        try:
            return Source(path, fill=lines_beside(path, copy))
        except NotIts as why:
            raise Failed(str(why)) from None


def program_beside(name: str) -> str:
    """The program of that name beside the script that was called, in the repository, or on the path."""
    called = os.path.dirname(os.path.abspath(sys.argv[0]))
    for it in (os.path.join(called, name), os.path.join(HERE, f"../crates/{name}/out/{name}")):
        if os.path.isfile(it):
            return it
    return name


def the_xdpvm(environment: Mapping[str, str] | None = None) -> str:
    """The program that is used where no option names one."""
    return (os.environ if environment is None else environment).get("XDPVM") or program_beside("xdpvm")


def one_beside(xdpvm: str, name: str, does: str) -> str:
    """Another program: the one that the environment names, the one beside xdpvm, or beside the script that was called."""
    beside = os.path.join(os.path.dirname(shutil.which(xdpvm) or xdpvm), name)
    it = os.environ.get(name.upper()) or (beside if os.path.isfile(beside) else program_beside(name))
    if not shutil.which(it):
        raise Failed(f"there is no program {it}, which {does}; `bash install.sh FOLDER` makes one")
    return it


def the_filter(xdpvm: str) -> str:
    """The program that runs filters whose maps are filled."""
    return one_beside(xdpvm, "xdpvm_filter", "runs a filter on maps that are filled")


def the_survey(xdpvm: str) -> str:
    """The program that counts how often each instruction is run."""
    return one_beside(xdpvm, "xdpvm_survey", "counts how often each instruction is run")


def begin_of(path: str) -> bytes:
    with open(path, "rb") as file:
        return file.read(4)


def taken(path: str, folder: str) -> str:
    """A file with the same bytes that can be read twice: itself, or what a pipe gives."""
    if is_plain(path) or stat.S_ISDIR(os.stat(path).st_mode):
        return path
    with open(path, "rb") as file:
        data = file.read(MOST_BYTES + 1)
    if len(data) > MOST_BYTES:
        raise Failed(f"{path}: it has over {MOST_BYTES:,} bytes, and no filter has")
    made = os.path.join(folder, "taken")
    with open(made, "wb") as copy:
        copy.write(data)
    return made


def compiled(path: str, choice: Choice, folder: str) -> str:
    """The object that the compiler makes of a C file."""
    made = os.path.join(folder, "object")
    headers = f"-I/usr/include/{platform.machine()}-linux-gnu"
    kind = ["-gbtf", "-I/usr/include"] if "gcc" in os.path.basename(choice.clang) else ["-target", "bpf", "-g"]
    if not shutil.which(choice.clang):
        raise Failed(f"{path} is C, and there is no {choice.clang} to compile it")
    if subprocess.run([choice.clang, *kind, "-O2", *choice.flags, headers, "-c", path, "-o", made], check=False).returncode:
        raise Failed(f"{path}: it does not compile")
    return made


def image_of(path: str, choice: Choice, folder: str) -> tuple[str, Source]:
    """The file of the image of a filter, in the folder if it has to be made, and the lines of its source."""
    called, path, made = path, taken(path, folder), os.path.join(folder, "image")
    begin = begin_of(path)
    if begin[:3] == b"XBP":
        return path, Source.of_image(called, path)
    if called.endswith(".c") or begin == b"\x7fELF":
        image = linked(called, compiled(path, choice, folder) if begin != b"\x7fELF" else path, choice)
        with open(made, "wb") as file:
            file.write(images.bytes_of(image))
        return made, Source.of_object(called, image)
    if begin in CAPTURES or begin[:3] == b"XPF":
        raise Failed(f"{called} is a capture or a frame stream, and the filter comes first")
    ran = subprocess.run([choice.xdpvm, "asm", path, made], capture_output=True, text=True, errors="replace", check=False)
    if ran.returncode:
        ran.stderr = ran.stderr.replace(path, called)
        raise TextRefused(called, ran)
    return made, Source.of_text(path, called)


def linked(called: str, path: str, choice: Choice) -> Image:
    """The image of an object; what is to be said of it is said."""
    with open(path, "rb") as file:
        data = file.read()
    try:
        image = images.made(data, images.Wanted(choice.section, choice.program, choice.btf, choice.lru_as_hash))
    except Refused as why:
        raise Failed(f"{called}: {why}") from None
    for note in image.notes:
        tell(f"{called}: {note}")
    return image
