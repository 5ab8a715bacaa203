"""Loads objects into the kernel and takes them out again, by bpftool, ip or xdp-loader; fills and reads their maps.

What bpftool loads is pinned in a folder of a BPF file system: the program as `program`, and each map as its index and
its name. A new program is loaded, and its maps are filled, before it takes the place of the old one in one step. """

import glob
import json
import os
import re
import shutil
import socket
import subprocess
import tempfile
from collections.abc import Sequence
from typing import Any, NamedTuple

from object_image import ARRAY, HASH, Row
from object_link import SECTION
from object_maps import Entry, dumped

PACKAGES = {"bpftool": "bpftool", "ip": "iproute2", "xdp-loader": "xdp-tools"}  # of Debian
ROOT = "/sys/fs/bpf"
PINS = f"{ROOT}/xdpvm"  # where the folder of each interface is
MAPPABLE = 1024  # BPF_F_MMAPABLE, which libbpf gives to the maps of sections
KINDS = {"hash": HASH, "array": ARRAY}
# how bpftool, ip and xdp-loader call a mode; and how `bpftool net show` does
MODES = {
    "native": ("xdpdrv", "xdpdrv", "native"),
    "generic": ("xdpgeneric", "xdpgeneric", "skb"),
    None: ("xdp", "xdp", "native"),
}
SHOWN = {"driver": "native", "generic": "generic"}
WORDS_AT_ONCE = 4000  # bpftool takes at most 4,096 words in a line of its batch files


class Failed(Exception):
    """A step that failed; its message is printed."""


class KernelRefused(Failed):
    """The kernel's verifier refused the program; the message has the last lines of its log."""


class Place(NamedTuple):
    """Where a program is pinned, and the interface that it is for, if there is one."""

    folder: str
    device: str | None

    @property
    def said(self) -> str:
        return self.device or self.folder


class Object(NamedTuple):
    """An object to load: its bytes, the program's and the maps' names, the map rows, how libbpf orders the maps, which
    of them are sections, and which of these begin with values."""

    bytes: bytes
    name: str
    maps: list[str]
    rows: list[Row]
    order: list[int]
    sections: list[int]
    begins: list[int]


def tool(name: str) -> str:
    """The path of a tool, which may be where only root looks."""
    found = shutil.which(name) or shutil.which(name, path="/usr/sbin:/sbin")
    if not found:
        raise Failed(f"there is no {name}; Debian's package {PACKAGES[name]} has it")
    return found


def ran(name: str, *words: str) -> bytes:
    """The standard output of a tool; its own words if it fails."""
    done = subprocess.run([tool(name), *words], stdin=subprocess.DEVNULL, capture_output=True, check=False)
    if done.returncode:
        raise failure(name, (done.stderr or done.stdout).decode(errors="replace"))
    return done.stdout


def shown(*words: str) -> Any:
    """What bpftool answers, as JSON."""
    return json.loads(ran("bpftool", "-j", *words).decode() or "null")


def failure(name: str, said: str) -> Failed:
    """What a tool says of its failure; of a refusal by the kernel's verifier the last lines of the log."""
    log = re.search(r"BEGIN PROG LOAD LOG --\n(.*?)(?:\nprocessed \d|\nlibbpf: |\Z)", said, re.S)
    if log:
        return KernelRefused("\n".join(["the kernel refuses it:", *log[1].splitlines()[-6:]]))
    lines = [it for it in said.strip().splitlines() if it.strip()] or ["it failed"]
    return Failed("\n".join([f"{name}: {lines[-1]}", *lines[:-1][-4:]]))


def place_of(word: str) -> Place:
    """The place that a word names: an interface, or a folder by a path."""
    if "/" in word:
        return Place(os.path.abspath(word), None)
    try:
        socket.if_nametoindex(word)
    except OSError:
        raise Failed(f"there is no interface {word}") from None
    return Place(f"{PINS}/{word.replace('.', ':')}", word)  # a BPF file system takes no dots


def need_file_system(folder: str) -> None:
    """Pins are kept by a BPF file system only."""
    with open("/proc/self/mounts", encoding="utf-8") as file:
        mounts = [line.split() for line in file]
    inside = [it for it in mounts if os.path.commonpath([it[1], folder]) == it[1]]
    kind = max(enumerate(inside), key=lambda it: (len(it[1][1]), it[0]))[1][2]
    if kind != "bpf":
        root = ROOT if folder.startswith(ROOT) else os.path.dirname(folder)
        raise Failed(f"{folder} is in no BPF file system; `mount -t bpf bpf {root}` makes one")


# ---- what is there


class Attached(NamedTuple):
    """The program on an interface."""

    id: int
    mode: str


def attached(device: str) -> Attached | None:
    for it in shown("net", "show", "dev", device)[0]["xdp"]:
        if it["devname"] == device:
            return Attached(it["id"], SHOWN.get(it["mode"], it["mode"]))
    return None


def pinned(place: Place) -> list[int]:
    """The programs that are pinned for a place: an update that was interrupted leaves two."""
    paths = [f"{it}/program" for it in (place.folder, next_to(place))]
    return [shown("prog", "show", "pinned", it)["id"] for it in paths if os.path.exists(it)]


def next_to(place: Place) -> str:
    """The folder where a new program is made ready."""
    return place.folder + "_next"


def remove(folder: str) -> None:
    """Removes a folder of pins."""
    for path in glob.glob(f"{glob.escape(folder)}/maps/*") + glob.glob(f"{glob.escape(folder)}/*"):
        (os.rmdir if os.path.isdir(path) else os.unlink)(path)
    if os.path.isdir(folder):
        os.rmdir(folder)


def map_paths(folder: str) -> dict[int, str]:
    """The pins of the maps, by their indexes."""
    paths = [it for it in glob.glob(f"{glob.escape(folder)}/*") if re.match(r"\d+_", os.path.basename(it))]
    return dict(sorted((int(os.path.basename(it).split("_")[0]), it) for it in paths))


# ---- bpftool


class Loader:
    """Loads an object by bpftool, pins it, and puts it on the interface."""

    def __init__(self, place: Place, it: Object) -> None:
        self.place, self.it, self.next = place, it, next_to(place)

    def load(self, entries: Sequence[Entry], keeps: bool, replaces: bool, mode: str | None) -> str:
        """The line that says what was done."""
        need_file_system(self.place.folder)
        there = attached(self.place.device) if self.place.device else None
        if there and there.id not in pinned(self.place) and not replaces:
            words = f"{self.place.said} has a program that object.py did not load (id {there.id}); --replace replaces it"
            raise Failed(words)
        kept = self.kept() if keeps else {}
        remove(self.next)
        os.makedirs(self.next)
        try:
            self.made(kept)
            self.fill(entries)
            if self.place.device:
                self.attach(self.place.device, there, mode)
        except BaseException:
            remove(self.next)
            raise
        remove(self.place.folder)
        os.rename(self.next, self.place.folder)
        done = "loaded" if not self.place.device else "attached" if not there else "attached in place of the old program"
        return f"{self.place.said}: {done}; pinned in {self.place.folder}"

    def kept(self) -> dict[int, str]:
        """The maps that are there, for a program that goes on with them."""
        paths = map_paths(self.place.folder)
        for index, path in paths.items():
            it = shown("map", "show", "pinned", path)
            row = Row(KINDS.get(it["type"], 0), it["bytes_key"], it["bytes_value"], it["max_entries"])
            is_section = bool(it["flags"] & MAPPABLE)
            if index >= len(self.it.rows):
                raise Failed(f"{path} is map {index}, which the image does not have; without --keep maps begin anew")
            if row != self.it.rows[index] or is_section != (index in self.it.sections):
                raise Failed(f"{path} is another map than map {index} of the image; without --keep maps begin anew")
        return paths

    def made(self, kept: dict[int, str]) -> None:
        """Loads the object, and pins the program and the maps."""
        with tempfile.TemporaryDirectory() as folder:
            path = f"{folder}/{self.it.name}.o"
            with open(path, "wb") as file:
                file.write(self.it.bytes)
            words = ["prog", "load", path, f"{self.next}/program", "type", "xdp"]
            for place, index in enumerate(self.it.order):
                words += ["map", "idx", str(place), "pinned", kept[index]] if index in kept else []
            ran("bpftool", *words, *(["pinmaps", f"{self.next}/maps"] if self.it.rows else []))
        left = {os.path.basename(it): it for it in glob.glob(f"{glob.escape(self.next)}/maps/*")}
        for index, name in sorted(enumerate(self.it.maps), key=lambda it: it[0] in self.it.sections):
            pin = next((it for it in (name, f"_data_{name}") if it in left), None) or next(iter(left))
            os.rename(left.pop(pin), f"{self.next}/{index}_{name}")
        if self.it.rows:
            os.rmdir(f"{self.next}/maps")

    def fill(self, entries: Sequence[Entry]) -> None:
        """Updates the maps: by one bpftool, and those with values that are too long for its lines by one each."""
        paths, batch = map_paths(self.next), []
        for it in entries:
            words = [
                "map",
                "update",
                "pinned",
                paths[it.map],
                "key",
                "hex",
                *digits(it.key),
                "value",
                "hex",
                *digits(it.value),
            ]
            if len(words) > WORDS_AT_ONCE:
                ran("bpftool", *words)
            else:
                batch.append(" ".join(words))
        if batch:
            with tempfile.NamedTemporaryFile("w") as file:
                file.write("\n".join(batch) + "\n")
                file.flush()
                ran("bpftool", "batch", "file", file.name)

    def attach(self, device: str, there: Attached | None, mode: str | None) -> None:
        kind = MODES[mode if mode or not there else there.mode][0]
        ran(
            "bpftool",
            "net",
            "attach",
            kind,
            "pinned",
            f"{self.next}/program",
            "dev",
            device,
            *["overwrite"] * bool(there),
        )


def digits(data: bytes) -> list[str]:
    return [f"{it:02x}" for it in data]


def unload(place: Place) -> str:
    """Takes the program from its interface, and removes the pins."""
    need_file_system(place.folder)
    ours, there = pinned(place), attached(place.device) if place.device else None
    if there and there.id not in ours:
        words = f"the program on {place.said} (id {there.id}) is none that object.py loaded"
        raise Failed(f"{words}; `ip link set dev {place.said} xdp off` takes it off")
    if not there and not os.path.isdir(place.folder):
        raise Failed(f"nothing is loaded for {place.said}: there is no {place.folder}")
    if there and place.device:
        ran("bpftool", "net", "detach", MODES[there.mode][0], "dev", place.device)
    remove(place.folder)
    remove(next_to(place))
    return f"{place.said}: {'detached' if there else 'nothing was attached'}; {place.folder} removed"


def read(place: Place) -> list[Entry]:
    """The contents of the maps."""
    if not os.path.isdir(place.folder):
        raise Failed(f"nothing is loaded for {place.said}: there is no {place.folder}")
    found = []
    for index, path in map_paths(place.folder).items():
        is_hash = shown("map", "show", "pinned", path)["type"] == "hash"
        found += dumped(index, is_hash, ran("bpftool", "-j", "map", "dump", "pinned", path))
    return found


# ---- ip and xdp-loader, which load the object themselves and keep no pins


def load_by(name: str, place: Place, it: Object, replaces: bool, mode: str | None) -> str:
    """Has a loader of Linux attach the object; what it said."""
    if not place.device:
        raise Failed(f"{name} loads on an interface, and {place.folder} is none; --by bpftool pins")
    with tempfile.TemporaryDirectory() as folder:
        path = f"{folder}/{it.name}.o"
        with open(path, "wb") as file:
            file.write(it.bytes)
        if name == "ip":
            ran(
                "ip",
                *["-force"] * replaces,
                "link",
                "set",
                "dev",
                place.device,
                MODES[mode][1],
                "obj",
                path,
                "sec",
                SECTION,
            )
        else:
            ran("xdp-loader", "load", "-m", MODES[mode][2], place.device, path)
    return f"{place.said}: attached by {name}"


def unload_by(name: str, place: Place, program: str) -> str:
    """Takes off the program of that name."""
    if not place.device:
        raise Failed(f"{name} takes programs from interfaces, and {place.folder} is none")
    if name == "ip":
        link = json.loads(ran("ip", "-j", "-d", "link", "show", "dev", place.device).decode())[0]
        there = link.get("xdp", {}).get("prog", {}).get("name")
        if there != program:
            found = f"the program {there}" if there else "no program"
            raise Failed(f"{place.said} has {found}; --name says which one to take off")
        kind = {2: "xdpgeneric"}.get(link["xdp"].get("mode"), "xdp")
        ran("ip", "link", "set", "dev", place.device, kind, "off")
    else:
        rows = ran("xdp-loader", "status", place.device).decode()
        ids = re.findall(rf"\b{re.escape(program)}\b(?:\s+\w+)?\s+(\d+)\s", rows)
        if len(ids) != 1:
            count = f"{len(ids)} programs" if ids else "no program"
            raise Failed(f"{place.said} has {count} {program}; --name says which one to take off")
        ran("xdp-loader", "unload", place.device, "--id", ids[0])
    return f"{place.said}: detached by {name}"
