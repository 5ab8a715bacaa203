#!/usr/bin/env python3
"""Images of objects against their C compiled for this machine, and against Linux: the same actions and bytes on each frame.

usage: python3 tests/object_files.py [PROGRAM [FILTER]]
       python3 tests/object_files.py --make [NAME ..]

tests/objects has filters in C, and in `made` the objects that clang 14, 16 and 19 (14 and 19 with -mcpu=v3, too) and bpf-gcc 12
made of them, with the kernel's types that they ask for (kernel.btf). Each object becomes an image by tools/image.py, is verified
and run by PROGRAM (the default: crates/xdpvm/out/xdpvm), and must do what the same C does here, compiled by `cc`, and what Linux
does, maps too, where bpf(2) can be used. One whose variables or constants begin with values is run by FILTER
(crates/xdpvm_filter/out/xdpvm_filter). Comments at the head of a source say what else has to come of it:

    /* refused: V3 */           the verifier refuses each of its objects with this code
    /* bug: V9 */               the same of the objects made with -DBUG
    /* no image: WORDS */       image.py refuses its objects with these words
    /* gcc: WORDS */            the same of gcc's object alone
    /* words: --section NAME */ which program of an object is meant

--make compiles the objects again (those of NAME alone), with the compilers that are there, without what only debuggers read, and
takes the kernel's types from this machine (bpftool).

The exit status is 0 if each object does so, else 1.
"""
import os
import re
import struct
import subprocess
import sys
import tempfile
from concurrent.futures import ThreadPoolExecutor
from dataclasses import dataclass, field
from pathlib import Path

sys.path.insert(0, str(Path(__file__).resolve().parent.parent / "checks"))
from common import CANNOT, PYTHON, TOP, built, command_line, compiler, need

FOLDER = Path(TOP) / "tests/objects"
MADE = FOLDER / "made"
BTF = MADE / "kernel.btf"
TYPED = ("headers", "context")  # the sources that ask for the kernel's types
HEADERS = f"-I/usr/include/{os.uname().machine}-linux-gnu"
CLANG = ["-target", "bpf", "-g", "-O2", HEADERS]
COMPILERS = {
    "clang14": ["clang-14", *CLANG],
    "clang14v3": ["clang-14", *CLANG, "-mcpu=v3"],
    "clang16": ["clang-16", *CLANG],
    "clang19": ["clang-19", *CLANG],
    "clang19v3": ["clang-19", *CLANG, "-mcpu=v3"],
    "gcc12": ["bpf-gcc", "-gbtf", "-mco-re", "-O2", "-I/usr/include", HEADERS],
}
ACTIONS = ("ABORTED", "DROP", "PASS", "TX")
SENT = ("PASS", "TX")
Frame = tuple[int, bytes]  # its interface and its bytes
Run = tuple[str, str | None]  # an action, and the bytes of a frame after the run if they are known


@dataclass(frozen=True)
class Source:
    """A filter in C, and what its first comments say."""

    path: Path
    said: dict[str, str] = field(compare=False)

    @staticmethod
    def read(path: Path) -> "Source":
        said = re.findall(r"^/\* (refused|bug|no image|gcc|words): (.*?) \*/$", path.read_text(encoding="utf-8"), re.M)
        return Source(path, dict(said))

    def objects(self) -> list[Path]:
        return sorted(it for it in MADE.glob("*.o") if it.name.split(".")[0] in (self.path.stem, f"{self.path.stem}_bug"))


def sources(names: list[str] | None = None) -> list[Source]:
    """The filters of the folder, or those with these names."""
    found = [Source.read(it) for it in sorted(FOLDER.glob("*.c")) if it.name != "host.c"]
    return [it for it in found if not names or it.path.stem in names]


def frames() -> list[Frame]:
    """Frames with headers of Ethernet and IPv4, of several lengths, with their interfaces."""
    found = []
    for number in range(24):
        protocol, kind = (6, 17, 1)[number % 3], b"\x08\x00" if number % 5 else b"\x86\xdd"
        ethernet = bytes([number, 3 * number & 255, 7 * number & 255, 250 - number]) + bytes(range(8)) + kind
        header = bytes([0x45, 0, 0, 20, 0, number, 0, 0, 64 - number, protocol, 1, 2, 10, 0, number, 1, 10, 9, 8, 7])
        found.append((number % 4, (ethernet + header + bytes(number))[: 34 + number if number % 7 else 20]))
    return found


def stream() -> bytes:
    return b"XPF1" + b"".join(
        struct.pack("<QIII", at, interface, at % 3, len(body)) + body for at, (interface, body) in enumerate(frames())
    )


def bodies(data: bytes) -> list[bytes]:
    """The bytes of each frame of a stream."""
    at, found = 4, []
    while at < len(data):
        (length,) = struct.unpack_from("<I", data, at + 16)
        found.append(data[at + 20 : at + 20 + length])
        at += 20 + length
    return found


@dataclass(frozen=True)
class Programs:
    """The programs that are tried, and whether bpf(2) can be used."""

    xdpvm: str
    filter: str

    def run(self, image: Path, folder: Path) -> list[Run]:
        """The action of each frame, and its bytes where it is sent on; or the verdict."""
        (folder / "frames").write_bytes(stream())
        words = [self.xdpvm, "run", str(image), str(folder / "frames"), str(folder / "sent")]
        maps, report = Path(f"{image}.maps"), folder / "report"
        if maps.exists():
            words = [self.filter, *words[2:], "--maps", str(maps), "--report", str(report)]
        ran = subprocess.run(words, capture_output=True, text=True, check=False)
        if ran.returncode:
            return [(ran.stdout.strip() or ran.stderr.strip(), None)]
        lines = (report.read_text(encoding="ascii") if maps.exists() else ran.stdout).splitlines()
        actions = [line.split(" ")[1] for line in lines if line[0].isdigit()]
        sent = iter(bodies((folder / "sent").read_bytes()))
        return [(action, next(sent).hex() if action in SENT else None) for action in actions]

    def differs_from_linux(self, made: Path, folder: Path, words: list[str]) -> str | None:
        """What differs in Linux's run of an object, if anything does, and bpf(2) can be used."""
        asked = [PYTHON, f"{TOP}/tools/kernel.py", *words, str(made), str(folder / "frames"), "--btf", str(BTF)]
        asked += ["--xdpvm", self.xdpvm]
        ran = subprocess.run(asked, capture_output=True, text=True, check=False, env={**os.environ, "XDPVM_FILTER": self.filter})
        return None if ran.returncode in (0, CANNOT) else f"{ran.stdout}{ran.stderr}"


def by_host(source: Source) -> list[Run]:
    """The action of each frame, and its bytes after the run, by the C compiled for this machine."""
    with tempfile.TemporaryDirectory() as folder:
        words = [compiler(), "-O1", "-w", "-DHOST", "-include", str(source.path), str(FOLDER / "host.c"), "-o", f"{folder}/host"]
        subprocess.run(words, check=True)
        said = subprocess.run([f"{folder}/host"], input=stream(), capture_output=True, check=True).stdout.decode()
    return [(ACTIONS[int(action)], body) for action, body in (line.split(" ") for line in said.splitlines())]


def wrong(programs: Programs, source: Source, made: Path, wanted: list[Run], folder: Path) -> str | None:
    """What is wrong with an object of a source, if anything is."""
    image, said, words = folder / "image", source.said, source.said.get("words", "").split()
    asked = [PYTHON, f"{TOP}/tools/image.py", "--btf", str(BTF), *words, str(made), str(image)]
    linked = subprocess.run(asked, capture_output=True, text=True, check=False)
    refusal = said.get("no image") or (said.get("gcc") if ".gcc" in made.name else None)
    if refusal:
        is_so = linked.returncode == 1 and refusal in linked.stderr
        return None if is_so else f"it is not refused with '{refusal}': {linked.stderr}"
    if linked.returncode:
        return linked.stderr
    found, code = programs.run(image, folder), said.get("bug" if "_bug." in made.name else "refused")
    if code:
        return None if found[0][0].startswith(f"refused {code} slot ") else f"not refused with {code}: {found[0][0]}"
    if len(wanted) != len(found):
        return found[0][0]
    for number, ((action, body), (ours, sent)) in enumerate(zip(wanted, found)):
        if action != ours or sent is not None and sent != body:
            return f"frame {number}: {ours} {sent}, and by this machine {action} {body}"
    return programs.differs_from_linux(made, folder, words)


def tried(programs: Programs, source: Source) -> list[str]:
    """A line for each object of a source: what is wrong with it, or nothing."""
    is_run = not source.said.keys() & {"refused", "no image"}
    wanted, found = by_host(source) if is_run else [], []
    for made in source.objects():
        with tempfile.TemporaryDirectory() as folder:
            why = wrong(programs, source, made, wanted, Path(folder))
        found.append(f"{made.relative_to(TOP)}: {why}" if why else "")
    return found


def make(names: list[str]) -> None:
    """Compiles the sources by each compiler that is there."""
    MADE.mkdir(exist_ok=True)
    for source in sources(names):
        for called, words in COMPILERS.items():
            for ending in ("", "_bug") if "bug" in source.said else ("",):
                made = str(MADE / f"{source.path.stem}{ending}.{called}.o")
                asked = [*words, *(["-DBUG"] if ending else []), "-c", source.path.name, "-o", made]
                subprocess.run(asked, cwd=FOLDER, check=True)
                if "clang" in called:
                    subprocess.run(["llvm-strip-19", "--strip-debug", made], check=True)
    if not names or set(names) & set(TYPED):
        typed = [str(MADE / f"{name}.clang14.o") for name in TYPED]
        subprocess.run(["bpftool", "gen", "min_core_btf", "/sys/kernel/btf/vmlinux", str(BTF), *typed], check=True)


def main() -> int:
    parser = command_line()
    parser.add_argument("--make", nargs="*", metavar="NAME")
    parser.add_argument("program", nargs="?", default=built())
    parser.add_argument("filter", nargs="?", default=os.environ.get("XDPVM_FILTER") or built("xdpvm_filter"))
    given = parser.parse_args()
    if given.make is not None:
        make(given.make)
        return 0
    programs = Programs(os.path.abspath(given.program), os.path.abspath(given.filter))
    need(programs.xdpvm)
    with ThreadPoolExecutor(len(os.sched_getaffinity(0))) as pool:
        found = [line for lines in pool.map(lambda it: tried(programs, it), sources()) for line in lines]
    failed = [line for line in found if line]
    print("\n".join([*failed, f"{len(found)} objects, {len(failed)} differ"]))
    return 1 if failed or not found else 0


if __name__ == "__main__":
    sys.exit(main())
