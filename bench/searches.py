#!/usr/bin/env python3
"""Long searches: parsers with nested loops, as compilers make them, beside Linux's verifier.

usage: python3 bench/searches.py [--clang NAME ..] [--library ARCHIVE] [--survey PROGRAM] [--times N]

bench/searches has two filters in C: records of a type, a length and a value, of which some are groups of such records, and the
labels of a DNS name, byte by byte. Each is compiled with several numbers of turns by each clang (the default: clang-14 and
clang-19) at -O1, -O2 and -Os, for the instruction sets v2 and v3, so twelve builds a row. A row has, from the least build to the
greatest, the instructions that our search explored and its microseconds by the library, then those of Linux for the builds that it
accepts, and the greatest ratio of times among these. Times are measured as bench/linux.py does.

The exit status is 0; 1 with a message; and 77 where bpf(2) cannot be used.
"""
import subprocess
import sys
import tempfile
from dataclasses import dataclass
from pathlib import Path

TOP = Path(__file__).resolve().parent.parent
sys.path[:0] = [str(TOP / "checks"), str(TOP / "tools")]
import linux
from common import command_line
from kernel_calls import NoKernel

FOLDER = TOP / "bench/searches"
SIZES = {
    "records": [(f"{outer} by {inner}", [f"-DOUTER={outer}", f"-DINNER={inner}"]) for outer, inner in ((4, 4), (8, 6), (16, 8))],
    "name": [(f"{count} bytes", [f"-DBYTES={count}"]) for count in (32, 64, 255)],
}
LEVELS = ("-O1", "-O2", "-Os")
SETS = ("v2", "v3")


@dataclass(frozen=True)
class Build:
    """What is said of one build: None where it is refused."""

    explored: int | None
    ours: float | None
    theirs: tuple[int, int] | None


def image_of(name: str, words: list[str], made: Path) -> Path:
    """The image that a compiler makes of a filter; these are the compiler and its words."""
    compiled = [*words, "-target", "bpf", "-g", "-c", f"-I{TOP}/tests/objects", "-I/usr/include/x86_64-linux-gnu"]
    for step in (
        [*compiled, str(FOLDER / f"{name}.c"), "-o", f"{made}.o"],
        [sys.executable, f"{TOP}/tools/image.py", f"{made}.o", f"{made}.image"],
    ):
        ran = subprocess.run(step, capture_output=True, text=True, check=False)
        if ran.returncode:
            sys.exit(f"searches.py: {name}: {ran.stderr.strip()}")
    return Path(f"{made}.image")


def images_of(name: str, defined: list[str], clangs: list[str], folder: Path) -> list[Path]:
    builds = [(clang, level, form) for clang in clangs for level in LEVELS for form in SETS]
    return [
        image_of(name, [clang, level, f"-mcpu={form}", *defined], folder / f"{name}{number}")
        for number, (clang, level, form) in enumerate(builds)
    ]


def span(numbers: list[float]) -> str:
    return f"{min(numbers):,.0f} to {max(numbers):,.0f}" if numbers else "none"


def row(name: str, size: str, builds: list[Build]) -> str:
    """A row of the table."""
    counts = [float(it.explored) for it in builds if it.explored is not None]
    times = [it.ours for it in builds if it.ours is not None]
    theirs = [it.theirs for it in builds if it.theirs is not None]
    ratios = [it.ours / max(it.theirs[1], 1) for it in builds if it.ours is not None and it.theirs is not None]
    more = sum(it.explored > it.theirs[0] for it in builds if it.explored is not None and it.theirs is not None)
    return (
        f"{name}, {size}: {len(builds)} builds, {len(times)} accepted here: {span(counts)} explored, {span(times)} us; "
        f"{len(theirs)} by Linux: {span([float(it[0]) for it in theirs])} processed, {span([float(it[1]) for it in theirs])} us; "
        f"{more} explore more, greatest ratio {max(ratios, default=0):.2f}"
    )


def main() -> int:
    words = command_line()
    words.add_argument("--clang", nargs="+", default=["clang-14", "clang-19"], metavar="NAME")
    words.add_argument("--library", type=Path, default=TOP / "crates/xdpvm_c/out/libxdpvm_c.a", metavar="ARCHIVE")
    words.add_argument("--survey", type=Path, default=TOP / "crates/xdpvm_survey/out/xdpvm_survey", metavar="PROGRAM")
    words.add_argument("--times", type=int, default=5, metavar="N")
    given = words.parse_args()
    with tempfile.TemporaryDirectory() as folder:
        library = linux.shared(given.library, Path(folder))
        try:
            for name, sizes in SIZES.items():
                for size, defined in sizes:
                    images = images_of(name, defined, given.clang, Path(folder))
                    counts = linux.explored(given.survey, images)
                    builds = [
                        Build(
                            counts.get(str(it)),
                            linux.ours(library, it.read_bytes(), given.times),
                            linux.linux(it.read_bytes(), 1),
                        )
                        for it in images
                    ]
                    print(row(name, size, builds), flush=True)
        except NoKernel as why:
            print(f"searches.py: not tried, since the kernel cannot be asked here: {why}")
            return linux.CANNOT
    return 0


if __name__ == "__main__":
    sys.exit(main())
