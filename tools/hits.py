"""What a filter did on frames: how often each instruction was run, by the lines of its source. `xdpvm_survey hits` counts;
a page shows it (hits_page.py), or a file in the format of lcov, which editors and continuous integration show."""
import json
import os
import subprocess
from dataclasses import dataclass, field

from outputs import write_whole
from sources import Failed, Source

ENDED = (0, 3)  # the statuses of a count to the end of its frames, or to a fault of theirs


@dataclass
class Instruction:
    """An instruction, and how often it was run; of a conditional jump how often it jumped, and how often it did not."""

    slot: int
    text: str
    runs: int
    jumped: int | None = None
    fell: int | None = None

    def ways(self) -> tuple[int, int] | None:
        """How often a conditional jump went each way."""
        return None if self.jumped is None or self.fell is None else (self.jumped, self.fell)


@dataclass
class Hits:
    """The counts of all instructions over the frames that were run, and of steps a frame the least, the median and the
    greatest. `verdict` is what `verify` says in a line, and `told` the report's counts in words."""

    instructions: list[Instruction]
    frames: int
    bound: int | None
    steps: tuple[int, int, int] | None
    fault: str | None = None
    verdict: str = ""
    told: list[str] = field(default_factory=list)

    def reached(self) -> int:
        """How many instructions were run at all."""
        return sum(it.runs > 0 for it in self.instructions)

    def jumps(self) -> list[tuple[int, int]]:
        """How often each conditional jump went each way."""
        return [ways for it in self.instructions if (ways := it.ways())]


@dataclass
class Line:
    """A line of the source, with its instructions. A line without any is one that became no code."""

    number: int
    text: str
    instructions: list[Instruction] = field(default_factory=list)

    def runs(self) -> int | None:
        """How often the line was run: as often as the instruction of it that was run most."""
        return max((it.runs for it in self.instructions), default=None)

    def ways(self) -> list[tuple[int, int]]:
        """How often each conditional jump of the line went each way."""
        return [ways for it in self.instructions if (ways := it.ways())]


@dataclass
class File:
    """A file of the source: its lines in order, all of them where the file can be read and still has the lines that
    the filter was made of."""

    path: str
    lines: list[Line]
    is_whole: bool


def counted(program: str, image: str, frames: str, maps: str | None, limit: list[str]) -> Hits:
    """The counts of a run of the image on a frame stream."""
    words = [program, "hits", image, frames, *(["--maps", maps] if maps else []), *limit, "--format", "json"]
    ran = subprocess.run(words, capture_output=True, text=True, errors="replace", check=False)
    if ran.returncode not in ENDED:
        raise Failed(f"xdpvm_survey hits ended with status {ran.returncode}: {ran.stderr.strip() or ran.stdout.strip()}")
    said = json.loads(ran.stdout)
    instructions = [
        Instruction(it["slot"], it["instruction"], it["runs"], it.get("jumped"), it.get("fell")) for it in said["instructions"]
    ]
    steps = said["steps"]
    its = (steps["least"], steps["median"], steps["greatest"]) if steps else None
    return Hits(instructions, said["frames"], said["bound"], its, said["fault"])


def lines_of(hits: Hits, source: Source) -> dict[str, dict[int, Line]]:
    """The lines that became code, by their files and numbers. A compiler gives the number 0 to what is of no line."""
    found: dict[str, dict[int, Line]] = {}
    for it in hits.instructions:
        named = source.line(it.slot)
        if named is None:
            continue
        path, _, number = named[0].rpartition(":")
        if number == "0":
            continue
        line = found.setdefault(path, {}).setdefault(int(number), Line(int(number), named[1]))
        line.instructions.append(it)
    return found


def whole(path: str, known: dict[int, Line]) -> list[Line] | None:
    """All lines of a file, if it can be read and has the known ones."""
    try:
        with open(path, encoding="utf-8", errors="replace") as file:
            texts = file.read().split("\n")
    except OSError:
        return None
    texts = texts[:-1] if texts and not texts[-1] else texts
    if any(number > len(texts) or texts[number - 1].strip() != line.text.strip() for number, line in known.items()):
        return None
    empty: list[Instruction] = []
    return [Line(at, text, known[at].instructions if at in known else list(empty)) for at, text in enumerate(texts, 1)]


def files_of(hits: Hits, source: Source) -> list[File]:
    """The files of the source, in the order in which the code names them."""
    made = []
    for path, known in lines_of(hits, source).items():
        lines = whole(path, known)
        made.append(File(path, lines or [known[at] for at in sorted(known)], lines is not None))
    return made


def lcov(files: list[File]) -> str:
    """The counts in the format of lcov: of each line that became code how often it was run, and of each way of its jumps how
    often it was taken, `-` where the jump was never reached."""
    rows = []
    for file in files:
        rows += ["TN:", f"SF:{os.path.abspath(file.path)}"]
        code = [line for line in file.lines if line.instructions]
        ways = [(line.number, at, pair) for line in code for at, pair in enumerate(line.ways())]
        for number, at, pair in ways:
            reached = any(pair)
            rows += [f"BRDA:{number},{at},{way},{count if reached else '-'}" for way, count in enumerate(pair)]
        rows += [f"BRF:{2 * len(ways)}", f"BRH:{sum(count > 0 for _, _, pair in ways for count in pair)}"]
        rows += [f"DA:{line.number},{line.runs()}" for line in code]
        rows += [f"LF:{len(code)}", f"LH:{sum(bool(line.runs()) for line in code)}", "end_of_record"]
    return "\n".join([*rows, ""])


def write_lcov(path: str, files: list[File], read: list[str | None]) -> None:
    """Writes lcov's file."""
    if not files:
        raise Failed(f"{path}: the filter has no lines of a source that lcov could show (clang's -g keeps them)")
    write_whole(path, lcov(files).encode(), read)
