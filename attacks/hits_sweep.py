#!/usr/bin/env python3
"""Compares what `xdpvm_survey hits` counts with a second counting over the lines of `xdpvm_survey steps`, and with the report
of `xdpvm trace`, on random programs and streams.

usage: python3 attacks/hits_sweep.py [PROGRAM] [--programs N] [--seed S] [--xdpvm XDPVM] [--keep FOLDER]

PROGRAM is xdpvm_survey (the default: crates/xdpvm_survey/out/xdpvm_survey), XDPVM is xdpvm. Programs are those of fuzz.py, and
most of them are not accepted. For each program and stream, of version 1 or 2, it takes the steps of every frame's run, and counts
how often each slot begins a step, how often each conditional jump goes each way (by the slot of the step after it), and how the
runs ended. What `hits` counts has to be that, and each frame's end the line of the report. What differs is printed, with the
program and its frames in FOLDER, and the exit status is 1. The last line is 'N programs, M frames, K steps, L wrong'.
"""
import json
import random
import re
import shutil
import statistics
import subprocess
import sys
import tempfile
from collections import Counter
from concurrent.futures import ThreadPoolExecutor
from dataclasses import dataclass, field
from pathlib import Path
from typing import Any

sys.path.insert(0, str(Path(__file__).resolve().parent.parent / "checks"))
import common
from fuzz import frames
from random_programs import Maker

LIMIT = "2000"
JUMP = re.compile(r"^if .* goto ([+-]\d+)$")


@dataclass
class Counted:
    """A second counting: steps by slot, ways by slot, how runs ended, and how many steps they took."""

    runs: Counter[int] = field(default_factory=Counter)
    jumped: Counter[int] = field(default_factory=Counter)
    fell: Counter[int] = field(default_factory=Counter)
    open: Counter[int] = field(default_factory=Counter)  # jumps whose way the next slot does not show
    ends: Counter[str] = field(default_factory=Counter)
    steps: list[int] = field(default_factory=list)


def count_run(shown: dict[str, Any], counted: Counted) -> None:
    """Adds the run of a frame."""
    end = shown["end"].split()
    steps = shown["steps"]
    slots = [step["slot"] for step in steps]
    counted.runs.update(step["slot"] for step in steps if step["instruction"] != "no instruction begins there")
    if end[0] == "SKIP":
        return
    counted.ends[end[0]] += 1
    counted.steps.append(int(end[3] if end[0] == "TRAP" else end[2]))
    for index, step in enumerate(steps):
        jump = JUMP.match(step["instruction"])
        if not jump or end[0] == "TRAP" and index == len(steps) - 1:
            continue
        slot, to = step["slot"], step["slot"] + 1 + int(jump[1])
        if to == slot + 1 or index == len(steps) - 1:
            counted.open[slot] += 1
        else:
            (counted.jumped if slots[index + 1] == to else counted.fell)[slot] += 1


def differences(hits: dict[str, Any], counted: Counted) -> list[str]:
    """What the counts of `hits` have otherwise."""
    wrong = []
    for row in hits["instructions"]:
        slot = row["slot"]
        if row["runs"] != counted.runs[slot]:
            wrong.append(f"slot {slot}: {row['runs']} runs, steps have {counted.runs[slot]}")
        if "jumped" not in row:
            continue
        jumped, fell, free = counted.jumped[slot], counted.fell[slot], counted.open[slot]
        if row["jumped"] + row["fell"] != jumped + fell + free or row["jumped"] < jumped or row["fell"] < fell:
            wrong.append(f"slot {slot}: jumped {row['jumped']}, fell {row['fell']}; steps have {jumped}, {fell} and {free}")
    ended = {name: count for name, count in hits["actions"].items() if count}
    if ended != dict(counted.ends) or hits["frames"] != len(counted.steps):
        wrong.append(f"actions {ended}, steps have {dict(counted.ends)}")
    numbers = {
        "least": min(counted.steps, default=0),
        "median": statistics.median_low(counted.steps or [0]),
        "greatest": max(counted.steps, default=0),
    }
    if hits["steps"] != (numbers if counted.steps else None):
        wrong.append(f"steps {hits['steps']}, and {numbers} by the runs")
    return wrong


class Malformed(Exception):
    """The program is no image."""


def answer(words: list[str]) -> bytes:
    """What a command prints, which ends with status 0."""
    ran = subprocess.run(words, capture_output=True, check=False)
    if ran.returncode == 2:
        raise Malformed
    if ran.returncode != 0:
        raise ValueError(f"{' '.join(words)}: status {ran.returncode}\n{ran.stderr.decode()}")
    return ran.stdout


def tried(seed: int, survey: str, xdpvm: str, folder: str) -> tuple[list[str], int, int]:
    """What is wrong with the counts of the program of a seed, how many frames there were, and how many steps."""
    chance = random.Random(seed)
    image = common.write(f"{folder}/{seed}.image", Maker(seed).program())
    stream = common.write(f"{folder}/{seed}.frames", frames(chance, 1 + seed % 2))
    given = [image, stream, "--limit", LIMIT]
    try:
        hits = json.loads(answer([survey, "hits", *given, "--format", "json"]))
        report = answer([xdpvm, "trace", "--limit", LIMIT, image, stream, f"{folder}/{seed}.sent"]).decode().splitlines()
        lines = [line.split(" ", 1) for line in report if line[0].isdigit()]
        counted, wrong = Counted(), []
        for number, said in lines:
            shown = json.loads(answer([survey, "steps", *given, "--frame", number, "--json"]))
            count_run(shown, counted)
            if shown["end"] != said:
                wrong.append(f"frame {number}: {shown['end']}, the report has {said}")
        wrong += differences(hits, counted)
    except Malformed:
        return [], 0, 0
    except ValueError as error:
        return [str(error)], 0, 0
    return wrong, len(lines), sum(counted.runs.values())


def main() -> int:
    parser = common.command_line()
    parser.add_argument("program", nargs="?", default=common.built("xdpvm_survey"), metavar="PROGRAM")
    parser.add_argument("--programs", type=int, default=1000, metavar="N")
    parser.add_argument("--seed", type=int, default=0, metavar="S")
    parser.add_argument("--xdpvm", default=common.built(), metavar="XDPVM")
    parser.add_argument("--keep", metavar="FOLDER")
    given = parser.parse_args()
    failed = all_frames = all_steps = 0
    with tempfile.TemporaryDirectory() as folder, ThreadPoolExecutor() as pool:
        seeds = range(given.seed, given.seed + given.programs)
        results = pool.map(lambda seed: (seed, *tried(seed, given.program, given.xdpvm, folder)), seeds)
        for seed, wrong, count, steps in results:
            all_frames, all_steps = all_frames + count, all_steps + steps
            if wrong:
                failed += 1
                print(f"seed {seed}:", *wrong, sep="\n    ")
                if given.keep:
                    Path(given.keep).mkdir(exist_ok=True)
                    for kept in Path(folder).glob(f"{seed}.*"):
                        shutil.copy(kept, given.keep)
    print(f"{given.programs} programs, {all_frames} frames, {all_steps} steps, {failed} wrong")
    return 1 if failed else 0


if __name__ == "__main__":
    sys.exit(main())
