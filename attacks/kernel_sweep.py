#!/usr/bin/env python3
"""Compares many programs with the Linux kernel of this machine: verdicts, and runs if both accept.

usage: python3 attacks/kernel_sweep.py SET [--program XDPVM] [--count N] [--seed S] [--plain] [--jobs J] [--keep FOLDER]
       [--name CODE] [--seconds N] [--filter XDPVM_FILTER] [--library FILE [--explored N]]

SET is one of
  images PATH ..   images, or folders of images; with PATH.frames beside PATH.image if there is one
  random           programs of attacks/random_programs.py, N of them
  attacks          programs of the families of attacks.py, N of each
  arithmetic       each arithmetic instruction, width and operand form, with boundary numbers from the packet and as constants;
                   each byte swap and sign extension; each atomic instruction; each conditional jump
  maps             each call of helpers 1, 2 and 3 with each flag, on full and empty maps
                   of both types

A program runs on 20 frames (arithmetic: on each pair of boundary numbers). It is reported if `xdpvm
run` and the kernel differ in the action, in the packet's bytes or in the key-value pairs of the
maps; its image and frames are kept in FOLDER. Where a program calls helper 5, both are given one
time. Verdicts that differ are counted by the last words of the refusal, and are reported if no row
of docs/DECISIONS.md is about it. With --name each program that is refused here with that code and
accepted by the kernel is named, and kept too. The exit status is 1 if anything was reported.

With --filter both begin with maps that are filled alike, with random contents, and XDPVM_FILTER runs
the program. With --library so do they, and no process is started for a program: the library, a shared
one or the archive libxdpvm_c.a, verifies and runs it. A program for which N explored instructions
(1,000,000) are not enough is counted as undecided.
"""
import argparse
import collections
import functools
import os
import random
import re
import shutil
import sys
from collections.abc import Iterable

sys.path.insert(0, os.path.join(os.path.dirname(os.path.abspath(__file__)), "../checks"))
from common import TOP, bytes_of, command_line, text_of, write
import kernel
import kernel_calls
import object_check
from fuzz import begin, runner
from in_process import MOST, UNDECIDED, Ran, Run, loadable
from jobs import in_jobs
from kernel_programs import Item, Making, arithmetic, attacks, images, maps, randoms
from random_contents import contents


def shape(words: str) -> str:
    """A refusal without its numbers."""
    return re.sub(r"-?\b0x[0-9a-f]+|-?\d+", "N", words.split(" processed")[0])[:110]


@functools.cache
def stricter() -> set[str]:
    """The codes of the rows of docs/DECISIONS.md that say what is stricter here."""
    table = text_of(f"{TOP}/docs/DECISIONS.md").split("| stricter here | Linux |")[1].split("\n\n")[0]
    return set(re.findall(r"\bV\d+\b", table))


def filling_of(name: str, image: bytes) -> str:
    """Random contents for the maps of a program, as a text."""
    return contents(random.Random(name), kernel_calls.parsed(image)[0])


class Comparison:
    """What is said of a program here, by the kernel, and of both: a word or more, the frames that both ran, and what is
    wrong."""

    def __init__(self, item: Item, run: Run, fills: bool, folder: str) -> None:
        self.name, self.image, self.frames = item
        self.run, self.folder, self.fills = run, folder, fills and self.image[4:6] != b"\0\0"
        self.both, self.wrong = 0, list[str]()
        verdict = run("verify", write(f"{folder}/image", self.image))
        self.ours, self.theirs = self.word(verdict), "not asked"
        if self.ours != "undecided" and not self.ours.startswith("refused I"):
            self.compare()

    def word(self, verdict: Ran) -> str:
        """The verdict here."""
        if verdict.returncode not in (0, 2, UNDECIDED):
            self.wrong.append(f"verify: {verdict}")
        words = {0: "ok", UNDECIDED: "undecided"}
        return words.get(verdict.returncode) or " ".join(verdict.stdout.decode().split()[:2]) or "no verdict"

    def compare(self) -> None:
        """Loads the program, and runs it where both accept it."""
        is_accepted = self.ours == "ok"
        try:
            with kernel_calls.Kernel(self.image, explains=is_accepted) as there:
                self.theirs = "ok" if there.refusal is None else shape(there.refusal)
                if is_accepted != (there.refusal is None) and not self.has_row(there.refusal):
                    self.wrong.append(f"no row of docs/DECISIONS.md is about this: {self.ours}, kernel {there.refusal or 'ok'}")
                if is_accepted and there.refusal is None and not kernel.asks_for_time(self.image):
                    self.run_both(there)
        except OSError as error:
            self.theirs = f"not made: {error}"
        except ValueError as error:
            self.wrong.append(f"it is not linked: {error}")
        if is_accepted and self.theirs == "ok" and kernel.asks_for_time(self.image):
            self.frames = [(kernel.TIME, body) for _, body in self.frames]
            with kernel_calls.Kernel(kernel.with_time(self.image)) as there:
                self.run_both(there)

    def has_row(self, refusal: str | None) -> bool:
        """Whether a row of docs/DECISIONS.md is about these verdicts, which differ."""
        return object_check.row_of(refusal) is not None if refusal else self.ours.split()[-1] in stricter()

    def run_both(self, there: kernel_calls.Kernel) -> None:
        """Runs a program that both accept, from maps that are filled alike."""
        image, frames, sent, maps, report = (f"{self.folder}/{it}" for it in ("image", "frames", "sent", "begin.maps", "report"))
        write(frames, kernel.stream_of(self.frames))
        filling = filling_of(self.name, self.image) if self.fills else ""
        if filling:
            ran = self.run("filled", image, frames, sent, write(maps, filling), report)
        else:
            ran = self.run("run", image, frames, sent)
        if ran.returncode:
            self.wrong.append(f"it is not run: {ran}")
            return
        lines = text_of(report).splitlines() if filling else ran.stdout.decode().splitlines()
        try:
            there.fill(kernel.entries_of(filling.splitlines()))
            found, self.both = kernel.differences(there, kernel.Report(lines, bytes_of(sent)), self.frames)
            self.wrong += found[:3]
        except (OSError, ValueError) as error:
            self.wrong.append(f"it is not run: {error}")


def keep(item: Item, folder: str) -> None:
    os.makedirs(folder, exist_ok=True)
    kept = re.sub(r"\W+", "_", item[0])
    write(f"{folder}/{kept}.image", item[1])
    write(f"{folder}/{kept}.frames", kernel.stream_of(item[2]))
    write(f"{folder}/{kept}.maps", filling_of(item[0], item[1]))


class Tally:
    """Counts of verdicts and of frames that both ran, what is wrong, and the names that were asked for."""

    def __init__(self) -> None:
        self.verdicts: collections.Counter[tuple[str, str]] = collections.Counter()
        self.frames, self.wrong, self.named = 0, list[tuple[str, list[str]]](), list[str]()

    def told(self) -> tuple[object, ...]:
        """What a job answers."""
        return [[*key, number] for key, number in self.verdicts.items()], self.frames, self.wrong, self.named

    def add(self, verdicts: list[tuple[str, str, int]], frames: int, wrong: list[tuple[str, list[str]]], named: list[str]) -> None:
        """Adds what a job has answered."""
        for ours, theirs, number in verdicts:
            self.verdicts[ours, theirs] += number
        self.frames += frames
        self.wrong += wrong
        self.named += named

    def print(self, name: str) -> None:
        """Prints the counts, and what is wrong."""
        print(
            f"{sum(self.verdicts.values())} programs, {self.verdicts['ok', 'ok']} accepted by both, {self.frames} frames run by "
            f"both, {len(self.wrong)} reported"
        )
        for (ours, theirs), number in self.verdicts.most_common():
            if (ours == "ok") != (theirs == "ok") or theirs.startswith("not "):
                print(f"{number:6} xdpvm {ours}, kernel {theirs}")
        both = {it: number for it, number in self.verdicts.items() if "ok" not in it and not it[1].startswith("not ")}
        print(f"{sum(both.values())} refused by both")
        for it in self.named:
            print(f"{name} here, accepted by the kernel: {it}")
        for it, found in self.wrong[:20]:
            print(f"{it}: {'; '.join(found)}")


def work(given: argparse.Namespace, job: int, folder: str) -> tuple[object, ...]:
    """Compares the programs of one job."""
    run, tally = runner(given.program, given.library, given.explored), Tally()
    fills = bool(given.filter or given.library)
    for making in list_of(given, run, folder)[job :: given.jobs]:
        item = making()
        if item is None:
            continue
        it = Comparison(item, run, fills, folder)
        tally.add([(it.ours, it.theirs, 1)], it.both, [(it.name, it.wrong)] if it.wrong else [], [])
        is_named = (it.ours, it.theirs) == (f"refused {given.name}", "ok")
        tally.named += [it.name] * is_named
        if it.wrong or is_named:
            keep(item, given.keep)
    return tally.told()


def itself(item: Item) -> Item:
    return item


def list_of(given: argparse.Namespace, run: Run, folder: str) -> list[Making]:
    """What makes each program that is asked for."""
    if given.set == "random":
        return list(randoms(given.count, given.seed))
    if given.set == "attacks":
        return list(attacks(given.count, given.seed, run, folder))
    items: Iterable[Item] = images(given.paths) if given.set == "images" else {"arithmetic": arithmetic, "maps": maps}[given.set]()
    return [functools.partial(itself, item) for item in items]


def main() -> int:
    words = command_line()
    words.add_argument("set", choices=["images", "random", "attacks", "arithmetic", "maps"])
    words.add_argument("paths", nargs="*")
    words.add_argument("--program", default=os.environ.get("XDPVM", "xdpvm"))
    words.add_argument("--count", type=int, default=1000)
    words.add_argument("--seed", type=int, default=1)
    words.add_argument("--seconds", type=int, default=600, help="what a command may take")
    words.add_argument("--plain", action="store_true")
    words.add_argument("--jobs", type=int, default=os.cpu_count())
    words.add_argument("--keep", default="found")
    words.add_argument("--name", metavar="CODE")
    words.add_argument("--filter", metavar="XDPVM_FILTER")
    words.add_argument("--library", type=loadable)
    words.add_argument("--explored", type=int, default=MOST)
    given = words.parse_args()
    for name in [it for it in (given.program, given.filter) if it and not given.library]:
        if not shutil.which(name):
            sys.exit(f"kernel_sweep.py: there is no program {name}")
    begin(given)
    if given.plain:
        kernel_calls.without_perfmon()
    tally = Tally()
    for told, folder in in_jobs(given.jobs, functools.partial(work, given)):
        tally.add(*(told or ([], 0, [("a job", [f"died, its last input is in {folder}"])], [])))
    tally.print(given.name)
    return 1 if tally.wrong else 0


if __name__ == "__main__":
    sys.exit(main())
