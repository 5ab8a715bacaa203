#!/usr/bin/env python3
"""Attacks the verifier rule by rule: programs that are right except for a limit, a size or an offset.

A family for each rule: sums that wrap and signs mixed, tests of the packet before and after moves, the bytes that stay proved over
such moves, copies of a packet pointer that differ by fixed parts, bytes reversed, parts of spilled numbers, signed quotients and
remainders, pointers overwritten in part, stack slots kept over joins, places that hold one kind of value on one path and another
on the next, values that are gone, pointers into call frames that have ended, results that name no action, numbers that no limit
may leave out, and loops that take long or never end.

usage: python3 attacks/attacks.py [PROGRAM] [--programs N] [--seed S] [--jobs J] [--keep FOLDER] [--family NAME]
       [--seconds N] [--filter XDPVM_FILTER] [--library FILE [--explored N]]

N programs of each family are made, as texts. It reports each that `verify` accepts and `trace` ends
with a trap or after more steps than the bound, or that `run` and `trace` run differently, each that
is refused for something that its family does not do, each of `witnesses` whose witness `trace` ends
without a trap, and each that takes more than a minute; its text and frames are kept in FOLDER. Many
frames have an interface and a queue near the numbers of the text. A line for each family says how
many were accepted, and why the others were refused. The exit status is 1 if anything was reported.
--library, --explored and --filter are as for fuzz.py.
"""
import collections
import os
import random
import re
import sys
from functools import partial

import in_process
from attack_programs import CORNERS, EDGES, NEVER
from attack_programs import FAMILIES as RULES
from attack_witnesses import loops, witness_of, witnesses
from common import bytes_of, command_line, record, there, write
from fuzz import REASONS, begin, differs, spread, words_of
from in_process import Ran, Run

FAMILIES = {**RULES, "witnesses": witnesses, "loops": loops}


def near(lines: list[str]) -> list[int]:
    """Numbers of 32 bits near the numbers of a text, and near both halves of long ones."""
    numbers = {int(number) for number in re.findall(r"(?<!\w)-?\d+", "\n".join(lines))}
    return sorted({(half + by) % 2**32 for number in numbers for half in (number, number >> 32) for by in (-1, 0, 1)}) or [0]


def frames(chance: random.Random, version: int, lines: list[str]) -> bytes:
    """The witness of a program, if it names one, and frames of many lengths, whose interface and queue are near the edges or
    the numbers of its text, small, or any."""
    out, found, numbers = b"XPF%d" % version, witness_of(lines), near(lines)
    if found:
        out += record(version, found[0], 0, found[1])
    sources = (CORNERS, EDGES, range(256), range(2**32), numbers, numbers)
    for length in [0, 1, 3, 4, 7, 8, 14, 15, 16, 22, 23, 24, 31, 40, 300] * 3:
        interface, queue = (chance.choice(chance.choice(sources)) for _ in range(2))
        out += record(version, (chance.getrandbits(64), interface, queue), chance.choice(REASONS), bytes(length))
    return out


def unwitnessed(run: Run, paths: list[str], lines: list[str]) -> str | None:
    """What is wrong with the traced run of a program on its witness, which has to end with a trap: None, or a text."""
    head, body = there(witness_of(lines))
    if isinstance(run, in_process.Runner):
        ended = run.library.trace(bytes_of(paths[0]), head, body)
        return None if ended[2] == 1 else f"no trap on the witness: {ended}"
    write(paths[1], b"XPF1" + record(1, head, 0, body))
    told = run("trace", paths[0], paths[1], paths[2])
    return None if told.stdout.startswith(b"0 TRAP ") else f"no trap on the witness: {told}"


def limited(run: Run, chance: random.Random, path: str, verdict: Ran) -> str | None:
    """What is wrong with a verdict within a limit of the caller's, which has to be that without a
    limit, if there is one: None, or a text. Only a library takes such a limit."""
    if not isinstance(run, in_process.Runner):
        return None
    limit = chance.choice([1, chance.randrange(1, 100), chance.randrange(1, 3_000)])
    found = run.library.verify(bytes_of(path), limit)
    told = found and in_process.told(*found)
    return (
        None if told in (None, (verdict.returncode, verdict.stdout, verdict.stderr)) else f"within {limit}: {told}, else {verdict}"
    )


def tried(family: str, run: Run, seed: int, folder: str) -> tuple[str | None, str]:
    """What is wrong with the results for one seed (None: nothing), and the verdict's code."""
    chance = random.Random(f"{family} {seed}")
    paths = [os.path.join(folder, name) for name in ("image", "frames", "sent", "resent")]
    text = os.path.join(folder, "text")
    second = family == "answers" or chance.random() < 0.5
    lines = ["version 2"] * second + FAMILIES[family](chance)
    write(text, ("\n".join(lines) + "\n").encode())
    made = run("asm", text, paths[0])
    if made.returncode != 0:
        return f"asm: {made}", "no image"
    if family == "witnesses" and (wrong := unwitnessed(run, paths, lines)):
        return wrong, "no trap"
    verdict = run("verify", paths[0])
    if verdict.returncode == in_process.UNDECIDED:
        return None, "undecided"
    if family == "loops" and (wrong := limited(run, chance, paths[0], verdict)):
        return wrong, "another verdict"
    said = verdict.stdout.decode().split()
    if (verdict.returncode, said[:1]) == (2, ["refused"]):
        return (f"refused: {verdict.stderr!r}" if said[1] in NEVER.get(family, []) else None), said[1]
    if (verdict.returncode, said[:2]) != (0, ["ok", "bound"]):
        return f"verify: {verdict}", "no verdict"
    write(paths[1], frames(chance, chance.choice([1, 2]), lines))
    return differs(paths, int(said[2]), run), "accepted"


def main() -> None:
    words = command_line()
    words_of(words)
    words.add_argument("--programs", type=int, default=2_000)
    words.add_argument("--family", choices=FAMILIES, action="append", help="only this family")
    asked = words.parse_args()
    begin(asked)
    every: collections.Counter[str] = collections.Counter()
    findings = 0
    for family in asked.family or FAMILIES:
        counts, found = spread(asked, family, partial(tried, family))
        print(f"{family}: " + ", ".join(f"{code} {count}" for code, count in counts.most_common()), flush=True)
        every.update(counts)
        findings += found
    print(f"{sum(every.values())} programs, {every['accepted']} accepted, {findings} findings")
    sys.exit(1 if findings else 0)


if __name__ == "__main__":
    main()
