"""What is said of a filter: its verdict, with lines of the source, and what a report has, in counts."""

import collections
import re
import subprocess
import sys
from collections.abc import Iterable, Iterator

from failures import shown
from sources import Source, TextRefused


def say(line: str) -> None:
    """Prints a line of what the filter did."""
    print(line, file=TOLD[0], flush=True)


TOLD = [sys.stdout]


def tell_place(refused: TextRefused) -> None:
    """A refusal of the text, with its position as editors read it; the program shows the line."""
    print(refused.out, end="", file=TOLD[0])
    sys.stderr.write(refused.err)
    place = re.search(r"line (\d+) column (\d+)", refused.out + refused.err)
    if place:
        print(f"{shown(refused.path)}:{place[1]}:{place[2]}", file=sys.stderr)


def tell_maps_refused(said: str, path: str | None) -> None:
    """A refusal of the file of maps, if there is one, with its position as editors read it."""
    print(said, end="", file=TOLD[0], flush=True)
    place = re.search(r"line (\d+) column (\d+)", said)
    if place and path:
        print(f"{shown(path)}:{place[1]}:{place[2]}", file=sys.stderr)


def tell_refusal(source: Source, ran: "subprocess.CompletedProcess[str]") -> None:
    """A verdict; where it is a refusal, each slot with its line of the source."""
    print(ran.stdout, end="", file=TOLD[0], flush=True)
    tell_errors(source, ran.stderr)


def tell_errors(source: Source, said: str) -> None:
    """What a program said on standard error: of a refusal, or where runs stopped. Each slot is followed by its line of
    the source."""
    for line in said.splitlines():
        print(line, file=sys.stderr)
        slot, way = re.match(r"(?:frame \d+(?: and \d+ more)?, )?slot (\d+):", line), line.startswith("way:")
        named = source.line(int(slot[1])) if slot else None
        if named:
            print(f"  {named[0]}: {named[1]}", file=sys.stderr)
        for here, there, times in re.findall(r"(\d+) -> (\d+)(?:, (\d+) times)?", line) if way else []:
            before, after = source.line(int(here)), source.line(int(there))
            if before and after:
                often = f" ({times} times)" if times else ""
                print(f"  {before[0]}: {before[1]}\n    -> {after[0]}: {after[1]}{often}", file=sys.stderr)


def plural(count: int, noun: str) -> str:
    """A number of things, in words."""
    return f"{count:,} {noun}" + ("" if count == 1 else "s")


def tell_maps(entries: dict[int, list[list[str]]], source: Source, shows_all: bool) -> None:
    """What each map holds at the end."""
    for index, rows in sorted(entries.items()):
        name = f" ({source.names[index]})" if index < len(source.names) else ""
        say(f"map {index}{name}: {plural(len(rows), 'entry').replace('entrys', 'entries')}")
        shown = rows if shows_all else rows[:10]
        for key, value in shown:
            cut = len(value) > 128 and not shows_all
            say(f"  {key} {value[:128] + ' ..' if cut else value}")
        if len(shown) < len(rows):
            say(f"  and {len(rows) - len(shown):,} more (--all)")


def tell_report(lines: Iterable[str], source: Source, shows_all: bool) -> list[str]:
    """What the lines of a report say, in counts. A line that is not of a report is printed as it is. The result is how many
    frames had which action and reason, a line each."""
    actions: collections.Counter[str] = collections.Counter()
    reasons: collections.Counter[str] = collections.Counter()
    entries: dict[int, list[list[str]]] = collections.defaultdict(list)
    last = ""
    for line in lines:
        words = line.split() or [""]
        if words[0] == "map":
            entries[int(words[1])].append(words[2:])
        elif words[0] in ("end", "fault"):
            last = line
        elif not words[0].isdigit():
            say(line)
        else:
            actions[" ".join(words[1:3]) if words[1] == "TRAP" else words[1]] += 1
            if len(words) == 5 and words[1] != "TRAP" and words[4] != "0":
                reasons[words[4]] += 1
    if not last:
        return []
    total = sum(actions.values())
    told = [f"{plural(total, 'frame')}: " + (", ".join(f"{count:,} {name}" for name, count in actions.most_common()) or "none")]
    if reasons:
        told.append(
            "reasons: " + ", ".join(f"{reason} ({count:,})" for reason, count in sorted(reasons.items(), key=lambda it: -it[1]))
        )
    for one in told:
        say(one)
    tell_maps(entries, source, shows_all)
    if last.startswith("fault"):
        say(last)
    return told


def traced(lines: Iterable[str]) -> Iterator[str]:
    """The lines, each printed as it comes."""
    for line in lines:
        if line[:1].isdigit():
            say(line)
        yield line
