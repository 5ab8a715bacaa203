"""The page of what a filter did: its source with how often each line was run, one HTML file that needs nothing else."""
from html import escape

from hits import File, Hits, Instruction, Line
from outputs import write_whole
from sources import Source

STYLE = """
:root { color-scheme: light dark; --paper: #ffffff; --ink: #1b1f24; --quiet: #59636e; --rule: #d1d9e0; --never: #ffe3e0; --half: #fff3c4; }
@media (prefers-color-scheme: dark) {
  :root { --paper: #0f1318; --ink: #e6edf3; --quiet: #9aa6b2; --rule: #30363d; --never: #4a1f1c; --half: #463a0e; }
}
body { background: var(--paper); color: var(--ink); font: 15px/1.5 system-ui, sans-serif; margin: 2rem auto; max-width: 75rem; padding: 0 1rem; }
h1 { font-size: 1.4rem; } h2 { font-size: 1.1rem; margin-top: 2rem; }
dl { display: grid; grid-template-columns: max-content 1fr; gap: .2rem 1.2rem; }
dt { color: var(--quiet); } dd { margin: 0; }
table { border-collapse: collapse; width: 100%; font: 13px/1.45 ui-monospace, monospace; }
th { border-bottom: 1px solid var(--rule); color: var(--quiet); font-weight: normal; text-align: left; }
th, td { padding: 0 .6rem; vertical-align: top; }
.count { text-align: right; white-space: nowrap; width: 1%; } .quiet { color: var(--quiet); }
.ways { white-space: nowrap; } .text { white-space: pre-wrap; } details pre { color: var(--quiet); margin: 0 0 .3rem 1.5rem; }
summary { list-style: none; cursor: pointer; } summary::-webkit-details-marker { display: none; }
.never { background: var(--never); } .half { background: var(--half); }
.never .count { font-weight: bold; }
@media print { details pre { display: none; } }
"""

READING = "A line that was never run says so at the margin. A line opens to show its instructions, each with its slot."
CHANGED = "The file is not here as it was: only the lines that became code are shown."


def count_of(runs: int | None) -> str:
    """How often a line or an instruction was run, as the margin says it."""
    return "" if runs is None else f"{runs:,}" if runs else "never"


def way(count: int, name: str) -> str:
    return f"{name} {count:,}" if count else f"never {name}"


def ways_of(pair: tuple[int, int]) -> str:
    """How often a conditional jump went each way, in words."""
    return f"{way(pair[0], 'jumped')}, {way(pair[1], 'fell through')}" if any(pair) else "not reached"


def kind_of(runs: int | None, ways: list[tuple[int, int]]) -> str:
    """What the row of a line is marked as: never run, or with a jump that only ever went one way."""
    if runs is None:
        return ""
    if not runs:
        return ' class="never"'
    return ' class="half"' if any(0 in pair for pair in ways) else ""


def code_of(line: Line) -> str:
    """The text of a line, which opens to show its instructions."""
    text = escape(line.text.expandtabs(4)) or " "
    if not line.instructions:
        return text
    rows = "\n".join(escape(f"{it.slot:4} {count_of(it.runs):>9}  {it.text}") for it in line.instructions)
    return f"<details><summary>{text}</summary><pre>{rows}</pre></details>"


def line_row(line: Line) -> str:
    """The row of a line of the source."""
    ways = line.ways()
    said = "<br>".join(ways_of(it) for it in ways)
    return (
        f'<tr{kind_of(line.runs(), ways)}><td class="count quiet">{line.number}</td>'
        f'<td class="count">{count_of(line.runs())}</td><td class="text">{code_of(line)}</td><td class="ways">{said}</td></tr>'
    )


FILE_HEAD = '<th class="count">line</th><th class="count">runs</th><th>source</th><th>jumps</th>'


def file_part(file: File) -> str:
    """A file of the source."""
    note = (
        "" if file.is_whole else '<p class="quiet">The file is not here as it was: only the lines that became code are shown.</p>'
    )
    return "\n".join(
        [
            f"<h2>{escape(file.path)}</h2>{note}",
            f"<table><thead><tr>{FILE_HEAD}</tr></thead><tbody>",
            *map(line_row, file.lines),
            "</tbody></table>",
        ]
    )


def instruction_row(it: Instruction, source: Source) -> str:
    """The row of an instruction."""
    ways, named = it.ways(), source.line(it.slot)
    return (
        f'<tr{kind_of(it.runs, [ways] if ways else [])}><td class="count quiet">{it.slot}</td>'
        f'<td class="count">{count_of(it.runs)}</td><td class="text">{escape(it.text)}</td>'
        f'<td class="ways">{ways_of(ways) if ways else ""}</td><td class="quiet">{escape(named[0]) if named else ""}</td></tr>'
    )


def instructions_part(hits: Hits, source: Source) -> str:
    """All instructions."""
    head = '<th class="count">slot</th><th class="count">runs</th><th>instruction</th><th>jumps</th><th>line</th>'
    rows = [instruction_row(it, source) for it in hits.instructions]
    return "\n".join(["<h2>Instructions</h2>", f"<table><thead><tr>{head}</tr></thead><tbody>", *rows, "</tbody></table>"])


def summary_of(hits: Hits) -> list[tuple[str, str]]:
    """What is said above the source."""
    jumps = hits.jumps()
    both, reached = sum(all(it) for it in jumps), sum(any(it) for it in jumps)
    rows = [("verdict", hits.verdict), *(("frames" if not at else "", it) for at, it in enumerate(hits.told))]
    if hits.fault:
        rows.append(("the frames end", f"with the fault {hits.fault}"))
    if hits.steps:
        most = "" if hits.bound is None else f"; the bound is {hits.bound:,}"
        least, median, greatest = hits.steps
        rows.append(("steps a frame", f"least {least:,}, median {median:,}, greatest {greatest:,}{most}"))
    rows.append(("instructions", f"{hits.reached():,} of {len(hits.instructions):,} were run"))
    if jumps:
        rows.append(("conditional jumps", f"{both:,} of {len(jumps):,} went both ways, {reached - both:,} one way only"))
    return rows


def page(hits: Hits, files: list[File], source: Source, title: str) -> str:
    """The whole page."""
    rows = [f"<dt>{escape(name)}</dt><dd>{escape(said)}</dd>" for name, said in summary_of(hits)]
    return "\n".join(
        [
            "<!DOCTYPE html>",
            f'<html lang="en"><head><meta charset="utf-8"><title>{escape(title)}</title>',
            '<meta name="viewport" content="width=device-width">',
            f"<style>{STYLE}</style></head><body>",
            f"<h1>{escape(title)}</h1><dl>{''.join(rows)}</dl>",
            f'<p class="quiet">{READING}</p>',
            *map(file_part, files),
            instructions_part(hits, source),
            "</body></html>",
            "",
        ]
    )


def write_page(path: str, hits: Hits, files: list[File], source: Source, title: str, read: list[str | None]) -> None:
    """Writes the page."""
    write_whole(path, page(hits, files, source, title).encode(), read)
