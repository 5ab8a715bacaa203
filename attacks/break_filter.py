#!/usr/bin/env python3
"""Breaks xdpvm_filter from outside: makes each allocation, opening, read and write of some command lines fail in turn.

usage: python3 attacks/break_filter.py [PROGRAM]

PROGRAM is xdpvm_filter (the default: crates/xdpvm_filter/out/xdpvm_filter). If an allocation fails, the status is 5, standard
error says so, and nothing is written, or all but the counts; or all is as without it, except for what is known of a refusal.
If a file is not opened, or a read of it fails, it is named, with status 4, and no output is made; or it was of the frames, and
then status, counts, report, frames out and maps are those of a stream that fails there (F5). If a write fails or takes no byte,
the output is named, with status 4, and each output has a beginning of what belongs there, or standard error got less; what failed
is not written to again. Where the frames out go to standard output, standard error has the counts: a failure of it is told there,
as one of standard output. Of frames that are written again (convert, show) the output has what was read before a read failed, and
a beginning where a write did. A read or a write that moves one byte changes nothing. It needs a C compiler (CC). The last line is
'N tried, M wrong'. In the gate.
"""
from __future__ import annotations

import os
import re
import sys
import tempfile

sys.path.insert(0, os.path.join(os.path.dirname(os.path.abspath(__file__)), "../checks"))
import common
from common import write
from failing import Answer, Forked, Told, prepare

KINDS = ("alloc", "allocs", "open", "read", "write", "no-write", "short-read", "short-write", "close", "rename", "flush", "empty")
OUTPUTS = ("made", "report", "held")
EVERY_OUTPUT = ["--report", "report", "--maps-out", "held"]
RUNS = (
    ["examples/allow.image", "examples/allow.frames", "made", "--maps", "list", *EVERY_OUTPUT],
    ["examples/allow.image", "examples/allow.frames", "made", "--maps", "list"],
    ["examples/allow.image", "examples/allow.frames", "-", "--maps", "list", "--maps-out", "held"],
    ["examples/allow.image", "examples/allow.pcapng", "made", "--maps", "list"],
    ["examples/allow.image", "examples/allow.frames", "made", "--maps", "wrong", *EVERY_OUTPUT],
    ["examples/pass.image", "examples/two.frames", "made", "--table", "examples/pass.table"],
    ["examples/pass.image", "examples/two.frames", "made", "--table", "list"],
    ["examples/pass.image", "examples/cut.frames", "made", "--report", "report"],
    ["examples/reasons.image", "examples/reasons.frames", "made", "--checked", *EVERY_OUTPUT],
    ["examples/endless.image", "examples/two.frames", "made", "--checked", "--limit", "100", "--report", "report"],
    ["examples/unguarded.image", "examples/two.frames", "made", "--checked"],
    ["examples/unguarded.image", "examples/two.frames", "made"],
    ["examples/damaged.image", "examples/two.frames", "-"],
    ["examples/pass.image", "lost", "made"],
    ["examples/pass.image"],
    ["convert", "examples/allow.frames", "made", "--to", "pcapng"],
    ["convert", "examples/reasons.frames", "made", "--to", "pcap"],
    ["convert", "examples/allow.pcapng", "made"],
    ["convert", "examples/cut.frames", "-", "--to", "frames"],
    ["convert", "examples/allow.pcapng", "-", "--to", "pcap"],
    ["show", "examples/reasons.frames"],
    ["convert", "examples/two.frames", "made"],
    ["convert", "lost", "made"],
    ["--help"],
    ["convert", "--help"],
)


def has_all_but_counts(answer: Answer, whole: Answer) -> bool:
    """Whether the files are whole, and the frames out where they go to standard output."""
    return answer.out == (whole.out if whole.out.startswith(b"XPF") else b"") and answer.files == whole.files


def lacks_reason(answer: Answer, whole: Answer) -> bool:
    """Whether all is as it was, except that standard error has less of what is known of a refusal."""
    known = b"refused " in whole.out + whole.err and answer.has_outputs_of(whole)
    return known and whole.err.startswith(answer.err.split(b"\n")[0])


def is_conversion(words: list[str]) -> bool:
    return words[0] in ("convert", "show")


def lacks_losses(answer: Answer, whole: Answer) -> bool:
    """Whether all is as it was, except that standard error does not say what a capture has lost."""
    return answer.has_outputs_of(whole) and b"frames without " in whole.err and whole.err.startswith(answer.err)


def of_memory(words: list[str], answer: Answer, whole: Answer) -> str | None:
    if answer.status == 5 and answer.err == b"out of memory\n":
        if answer.is_quiet():
            return "status 5, nothing written"
        return "status 5, all but the counts" if has_all_but_counts(answer, whole) else None
    if answer.is_as(whole):
        return "unchanged"
    if is_conversion(words) and lacks_losses(answer, whole):
        return "unchanged, what is lost left away"
    return "unchanged, what is known left away" if lacks_reason(answer, whole) else None


def is_cut_off(words: list[str], answer: Answer, whole: Answer) -> bool:
    """Whether counts, frames out and report are those of frames that cannot be read on; what the maps hold is in the report."""
    made, report, held = answer.files
    counts = (answer.err if words[2] == "-" else answer.out).split(b"\n\n")[-1].splitlines()
    last = [line for line in counts if line.startswith(b"fault F5 at ")]
    run = sum(int(line.split()[-1]) for line in counts if re.match(rb"(?!fault|reason|other)[A-Z]+( \w+)? \d+$", line))
    right = len(last) == 1 and ((whole.files[0] or b"").startswith(made or b"") or made == b"XPF1")
    if report is not None:
        lines, all_lines = report.splitlines(), (whole.files[1] or b"").splitlines()
        right &= lines[-1:] == last and lines[:run] == all_lines[:run]
        maps = [line for line in lines if line.startswith(b"map ")]
        right &= run + len(maps) + 1 == len(lines) and (held is None or held.splitlines() == maps)
    return right and b"the stream cannot be read\n" in answer.err


def of_open(words: list[str], answer: Answer, _: Answer) -> str | None:
    named = re.match(r"cannot (?:read|write) (standard output|\S+)\npermission denied\n", answer.err.decode())
    if answer.status != 4 or not named or named[1] not in (*words, *OUTPUTS, "standard output"):
        return None
    return "status 4" if answer.is_quiet() else None


def of_conversion_read(words: list[str], answer: Answer, whole: Answer) -> str | None:
    """The file of frames is named, or what was read before is there: of nothing, the magic of the first form."""
    if answer.status == 4 and answer.err.startswith(f"cannot read {words[1]}\n".encode()):
        return "status 4" if answer.is_quiet() else None
    right = answer.begins(whole) or b"XPF1" in (answer.out, answer.files[0])
    return "status 3, F5" if answer.status == 3 and right and b"the stream cannot be read\n" in answer.err else None


def of_read(words: list[str], answer: Answer, whole: Answer) -> str | None:
    if is_conversion(words):
        return of_conversion_read(words, answer, whole)
    named = [words[0], *(word for word in words if word in ("list", "wrong", "examples/pass.table"))]
    if answer.status == 4 and answer.err.split(b"\n")[0].decode() in [f"cannot read {name}" for name in named]:
        return "status 4" if not any(it is not None for it in answer.files) and not answer.out else None
    return "status 3, F5" if answer.status == 3 and is_cut_off(words, answer, whole) else None


def of_write(words: list[str], answer: Answer, whole: Answer) -> str | None:
    named = answer.status == 4 and re.search(rb"^cannot write (standard output|made|report|held)$", answer.err, re.M)
    if named and "-" in words and (answer.out, answer.files) == (whole.out, whole.files):
        return "status 4, the counts"
    if answer.tried_again:
        return None
    if named:
        return "status 4" if answer.begins(whole) else None
    return "status unchanged, less said" if answer.has_outputs_of(whole) and len(answer.err) < len(whole.err) else None


def of_short(_: list[str], answer: Answer, whole: Answer) -> str | None:
    return "unchanged" if answer.is_as(whole) else None


ALLOWED = dict(
    zip(KINDS, (of_memory, of_memory, of_open, of_read, of_write, of_write, *[of_short] * 3, of_open, of_write, of_write))
)


def main() -> int:
    parser = common.command_line()
    parser.add_argument("program", nargs="?", type=common.runnable, default=common.built("xdpvm_filter"))
    given, told = parser.parse_args(), Told()
    with tempfile.TemporaryDirectory() as folder, Forked(given.program, OUTPUTS) as program:
        os.chdir(folder)
        prepare()
        write("list", "# counts\n" + "".join(f"map 0 c00002{number:02x} {number:02x}00000000000000\n" for number in range(200)))
        write("wrong", "map 0 c0000201 0000000000000000\nmap 0 c00002 00\n")
        for words in RUNS:
            whole = program.answer(words)
            for kind in KINDS:
                for call, answer in program.failures(words, kind):
                    told.count(words, kind, call, answer, ALLOWED[kind](words, answer, whole))
        os.chdir("/")
    told.tell()
    print(f"{told.counts.total()} tried, {told.wrong()} wrong")
    return 1 if told.wrong() or not told.counts["alloc", "status 5, nothing written"] else 0


if __name__ == "__main__":
    sys.exit(main())
