#!/usr/bin/env python3
"""Runs a filter on a capture: compiles or assembles it, verifies it, runs it, and says what it did.

usage: python3 tools/xdp.py FILTER|-e EXPRESSION [CAPTURE [OUT]] [--maps MAPS] [--maps-out FILE] [--trace [--limit N]]
                            [--hits PAGE.html|FILE.info] [--reasons] [--all] [--to KIND] [--xdpvm PROGRAM]
                            [--section NAME] [--program NAME] [--btf FILE] [--lru-as-hash] [--clang COMPILER]
                            [-- FLAG ..]

FILTER is C (NAME.c, compiled by clang, or by the COMPILER that is named, as bpf-gcc; the flags after `--` go to it), an
object file, an image, or a text; with -e it is made of an EXPRESSION of tcpdump, in one word, as filter.py does.
CAPTURE is a capture (pcap, pcapng), a frame stream, or a text of frames; without one the filter is only verified. OUT
gets the frames that are sent on, in the format that its name ends in (.pcap, .pcapng, .frames, .txt), or in the KIND
that --to names. With --reasons the frames carry reasons: why each was dropped, in and out. Options may stand anywhere
among the files.

--maps fills the maps before the first frame: MAPS has map lines, `map INDEX KEY VALUE` in hexadecimal, as reports have
them. --maps-out writes what the maps hold at the end to FILE, which can be given to the next run. Variables and
constants of C that begin with values are filled by themselves, before MAPS. `xdpvm_filter` runs a filter whose maps are
filled or kept.

`-` is standard input and standard output. From a pipe, and into one, each frame is handed on as it comes. A pipe gets a
pcap, where nothing says another KIND; where OUT is standard output, all that is said goes to standard error. OUT and
FILE may be none of the files that are read, and an old one stays as it was until the new one is whole.

It prints the verdict, how many frames had which action and reason, and what the maps hold (the first ten keys of each,
with 64 bytes of their values, or --all). If the filter is refused, each slot that the refusal names is followed by its
line of the source: of the text, or of the C file, as the object's type information has it (clang's -g; bpf-gcc 12 has
no lines there). --trace prints each frame's line too, and where runs stopped, with their lines of the source, and takes
a program that `verify` refuses; --limit is its limit of instructions a frame. --lru-as-hash makes hash maps of those
that drop old keys, as image.py does.

--hits counts how often each instruction is run, in a second run on the same frames, and writes a page with the source
and the counts at its margin, where lines that were never run are marked; or, with a name that ends in .info, a file in
lcov's format, which genhtml and editors show.

examples:
    python3 tools/xdp.py examples/firewall.text examples/firewall.pcapng sent.pcapng
    python3 tools/xdp.py -e 'udp port 53' examples/firewall.pcapng dns.pcapng
    python3 tools/xdp.py examples/talkers.bpf.c examples/talkers.pcapng -- -mcpu=v3
    python3 tools/xdp.py examples/allow.text examples/allow.pcapng --maps monday.maps --maps-out tuesday.maps
    python3 tools/xdp.py examples/services.bpf.c examples/services.pcapng --hits services.html
    tcpdump -U -w - | python3 tools/xdp.py filter.text - - | tcpdump -r -

The exit status is that of xdpvm, or 1 with a message if a tool before it failed.
"""
import argparse
import os
import shutil
import struct
import subprocess
import sys
import tempfile

from classic import Failed as NotTranslated
from classic import asks_for_length, classic_program, compiled
from expressions import Options, translated
from failures import Words, end, said
from hits import counted, files_of, write_lcov
from hits_page import write_page
from inputs import named
from map_files import filling
from outputs import IsRead, copy_whole, end_by_signal, is_plain, refuse_inputs
from reports import TOLD, tell_errors, tell_maps_refused, tell_place, tell_refusal, tell_report, traced
from runs import ENDED, SENT, STREAMS, Chain, Conversion, Ends, Live, Run, Wanted
from sources import Choice, Failed, Source, TextRefused, begin_of, image_of, the_filter, the_survey, the_xdpvm

KINDS = ("pcap", "pcapng", "frames", "txt")
CUT = "cut when they were captured"  # what is said where there are such frames
OF_LENGTH = "the expression asks for the length: tcpdump takes that on the wire, and here it is that of the bytes"


# ---- the frames


def kind_of(out: str, to: str | None) -> str:
    """The format of the frames that are sent on."""
    ending = os.path.splitext(out)[1][1:]
    if to or ending in KINDS:
        return to or ending
    if out == "-" or not is_plain(out):
        return "pcap"
    ends = "OUT has to end in .pcap, .pcapng, .frames or .txt, since that says what it becomes, or give --to KIND"
    raise Failed(f"{out}: {ends}")


def told_of(given: argparse.Namespace, its: Run, source: Source) -> None:
    """Says what the lines of the report have, as they come."""
    lines = its.lines()
    given.told = tell_report(traced(lines) if given.trace else lines, source, given.all)


def run_live(given: argparse.Namespace, wanted: Wanted, source: Source) -> tuple[int, str]:
    """Runs the image on frames as they come; the status, and the refusal of what fills the maps."""
    live = Live(wanted, Ends(given.capture, given.out, given.kind, ["--reasons"] * given.reasons))
    try:
        told_of(given, live.run, source)
        return live.finish(lambda said: tell_errors(source, said))
    finally:
        live.chain.stop()


def write_hits(given: argparse.Namespace, wanted: Wanted, source: Source, frames: str) -> None:
    """Counts how often each instruction is run on a frame stream, and writes what is asked for."""
    maps = wanted.filling.path if wanted.filling else None
    hits = counted(the_survey(wanted.xdpvm), wanted.image, frames, maps, wanted.limit)
    hits.verdict, hits.told = given.verdict, given.told
    files = files_of(hits, source)
    if given.hits.endswith(".info"):
        write_lcov(given.hits, files, wanted.read)
    else:
        write_page(given.hits, hits, files, source, f"{given.filter or given.expression} on {given.capture}", wanted.read)


def run_whole(given: argparse.Namespace, wanted: Wanted, source: Source) -> tuple[int, str]:
    """The same on the frames of a file."""
    reasons = ["--reasons"] * given.reasons
    frames, sent = wanted.path("in.frames"), wanted.path("sent.frames")
    begin = begin_of(given.capture)
    if begin[:3] == b"XPF":
        frames = given.capture
    else:
        said = Conversion(given.xdpvm, "frames", reasons).made(begin, given.capture, frames, given.capture)
        if given.asks_for_length and CUT in said:
            print(OF_LENGTH, file=sys.stderr)
    chain = Chain()
    try:
        its = Run(wanted, chain)
        its.start(frames, sent)
        told_of(given, its, source)
        status, refusal = its.finish()
    finally:
        chain.stop()
    tell_errors(source, its.errors())
    if given.out and status in ENDED:
        made = wanted.path("out")
        Conversion(given.xdpvm, given.kind, reasons).made(STREAMS[0], sent, made, SENT)
        copy_whole(given.out, made, wanted.read)
    if given.hits and status in ENDED:
        write_hits(given, wanted, source, frames)
    return status, refusal


def run(given: argparse.Namespace, image: str, source: Source, folder: str) -> int:
    """Runs the image on the frames, and prints what came of it."""
    text = filling(source.fill, given.maps, folder)
    program = the_filter(given.xdpvm) if text or given.maps_out else ""
    limit = ["--limit", given.limit] if given.limit else []
    read = [given.filter, given.capture, given.btf, given.maps]
    wanted = Wanted(given.xdpvm, program, image, folder, given.trace, limit, text, given.maps_out, read)
    ends = [given.capture, *[given.out] * bool(given.out)]
    is_live = any(it == "-" or not is_plain(it) for it in ends)
    if is_live and given.hits:
        raise Failed("--hits runs the filter a second time: CAPTURE and OUT have to be files")
    status, refusal = (run_live if is_live else run_whole)(given, wanted, source)
    tell_maps_refused(refusal, text.named if text else None)
    return status


# ---- the command


def arguments() -> argparse.Namespace:
    """The words of the command line."""
    words, text = sys.argv[1:], named(__doc__ or "")
    flags = words[words.index("--") + 1 :] if "--" in words else []
    parser = Words(
        description=text,
        usage=text.split("usage: ")[1].split("\n\n")[0],
        formatter_class=argparse.RawDescriptionHelpFormatter,
    )
    parser.add_argument("files", metavar="FILTER [CAPTURE [OUT]]", nargs="*")
    parser.add_argument("-e", "--expression", metavar="EXPRESSION")
    for name in ("trace", "reasons", "all", "lru-as-hash"):
        parser.add_argument(f"--{name}", action="store_true")
    for name in ("maps", "maps-out", "limit", "hits", "section", "program", "btf"):
        parser.add_argument(f"--{name}")
    parser.add_argument("--to", choices=KINDS)
    parser.add_argument("--xdpvm", default=the_xdpvm())
    parser.add_argument("--clang", default="clang")
    given = parser.parse_intermixed_args(words[: words.index("--")] if "--" in words else words)
    given.flags = flags
    files = [None, *given.files] if given.expression is not None else given.files
    if not 1 <= len(files) <= 3:
        parser.error("the files are FILTER, or -e EXPRESSION, and then a CAPTURE and OUT, if they are wanted")
    given.filter, given.capture, given.out = (*files, None, None)[:3]
    given.asks_for_length = False
    given.kind = given.verdict = ""
    given.told = []
    if given.limit and not given.trace:
        parser.error("--limit goes with --trace")
    if (given.maps or given.maps_out or given.hits) and given.capture is None:
        parser.error("--maps, --maps-out and --hits go with a CAPTURE")
    if given.hits and not given.hits.endswith((".html", ".htm", ".info")):
        parser.error("--hits PAGE.html writes a page, and --hits FILE.info a file for lcov")
    return given


def judge_files(given: argparse.Namespace) -> None:
    """Refuses outputs that are read, or one for both."""
    read = [given.filter, given.capture, given.btf, given.maps]
    if given.out:
        refuse_inputs(given.out, read)
        given.kind = kind_of(given.out, given.to)
    written = [("OUT", given.out), ("--maps-out", given.maps_out), ("--hits", given.hits)]
    for at, (name, path) in enumerate(written):
        if path:
            refuse_inputs(path, read)
        for other, its in written[:at]:
            if path and its and os.path.realpath(path) == os.path.realpath(its):
                raise Failed(f"{path}: {other} and {name} are one file")
    if given.maps == "-" and given.capture == "-":
        raise Failed("standard input can be CAPTURE or MAPS, and not both")
    TOLD[0] = sys.stderr if "-" in (given.out, given.maps_out) else sys.stdout


def text_of(given: argparse.Namespace, folder: str) -> str:
    """The file of the program text of an expression."""
    path = os.path.join(folder, "expression.text")
    program = classic_program(compiled(given.expression))
    given.asks_for_length = asks_for_length(program)
    with open(path, "w", encoding="utf-8") as file:
        file.write(translated(program, given.expression, Options()))
    return path


def tried(given: argparse.Namespace, folder: str) -> int:
    """Verifies the filter, and runs it if there is a capture."""
    choice = Choice(given.xdpvm, given.section, given.program, given.clang, given.flags, given.btf, given.lru_as_hash)
    path = given.filter or text_of(given, folder)
    image, source = image_of(path, choice, folder)
    verdict = subprocess.run([given.xdpvm, "verify", image], capture_output=True, text=True, errors="replace", check=False)
    tell_refusal(source, verdict)
    given.verdict = verdict.stdout.partition("\n")[0]
    if given.capture is None or verdict.returncode and not given.trace:
        return verdict.returncode
    return run(given, image, source, folder)


def main() -> int:
    """Tries the filter; the exit status."""
    given = arguments()
    if not shutil.which(given.xdpvm):
        end(f"xdp.py: there is no program {given.xdpvm}; `bash install.sh FOLDER` makes one")
    end_by_signal()
    try:
        judge_files(given)
        with tempfile.TemporaryDirectory() as folder:
            return tried(given, folder)
    except TextRefused as refused:
        tell_place(refused)
        return refused.status
    except BrokenPipeError:
        os.dup2(os.open(os.devnull, os.O_WRONLY), 1)
        return 1
    except OSError as why:
        end(f"xdp.py: {said(why)}")
    except (Failed, NotTranslated, IsRead, struct.error) as why:
        end(f"xdp.py: {why}")


if __name__ == "__main__":
    sys.exit(main())
