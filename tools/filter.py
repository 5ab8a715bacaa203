#!/usr/bin/env python3
"""Turns an expression of tcpdump into a program text: what the expression matches passes, the rest is dropped.

usage: python3 tools/filter.py EXPRESSION [TEXT] [--match ACTION] [--other ACTION] [--reason N] [--turns N]
       python3 tools/filter.py --classic FILE [TEXT] ..

The expression, in one word (see pcap-filter(7)), is compiled by `tcpdump -y EN10MB -ddd` (4.99 or later) into a
program of the classic packet filter, and each of its instructions becomes a few of ours, with the classic one as a
comment. With --classic it is read from FILE (- is standard input), which `tcpdump -y EN10MB -ddd EXPRESSION` wrote on
another machine, so that no tcpdump is needed here. TEXT gets the program text; without it the text is printed.

A frame that is too short for a field that the expression reads does not match, as with tcpdump. `len`, `less` and
`greater` mean the bytes of the frame that are there: of a frame that was cut when it was captured tcpdump takes the
length on the wire. `ifindex N` is the interface of the frame; `inbound` and `outbound` are refused, since every frame
of XDP comes in. The link type is Ethernet, which is that of every frame stream.

--match and --other name the two actions (ABORTED, DROP, PASS, TX; PASS and DROP if they are not given). With --reason
N the text is of version 2, and frames that do not match are dropped with that reason. --turns N is how many headers
`protochain` follows at most (64, which Linux takes too; up to 1152, as many as a frame can hold).

examples:
    python3 tools/filter.py 'udp port 53' dns.text
    python3 tools/filter.py --reason 7 'vlan and host 10.0.0.1' > vlan.text
    tcpdump -y EN10MB -ddd 'tcp[tcpflags] & tcp-syn != 0' | python3 tools/filter.py --classic - syn.text

xdp.py -e EXPRESSION runs one on a capture. The exit status is 0, or 1 with a message: libpcap's words, or why it
cannot be translated; then no text is written. """
import argparse
import os
import sys
from collections.abc import Callable

from classic import Failed, classic_program
from expressions import TURNS, Options, of_expression, translated
from failures import Words, end, said
from inputs import named
from outputs import IsRead, end_by_signal, write_whole
from program_text import ACTIONS, SENT

MOST_REASON = (1 << 32) - 1
MOST_TURNS = 1152
MOST_BYTES = 1 << 20  # of what tcpdump writes


def number_to(most: int) -> Callable[[str], int]:
    """A number from 0 to the greatest that is possible, as argparse takes it."""

    def number(word: str) -> int:
        if not word.isascii() or not word.isdigit() or int(word) > most:
            raise argparse.ArgumentTypeError(f"{word!r}: a number from 0 to {most} is wanted")
        return int(word)

    return number


def arguments() -> argparse.Namespace:
    text = named(__doc__ or "")
    usage = text.split("\n\n")[1].removeprefix("usage: ")
    parser = Words(description=text, usage=usage, formatter_class=argparse.RawDescriptionHelpFormatter)
    parser.add_argument("words", nargs="*", help=argparse.SUPPRESS)
    parser.add_argument("--classic", metavar="FILE")
    parser.add_argument("--match", choices=ACTIONS, default="PASS")
    parser.add_argument("--other", choices=ACTIONS, default="DROP")
    parser.add_argument("--reason", metavar="N", type=number_to(MOST_REASON))
    parser.add_argument("--turns", metavar="N", type=number_to(MOST_TURNS), default=TURNS)
    given = parser.parse_intermixed_args()
    words = given.words
    given.expression = words.pop(0) if given.classic is None and words else None
    if given.classic is None and given.expression is None or len(words) > 1:
        parser.error("one EXPRESSION is wanted, in quotes, or --classic FILE, and then at most one TEXT")
    if given.reason is not None and ACTIONS[given.other] in SENT:
        parser.error("--reason says why a frame is dropped, and --other sends it on")
    given.text = words[0] if words else "-"
    return given


def text_of(given: argparse.Namespace) -> str:
    options = Options(ACTIONS[given.match], ACTIONS[given.other], given.reason, given.turns)
    if given.classic is None:
        return of_expression(given.expression, options)
    with open(0 if given.classic == "-" else given.classic, "rb", closefd=given.classic != "-") as file:
        said = file.read(MOST_BYTES).decode(errors="replace")
    return translated(
        classic_program(said),
        f"Made by filter.py of the classic program {'on standard input' if given.classic == '-' else given.classic}",
        options,
    )


def main() -> int:
    given = arguments()
    end_by_signal()
    try:
        write_whole(given.text, text_of(given).encode(), [given.classic])
    except BrokenPipeError:
        os.dup2(os.open(os.devnull, os.O_WRONLY), 1)
        return 1
    except OSError as why:
        end(f"filter.py: {said(why, 'standard output')}")
    except (Failed, IsRead) as why:
        end(f"filter.py: {why}")
    return 0


if __name__ == "__main__":
    sys.exit(main())
