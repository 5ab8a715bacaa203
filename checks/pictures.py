#!/usr/bin/env python3
"""Makes the pictures of the pages: the basic blocks of stored programs, and the crates, as Graphviz draws them.

usage: python3 checks/pictures.py [--check] [PROGRAM]

For each NAME below it writes docs/pictures/NAME.svg, from what `xdpvm_survey dis --dot
examples/NAME.image` prints; and docs/pictures/crates.svg, from crates.txt: an arrow leads from a crate to one that it builds
on, and one that others imply is left out. With --check nothing is written, each picture has to be the one that is
made, and the status is 1 if one is not. If there is no `dot`, or one of another version than the
one that drew a picture, only the labels of the blocks and the number of edges are compared. PROGRAM
is xdpvm_survey (the default: crates/xdpvm_survey/out/xdpvm_survey).
"""
import html
import os
import re
import shutil
import subprocess
import sys

from common import TOP, built, command_line, crates_below, text_of, there, write

Graph = dict[str, list[str]]
NAMES = ("guarded",)


def graph_of(program: str, name: str) -> str:
    """The graph of a stored program, in dot's language."""
    words = [program, "dis", "--dot", os.path.join(TOP, "examples", f"{name}.image")]
    return subprocess.run(words, stdout=subprocess.PIPE, text=True, check=True).stdout


def all_below(graph: Graph, crate: str, known: dict[str, set[str]]) -> set[str]:
    """The crates that a crate builds on, directly or not."""
    if crate not in known:
        known[crate] = set(graph[crate]).union(*(all_below(graph, it, known) for it in graph[crate]))
    return known[crate]


def graph_of_crates() -> str:
    """The crates in dot's language, without the arrows that others imply."""
    graph = crates_below()
    known: dict[str, set[str]] = {}
    lines = ["digraph crates {", '  node [shape=box, fontname="monospace"];', "  rankdir=BT;"]
    lines += [f'  {crate} [label="{crate}"];' for crate in graph]
    for crate, below in graph.items():
        implied = set().union(*(all_below(graph, it, known) for it in below))
        lines += [f"  {crate} -> {it};" for it in below if it not in implied]
    return "\n".join([*lines, "}", ""])


def drawn(graph: str) -> str | None:
    """The picture of a graph. None: there is no dot."""
    if not shutil.which("dot"):
        return None
    return subprocess.run(["dot", "-Tsvg"], input=graph, stdout=subprocess.PIPE, text=True, check=True).stdout


def version_of(picture: str) -> str:
    return there(re.search(r"graphviz version (\S+)", picture))[1]


def has_parts(picture: str, graph: str) -> bool:
    """Whether a picture has the lines of all blocks of a graph, in their order, or the crates in any, and as many edges."""
    labels = re.findall(r'label="((?:[^"\\]|\\.)*)"', graph)
    lines = [re.sub(r"\\(.)", r"\1", one) for label in labels for one in label.split("\\l") if one]
    texts = [html.unescape(one) for one in re.findall(r"<text[^>]*>(.*?)</text>", picture)]
    if graph.startswith("digraph crates"):
        texts, lines = sorted(texts), sorted(lines)
    return texts == lines and picture.count('class="edge"') == graph.count(" -> ")


def is_made(picture: str, graph: str) -> bool:
    again = drawn(graph)
    if again is None or version_of(again) != version_of(picture):
        return has_parts(picture, graph)
    return has_parts(picture, graph) and again == picture


def main() -> None:
    words = command_line()
    words.add_argument("program", nargs="?", default=built("xdpvm_survey"))
    words.add_argument("--check", action="store_true")
    asked = words.parse_args()
    if not os.path.exists(asked.program):
        raise SystemExit(f"pictures.py: there is no {asked.program}")
    good = True
    graphs = {name: graph_of(os.path.abspath(asked.program), name) for name in NAMES} | {"crates": graph_of_crates()}
    for name, graph in graphs.items():
        path = os.path.join(TOP, "docs/pictures", f"{name}.svg")
        if not asked.check:
            picture = drawn(graph)
            if picture is None:
                raise SystemExit("pictures.py: there is no dot (Debian: graphviz)")
            os.makedirs(os.path.dirname(path), exist_ok=True)
            write(path, picture)
        elif not os.path.exists(path) or not is_made(text_of(path), graph):
            print(f"docs/pictures/{name}.svg: it is not what checks/pictures.py makes")
            good = False
    sys.exit(0 if good else 1)


if __name__ == "__main__":
    main()
