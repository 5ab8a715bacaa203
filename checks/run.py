#!/usr/bin/env python3
"""Tries wrong bodies (edits): each must be refused by the prover. Prints those that are not.

usage: python3 checks/run.py [--gate] [--fit] [--libraries FOLDER [--told FILE]] [--anew] [CRATE ..]

The edits of the gate are crates/CRATE/must-fail/NAME.edit; without --gate those are tried that the gate has no time for,
assurance/CRATE/NAME.edit; of each named crate, or of all. Edits of different functions share a check: a copy of the crate has
all of their changes, and only the changed functions are checked, over the contracts of the others, whose bodies and proofs
are left out; rt ci proves those. An edit is refused if a goal of its own function is not proved. It does not count that a proof
file names what the edit removed. What is not seen to be refused is tried once more by itself, and printed at once.

The libraries below a crate are those in crates/*/out/rlib of FOLDER, in which `rt ci` ran. Where it still runs, FILE has what
it has printed so far, and a crate is tried once all that it builds on is proved. Without FOLDER the libraries are built in a
copy, with `rt lib`. An edit that was refused is not tried again until it, the sources of its crate, those below or these
scripts change (noted in ~/.cache/xdpvm_edits; --anew tries it all the same). With --fit nothing is proved: an edit, of the
gate or not, that cannot be made is printed. The last line counts; the exit status is 0 if every edit was refused, or can
be made, else 1.
"""
import concurrent.futures
import functools
import glob
import hashlib
import os
import re
import shutil
import subprocess
import sys
import tempfile
import time
from collections.abc import Collection, Iterable, Iterator

import common
from common import TOP, text_of, there
import edits

KIT = os.path.dirname(os.path.dirname(os.path.realpath(shutil.which("rt") or "/opt/rattle/bin/rt")))
KEPT = os.path.join(os.environ.get("XDG_CACHE_HOME") or os.path.expanduser("~/.cache"), "xdpvm_edits")
PARTS = ("src", "specs", "proofs")
# GB that one check may take.
MEMORY = 2.5
Verdict = tuple[str, str | None]  # an edit's path, and what is said of it if it is not refused


BELOW = common.crates()


def all_below(crate: str) -> list[str]:
    """The crates of this repository that a crate builds on, directly or not."""
    found = [it for it in BELOW[crate] if it in BELOW]
    for it in found:
        found += [more for more in all_below(it) if more not in found]
    return found


def edits_of(crate: str, in_gate: bool) -> list[str]:
    folder = f"crates/{crate}/must-fail" if in_gate else f"assurance/{crate}"
    return sorted(glob.glob(f"{TOP}/{folder}/*.edit"))


def words(crate: str, libraries: str) -> list[str]:
    """The words of a check of a crate, over libraries that are built."""
    is_program = os.path.isfile(f"{TOP}/crates/{crate}/src/main.rt")
    given = ["--crate-name", crate, "src/main.rt" if is_program else "src/lib.rt", "-L", f"dependency={KIT}/rlibs"]
    for name in ["std", *BELOW[crate]]:
        at = f"{libraries}/crates/{name}/out/rlib" if name in BELOW else f"{KIT}/rlibs"
        given += ["--extern", f"{name}={at}/{name}.rlib"]
    for name in all_below(crate):
        given += ["-L", f"dependency={libraries}/crates/{name}/out/rlib"]
    logic = ["--antt-project", f"{KIT}/rattle/logic/antt-project.json", "--logic-built", f"{KIT}/logic_built"]
    return [*given, *logic, "--links", f"{crate}=", "--jobs", "1"]


def leave_open(room: str, crate: str, tried: Collection[str]) -> None:
    """Takes all functions but those that are tried by their contracts: their proofs are left open, and their bodies are emptied."""
    for file, first, last, folder in list(edits.open_functions(room)):
        name = folder.replace("/", "::")
        if any(name == it or name.endswith("::" + it) for it in tried):
            continue
        common.write(f"{room}/{file}", edits.emptied(text_of(f"{room}/{file}"), first, last))
        at = f"{room}/proofs/{folder}"
        os.makedirs(at, exist_ok=True)
        for file in ("Answers.antt", "Invariants.antt"):
            if os.path.isfile(f"{at}/{file}"):
                os.remove(f"{at}/{file}")
        own = folder.rpartition("/")[2]
        head = f"use Rattle.{crate}.proofs.{folder.replace('/', '.')}.Statement.{{statement}}\n\n"
        common.write(f"{at}/Proof.antt", f"{head}pub {own}_spec : {{M : Type 1}} → statement M\n{own}_spec = ?\n")


def check(crate: str, texts: dict[str, str], tried: Collection[str], libraries: str, made: str) -> list[str]:
    """Checks these functions of a crate with these texts, and returns what the check printed; made has what was proved."""
    with tempfile.TemporaryDirectory(prefix="edits-") as room:
        for part in PARTS:
            if os.path.isdir(f"{TOP}/crates/{crate}/{part}"):
                shutil.copytree(f"{TOP}/crates/{crate}/{part}", f"{room}/{part}")
        for file, text in texts.items():
            common.write(f"{room}/{file}", text)
        leave_open(room, crate, tried)
        only = [word for name in sorted(tried) for word in ("--only", name)]
        command = [f"{KIT}/bin/rattle", "check", *words(crate, libraries), *only, "--allow-holes", "--incremental", made]
        ran = subprocess.run(
            command, cwd=room, stdin=subprocess.DEVNULL, stdout=subprocess.PIPE, stderr=subprocess.STDOUT, check=False
        )
        return ran.stdout.decode(errors="replace").splitlines()


@functools.cache
def functions_of(crate: str) -> set[str]:
    """The names of the functions of a crate."""
    return edits.all_functions(f"{TOP}/crates/{crate}")


def unfit(crate: str, paths: list[str]) -> tuple[dict[str, str], str | None]:
    """The texts of the files that these edits change together, and why they cannot be made, or None."""
    folder = f"{TOP}/crates/{crate}"
    texts, why = edits.edited(folder, [it for path in paths for it in edits.changes(path)])
    for path in () if why else paths:
        names = edits.changed_functions(folder, path)[0]
        if not names:
            why = "it changes no function, and no line '# refused in: FUNCTION' names one"
        elif not names <= functions_of(crate):
            why = f"there is no function {min(names - functions_of(crate))}"
    return texts, why


def try_together(crate: str, listed: list[tuple[str, set[str]]], libraries: str, made: str) -> dict[str, str]:
    """What is said of each of these edits that is not refused, by its path below the top."""
    texts, why = unfit(crate, [path for path, _ in listed])
    if why:
        return {path: why for path, _ in listed}
    said = check(crate, texts, set().union(*(names for _, names in listed)), libraries, made)
    wrong = [it for it in said if re.search(r"error\[[\w-]+\]|rattle: error", it)]
    last = (wrong or [it for it in said if it.startswith("fn ") and "depends on a hole" not in it] or said or ["nothing"])[0]
    return {path: last[:200] for path, names in listed if not any(edits.refusal(crate, it, said, texts) for it in names)}


def try_listed(crate: str, listed: list[tuple[str, set[str]]], libraries: str, made: str) -> Iterator[Verdict]:
    """Judges edits that are checked together. Those that are not seen to be refused are tried again, each by itself; by halves if
    that is none, as where one does not compile."""
    left = try_together(crate, listed, libraries, made)
    again = [it for it in listed if it[0] in left and len(listed) > 1]
    yield from ((path, left.get(path)) for path, _ in listed if path not in left or not again)
    half = len(again) // 2
    for part in [again[:half], again[half:]] if len(again) == len(listed) else [[it] for it in again]:
        yield from try_listed(crate, part, libraries, made) if part else ()


def try_crate(crate: str, paths: list[str], libraries: str) -> Iterator[Verdict]:
    """Judges edits of a crate, and prints those that are not refused, each at once."""
    with tempfile.TemporaryDirectory(prefix="edits-made-") as made:
        for listed in edits.in_rounds(f"{TOP}/crates/{crate}", paths):
            for path, why in try_listed(crate, listed, libraries, made):
                if why:
                    print(f"{os.path.relpath(path, TOP)}: NOT REFUSED: {why}", flush=True)
                yield path, why


def sum_of(crate: str) -> str:
    """A sum of all but the edit that a verdict on an edit of a crate rests on."""
    sums = hashlib.sha256(text_of(f"{KIT}/KIT-ID").encode())
    own = [f"{TOP}/checks/{name}" for name in ("run.py", "edits.py")]
    for it in sorted([crate, *all_below(crate)]):
        sums.update(f"{it}: {BELOW[it]}\n".encode())
        folders = [f"{TOP}/crates/{it}/{part}" for part in PARTS]
        own += [f"{at}/{name}" for folder in folders for at, _, names in os.walk(folder) for name in names]
    for path in sorted(own):
        with open(path, "rb") as file:
            sums.update(f"{os.path.relpath(path, TOP)}\n".encode() + hashlib.sha256(file.read()).digest())
    return sums.hexdigest()


def judged(crate: str, paths: list[str], libraries: str, anew: bool) -> dict[str, str]:
    """What is said of the edits of a crate that are not refused. Those that an earlier run refused are not tried."""
    began, rest = time.time(), sum_of(crate)
    marks = {path: f"{KEPT}/{hashlib.sha256((rest + text_of(path)).encode()).hexdigest()}" for path in paths}
    new = [path for path in paths if anew or not os.path.isfile(marks[path])]
    if not new:
        print(f"{crate}: {len(paths)} edits refused by an earlier run, and nothing has changed since", flush=True)
        return {}
    os.makedirs(KEPT, exist_ok=True)
    left = {}
    for path, why in try_crate(crate, new, libraries):
        if why:
            left[path] = why
        else:
            common.write(marks[path], "")
    print(f"{crate}: {len(paths) - len(left)} of {len(paths)} edits refused, {time.time() - began:.0f} s", flush=True)
    return left


def build_libraries(room: str, crates: Iterable[str]) -> None:
    """Copies the repository, and builds what these crates build on."""
    for name in ("crates.txt", "HANDLES"):
        shutil.copy(f"{TOP}/{name}", room)
    for crate in BELOW:
        shutil.copytree(f"{TOP}/crates/{crate}", f"{room}/crates/{crate}", ignore=shutil.ignore_patterns("must-fail"))
    needed = {it for crate in crates for it in all_below(crate)}
    for crate in (it for it in BELOW if it in needed):
        if subprocess.run(["rt", "lib"], cwd=f"{room}/crates/{crate}", stdout=subprocess.DEVNULL, check=False).returncode:
            sys.exit(f"{crate} is not proved, so nothing above it can be tried")


def proved_in(told: str) -> tuple[set[str], bool]:
    """The crates that rt ci says are proved, in what it has printed so far; and whether it has ended."""
    text = text_of(told)
    proved = set(re.findall(r"(?m)^rt: (\w+) (?:proved|is kept:)", text))
    return proved, re.search(r"(?m)^\d+ passed, \d+ failed", text) is not None


def lanes(is_shared: bool) -> int:
    """How many checks may run at once; where they share the machine with rt ci, in half of its memory."""
    free = int(there(re.search(r"MemAvailable: +(\d+)", text_of("/proc/meminfo")))[1]) / 1e6
    return max(1, min(len(os.sched_getaffinity(0)), int(free / MEMORY / (2 if is_shared else 1))))


def in_order(given: dict[str, list[str]]) -> list[str]:
    """The crates with edits, those first that take longest: the size of the code, and so much for each edit."""

    def cost(crate: str) -> int:
        folder = f"{TOP}/crates/{crate}"
        return sum(os.path.getsize(f"{folder}/{file}") for file in edits.source_files(folder)) + 10_000 * len(given[crate])

    return sorted(given, key=cost, reverse=True)


def try_all(given: dict[str, list[str]], libraries: str, told: str | None, anew: bool) -> dict[str, str]:
    """What is said of the edits that are not refused. With told, a crate is tried once rt ci has proved all that it builds on."""
    waiting, left = in_order(given), {}
    running: set[concurrent.futures.Future[dict[str, str]]] = set()
    most, began = lanes(told is not None), time.time()
    with concurrent.futures.ThreadPoolExecutor(most) as pool:
        while waiting or running:
            proved, has_ended = proved_in(told) if told else (set(BELOW), True)
            ready = [it for it in waiting if proved.issuperset(all_below(it))]
            if has_ended and not ready and not running:
                left.update({path: "what its crate builds on is not proved" for it in waiting for path in given[it]})
                print(*(f"{it}: not tried: what it builds on is not proved" for it in waiting), sep="\n")
                break
            for crate in ready[: most - len(running)]:
                waiting.remove(crate)
                running.add(pool.submit(judged, crate, given[crate], libraries, anew))
            done, running = concurrent.futures.wait(running, timeout=1, return_when=concurrent.futures.FIRST_COMPLETED)
            if not done and not running:
                time.sleep(1)
            for it in done:
                left.update(it.result())
    print(f"the edits took {time.time() - began:.0f} s", flush=True)
    return left


def main() -> None:
    parser = common.command_line()
    parser.add_argument("crates", nargs="*", metavar="CRATE")
    parser.add_argument("--gate", action="store_true", help="the edits of the gate, in crates/CRATE/must-fail")
    parser.add_argument("--fit", action="store_true", help="only see whether each edit can be made")
    parser.add_argument("--libraries", metavar="FOLDER", help="a copy of this repository in which rt ci ran, or runs")
    parser.add_argument("--told", metavar="FILE", help="what rt ci has printed so far, where it runs")
    parser.add_argument("--anew", action="store_true", help="try those, too, that an earlier run refused")
    words_given = parser.parse_args()
    unknown = [it for it in words_given.crates if it not in BELOW]
    if unknown:
        sys.exit(f"there is no crate {unknown[0]}")
    crates = words_given.crates or list(BELOW)
    kinds = (True, False) if words_given.fit else (words_given.gate,)
    given = {crate: [path for kind in kinds for path in edits_of(crate, kind)] for crate in crates}
    given = {crate: paths for crate, paths in given.items() if paths}
    if words_given.fit:
        tried = {path: unfit(crate, [path])[1] for crate in given for path in given[crate]}
        left = {path: why for path, why in tried.items() if why}
        print(*(f"{os.path.relpath(path, TOP)}: cannot be made: {why}\n" for path, why in left.items()), sep="", end="")
    elif words_given.libraries:
        left = try_all(given, os.path.abspath(words_given.libraries), words_given.told, words_given.anew)
    else:
        with tempfile.TemporaryDirectory(prefix="libraries-") as room:
            build_libraries(room, given)
            left = try_all(given, room, None, words_given.anew)
    print(f"{sum(map(len, given.values()))} edits, {len(left)} {'that cannot be made' if words_given.fit else 'not refused'}")
    sys.exit(1 if left else 0)


if __name__ == "__main__":
    main()
