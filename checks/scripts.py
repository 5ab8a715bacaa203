#!/usr/bin/env python3
"""Whether each script has a run: in the gate, or by hand with a row in docs/ASSURANCE.md that says when. And what black, mypy,
pylint and shellcheck find in all of them, where these are installed: pyproject.toml and .shellcheckrc have their settings.

usage: python3 checks/scripts.py [--anew]

A script is a file of attacks/, bench/, checks/, examples/, tests/ or tools/ that is called by itself. It has a run in the gate if
.ci/run, .ci/prove, the list of checks (checks/listed.py) or a case of tests/ calls it, or a script that they call does. The exit
status is 1 if one has neither, if a row names none, if the page lacks a row of `python3 -m attacks --table`, or if one of the four
finds something. Where they found nothing they are not asked again about a file until it changes, or a script that it imports,
a setting or a version (noted in ~/.cache/xdpvm_scripts; --anew asks all the same). In the gate.
"""
import hashlib
import os
import re
import shutil
import subprocess
import sys

from common import TOP, bytes_of, command_line, said_by, write
from listing import PAGE, page

KEPT = os.path.join(os.environ.get("XDG_CACHE_HOME") or os.path.expanduser("~/.cache"), "xdpvm_scripts/sums")
MOST_KEPT = 10_000
SETTINGS = ("pyproject.toml", ".shellcheckrc", "checks/scripts.py")
IMPORTS = re.compile(r"^\s*(?:from|import) (.*)", re.M)
JOBS = str(len(os.sched_getaffinity(0)))
# How each is called, and the ending of its files; those of .ci are for the shell.
LINTERS = (
    (["black", "--quiet", "--check"], ".py"),
    (["mypy", "--no-error-summary"], ".py"),
    (["pylint", "--rcfile=pyproject.toml", "--score=n", "--jobs", JOBS], ".py"),
    (["shellcheck"], ".sh"),
)
FOLDERS = ("attacks", "bench", "checks", "examples", "tests", "tools")
ROW = re.compile(r"^\| ((?:`[\w/]+\.\w+`(?:, )?)+) \| \d{1,2} [A-Z][a-z]+ 20\d\d \|", re.M)


def text_of(path: str) -> str:
    return bytes_of(os.path.join(TOP, path)).decode()


def tracked(*names: str) -> list[str]:
    """The files of the tree that are below one of these names, or match it."""
    words = ["git", "ls-files", "-co", "--exclude-standard", "--", *names]
    listed = subprocess.run(words, cwd=TOP, capture_output=True, text=True, check=True)
    return [path for path in listed.stdout.split() if os.path.exists(os.path.join(TOP, path))]


def code_of(text: str) -> str:
    """A script without its comments and its first words, which may name others."""
    text = re.sub(r'\A(#!.*\n)?"""[\s\S]*?"""', "", text)
    return "\n".join(line for line in text.splitlines() if not line.lstrip().startswith("#"))


def scripts() -> list[str]:
    """The files of the folders that are called by themselves."""
    found = []
    for path in tracked(*FOLDERS):
        if path.endswith((".py", ".sh")):
            text = text_of(path)
            if text.startswith("#!") and (
                path.endswith(".sh") or "__main__" in text or re.search(r"^(main\(|sys\.exit\(main)", text, re.M)
            ):
                found.append(path)
    return found


def in_gate(every: list[str]) -> set[str]:
    """The scripts that the gate calls, directly or by one that it calls."""
    found: set[str] = set()
    waiting = [".ci/run", ".ci/prove", "checks/listed.py", "checks/__main__.py", *tracked("tests/*.case")]
    while waiting:
        text = code_of(text_of(waiting.pop()))
        for path in every:
            name = os.path.basename(path)
            called = rf"(?<![\w.]){re.escape(name)}(?![\w.])|^import {re.escape(name[:-3])}$"
            if path not in found and re.search(called, text, re.M):
                found.add(path)
                waiting.append(path)
    return found


def apart(paths: list[str]) -> list[list[str]]:
    """The files in lists in which no two have one name: to mypy each is a module of that name."""
    lists: list[dict[str, str]] = []
    for path in paths:
        name = os.path.basename(path)
        free = next((it for it in lists if name not in it), None)
        if free is None:
            free = {}
            lists.append(free)
        free[name] = path
    return [list(it.values()) for it in lists]


def imported(path: str, named: dict[str, str]) -> set[str]:
    """A script, and those that it imports, directly or by one that it imports; `named` has their paths by their names."""
    found, waiting = {path}, [path]
    while waiting:
        for names in IMPORTS.findall(text_of(waiting.pop())):
            its = {named[it] for it in re.findall(r"\w+", names) if it in named} - found
            found |= its
            waiting += its
    return found


def sums_of(files: list[str], base: bytes) -> dict[str, str]:
    """A sum of each file and of all that is found in it may rest on: `base`, and what it imports."""
    named = {os.path.basename(it)[:-3]: it for it in files if it.endswith(".py")}
    own = {it: hashlib.sha256(bytes_of(os.path.join(TOP, it))).hexdigest() for it in files}
    found = {}
    for path in files:
        parts = [f"{it} {own[it]}" for it in sorted(imported(path, named) if path.endswith(".py") else [path])]
        found[path] = hashlib.sha256(base + "\n".join([path, *parts]).encode()).hexdigest()
    return found


def kept() -> list[str]:
    """The sums of files in which nothing was found."""
    return bytes_of(KEPT).decode().split() if os.path.exists(KEPT) else []


def linted(is_anew: bool) -> tuple[list[str], str]:
    """What the linters find, and a sentence on what was asked."""
    there = [words for words, _ in LINTERS if shutil.which(words[0])]
    lacking = [words[0] for words, _ in LINTERS if words not in there]
    files = {".py": tracked("*.py"), ".sh": tracked("*.sh", ".ci/*")}
    versions = "".join(said_by([words[0], "--version"])[1] for words in there)
    base = versions.encode() + b"".join(bytes_of(os.path.join(TOP, it)) for it in SETTINGS)
    sums, earlier = sums_of([*files[".py"], *files[".sh"]], base), [] if is_anew else kept()
    asked = {ending: [it for it in its if sums[it] not in earlier] for ending, its in files.items()}
    told = f"{', '.join(words[0] for words in there) or 'nothing'} asked of {len(files['.py'])} and {len(files['.sh'])} files, "
    told += f"of {sum(map(len, asked.values()))} in this run" + (f"; not installed: {', '.join(lacking)}" if lacking else "")
    found = []
    for words, ending in LINTERS:
        for some in apart(asked[ending]) if words in there else []:
            status, said = said_by([*words, *some], TOP)
            found += [f"{words[0]} ended with status {status}:\n{said.rstrip()}"] if status else []
    if not found and any(asked.values()):
        os.makedirs(os.path.dirname(KEPT), exist_ok=True)
        write(f"{KEPT}.{os.getpid()}", "\n".join([*dict.fromkeys([*kept(), *sums.values()])][-MOST_KEPT:]) + "\n")
        os.replace(f"{KEPT}.{os.getpid()}", KEPT)
    return found, told


def main() -> int:
    parser = command_line()
    parser.add_argument("--anew", action="store_true")
    given = parser.parse_args()
    every = scripts()
    tried = in_gate(every)
    told = [path for row in ROW.findall(text_of("docs/ASSURANCE.md")) for path in re.findall("`(.*?)`", row)]
    wrong = [
        f"{path}: no run in the gate, and no row in docs/ASSURANCE.md" for path in every if path not in tried and path not in told
    ]
    wrong += [f"docs/ASSURANCE.md: there is no script {path}" for path in told if path not in every]
    wrong += ["docs/ASSURANCE.md: its rows of attacks are not those of `python3 -m attacks --write`"] * (PAGE.read_text() != page())
    found, asked = linted(given.anew)
    wrong += found
    print(
        "\n".join(
            wrong
            + [
                f"{asked}: {len(found)} find something",
                f"{len(every)} scripts, {len(tried)} of them in the gate, {len(told)} by hand",
            ]
        )
    )
    return 1 if wrong else 0


if __name__ == "__main__":
    sys.exit(main())
