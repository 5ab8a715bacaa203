#!/usr/bin/env python3
"""Makes the man pages and the shells' completions from what `--help` and `COMMAND --help` of the
programs say.

usage: python3 checks/manual.py [--check] [PROGRAM ..]

For xdpvm it writes docs/xdpvm.1, tools/completions/xdpvm.bash, _xdpvm (zsh) and xdpvm.fish, and for
xdpvm_survey and xdpvm_filter the files of their names. With --check nothing is written: each file has to be as it is
made, `man -l` and the shells, if they are installed, have to read it, and the status is 1 if one
does not. PROGRAM is a program that is asked, whose file has its name (the default:
those that `rt run` leaves in crates/).
"""
import os
import re
import shutil
import subprocess
import sys
import tempfile
from typing import NamedTuple

from common import TOP, built, command_line, text_of, there, write


class Argument(NamedTuple):
    """An argument of a command, and what it is."""

    name: str
    about: str


class Option(NamedTuple):
    """An option with its value, which may be None."""

    name: str
    value: str | None
    about: str


class Command(NamedTuple):
    """A command, or what the program does without one: its name is empty."""

    name: str
    about: str
    arguments: list[Argument]
    options: list[Option]


def help_of(program: str, *words: str) -> str:
    """What help says: on standard error with status 1, or on standard output with status 0."""
    ran = subprocess.run([program, *words, "--help"], capture_output=True, text=True, check=False)
    said = ran.stdout if ran.returncode == 0 else ran.stderr
    if ran.returncode not in (0, 1) or "Usage: " not in said:
        raise SystemExit(f"manual.py: {program} {' '.join(words)} --help has no help")
    return said


def rows(text: str, title: str) -> list[list[str]]:
    """The rows of a section of help: the left column, and the text about it."""
    found = re.search(rf"^{title}:\n((?:  .*\n)+)", text, re.M)
    return [re.split(r"  +", row.strip(), maxsplit=1) for row in found[1].splitlines()] if found else []


def command_of(program: str, name: str, about: str) -> Command:
    """A command, or what the program does without one: its name is empty."""
    text = help_of(program, *name.split())
    arguments = [Argument(left.strip("<>[]."), right) for left, right in rows(text, "Arguments")]
    options = []
    for left, right in rows(text, "Options"):
        found = there(re.fullmatch(r"(?:-\w, )?--([\w-]+)(?: <([^>]+)>)?", left))
        options.append(Option(found[1], found[2], right))
    return Command(name, about, arguments, [one for one in options if one.name not in ("help", "version")])


def read(program: str) -> tuple[str, list[Command]]:
    """What the program is for, and its commands."""
    text = help_of(program)
    commands = [command_of(program, name, about) for name, about in rows(text, "Commands") if name != "help"]
    about = text.splitlines()[0]
    if rows(text, "Arguments"):
        commands.insert(0, command_of(program, "", about))
    if not commands:
        raise SystemExit(f"manual.py: {program} names no commands and no arguments")
    return about, commands


# ---- the man page

STATUSES = {
    "xdpvm": (
        (0, "done"),
        (1, "invalid arguments, or help was asked for"),
        (2, "the text, the image, the program or the proof table is refused; standard error says why and where"),
        (3, "the report ends in a fault of the frame stream; standard error says which"),
        (4, "a file or an output cannot be read or written"),
        (5, "out of memory"),
    ),
    "xdpvm_survey": (
        (0, "all images are accepted"),
        (1, "invalid arguments, or help was asked for"),
        (2, "an image is refused"),
        (4, "a file or an output cannot be read or written"),
        (5, "out of memory"),
    ),
}
STATUSES["xdpvm_filter"] = (
    (0, "done"),
    (1, "invalid arguments"),
    (2, "the image, the program, the proof table or the text of the maps is refused; standard error says why and where"),
    (3, "the frame stream has a fault; standard error says which"),
    (4, "a file or an output cannot be read or written"),
    (5, "out of memory"),
)
PAGES = {
    "xdpvm": "docs/GUIDE.md and docs/REFUSALS.md",
    "xdpvm_survey": "docs/SURVEY.md and docs/REFUSALS.md",
    "xdpvm_filter": "docs/FORMATS.md and docs/REFUSALS.md",
}
OTHERS = {"xdpvm": ("xdpvm_filter", "xdpvm_survey"), "xdpvm_survey": ("xdpvm",), "xdpvm_filter": ("xdpvm",)}


def roff(text: str) -> str:
    """A text in roff's spelling."""
    text = text.replace("\\", "\\e").replace("-", "\\-")
    return re.sub(r"^([.'])", r"\\&\1", re.sub(r"`([^`]*)`", r"\\fB\1\\fR", text))


def flag(option: Option) -> str:
    """An option with its value, if it takes one."""
    return f"\\fB\\-\\-{roff(option.name)}\\fR" + (f" \\fI{roff(option.value)}\\fR" if option.value else "")


def upper(argument: Argument) -> str:
    return roff(argument.name if "|" in argument.name else argument.name.upper())


def synopsis(name: str, command: Command) -> str:
    words = [f"[{flag(one)}]" for one in command.options]
    words += [f"\\fI{upper(one)}\\fR" for one in command.arguments]
    return " ".join([f"\\fB{name} {command.name}".rstrip() + "\\fR", *words])


def manual(name: str, about: str, commands: list[Command]) -> str:
    """The man page of a program."""
    lines = [
        '.\\" Made by checks/manual.py of what the program says as its help.',
        f".TH {name.upper()} 1",
        ".SH NAME",
        f"{name} \\- {roff(about[0].lower() + about[1:])}",
        ".SH SYNOPSIS",
    ]
    for command in commands:
        lines += [synopsis(name, command), ".br"]
    lines[-1:] = [".SH COMMANDS"]
    for command in commands:
        lines += [".TP", f"\\fB{command.name or name}\\fR", roff(command.about) + "."]
        parts = [(f"\\fI{upper(one)}\\fR", one.about) for one in command.arguments]
        for left, right in parts + [(flag(one), one.about) for one in command.options]:
            lines += [".RS", ".TP", left, roff(right) + ".", ".RE"]
    lines += [".SH FILES", "A path may be \\fI/dev/stdin\\fR for what is read, and \\fI/dev/stdout\\fR for what is written."]
    lines += [".SH EXIT STATUS"]
    for status, meaning in STATUSES[name]:
        lines += [".TP", f"\\fB{status}\\fR", roff(meaning) + "."]
    others = ", ".join(f"\\fB{other}\\fR(1)" for other in OTHERS[name])
    lines += [".SH SEE ALSO", f"{PAGES[name]} of the sources; {others}, \\fBbpf\\fR(2), \\fBbpf\\-helpers\\fR(7)"]
    return "\n".join(lines) + "\n"


# ---- completions


def bash(name: str, commands: list[Command]) -> str:
    """The completions for bash."""
    lines = [
        f"# Completions of {name} for bash, made by checks/manual.py.",
        f"_{name}() {{",
        "    local word=${COMP_WORDS[COMP_CWORD]} command=${COMP_WORDS[1]}",
        "    COMPREPLY=()",
    ]
    own = [one for one in commands if not one.name]
    first = [one.name for one in commands if one.name] + [f"--{it.name}" for one in own for it in one.options]
    lines += [
        "    if ((COMP_CWORD == 1)); then",
        f'        mapfile -t COMPREPLY < <(compgen -W "{" ".join(first)} --help --version" {"-f " if own else ""}-- "$word")',
        "        return",
        "    fi",
        "    if [[ $word == -* ]]; then",
        "        case $command in",
    ]
    for command in commands[len(own) :] + own:
        flags = " ".join([f"--{one.name}" for one in command.options] + ["--help"])
        lines.append(f'        {command.name or "*"}) mapfile -t COMPREPLY < <(compgen -W "{flags}" -- "$word") ;;')
    lines += [
        "        esac",
        "        return",
        "    fi",
        '    mapfile -t COMPREPLY < <(compgen -f -- "$word")',
        "}",
        f"complete -o filenames -F _{name} {name}",
    ]
    return "\n".join(lines) + "\n"


def quoted(text: str) -> str:
    return text.replace("'", "'\\''")


def arguments_of(command: Command) -> str:
    """The arguments of zsh's _arguments for a command."""
    words = ["_arguments '--help[Print help]'"]
    for one in command.options:
        about = quoted(one.about).replace("[", "\\[").replace("]", "\\]")
        end = "_files" if one.value in ("TABLE", "FOLDER", "OLD.csv", "MAPS", "FILE") else ""
        words.append(f"'--{one.name}[{about}]" + (f":{one.value}:{end}'" if one.value else "'"))
    many = len(command.arguments) == 1 and not command.name
    words += [f"'{'*' if many else place}:{one.name}:_files'" for place, one in enumerate(command.arguments, 1)]
    return " ".join(words)


def zsh(name: str, commands: list[Command]) -> str:
    lines = [
        f"#compdef {name}",
        f"# Completions of {name} for zsh, made by checks/manual.py.",
        f"_{name}() {{",
        "    local -a commands",
        "    commands=(",
    ]
    own = [one for one in commands if not one.name]
    lines += [f"        '{one.name}:{quoted(one.about)}'" for one in commands if one.name]
    lines += ["    )", "    if ((CURRENT == 2)); then", "        _describe command commands"]
    lines += ["        _files"] if own else []
    lines += ["        return", "    fi", "    case $words[2] in"]
    for command in commands[len(own) :] + own:
        lines.append(f"    {command.name or '*'})")
        lines += ["        " + ("shift words; ((CURRENT--)); " if command.name else "") + arguments_of(command), "        ;;"]
    lines += ["    esac", "}", f'_{name} "$@"']
    return "\n".join(lines) + "\n"


def fish(name: str, commands: list[Command]) -> str:
    lines = [f"# Completions of {name} for fish, made by checks/manual.py."]
    for command in commands:
        when = f"'__fish_seen_subcommand_from {command.name}'" if command.name else "__fish_use_subcommand"
        if command.name:
            lines.append(f"complete -c {name} -n __fish_use_subcommand -f -a {command.name} -d '{quoted(command.about)}'")
        for one in command.options:
            lines.append(f"complete -c {name} -n {when} -l {one.name} {'-r ' if one.value else ''}-d '{quoted(one.about)}'")
    return "\n".join(lines) + "\n"


# ---- all


def made(program: str) -> dict[str, str]:
    name = os.path.basename(program)
    about, commands = read(program)
    return {
        f"docs/{name}.1": manual(name, about, commands),
        f"tools/completions/{name}.bash": bash(name, commands),
        f"tools/completions/_{name}": zsh(name, commands),
        f"tools/completions/{name}.fish": fish(name, commands),
    }


def is_read(name: str, *words: str) -> bool:
    """Whether a tool accepts its file, if the tool is installed."""
    if not shutil.which(words[0]):
        return True
    ran = subprocess.run(words, stdin=subprocess.DEVNULL, stdout=subprocess.PIPE, stderr=subprocess.STDOUT, text=True, check=False)
    if ran.returncode or "warning" in ran.stdout:
        print(f"{name}: {' '.join(words)}: {ran.stdout.strip()}")
        return False
    return True


COMPLETES = """\
source tools/completions/xdpvm.bash
source tools/completions/xdpvm_survey.bash
source tools/completions/xdpvm_filter.bash
COMP_WORDS=(xdpvm ver) COMP_CWORD=1; _xdpvm; echo "${COMPREPLY[@]}"
COMP_WORDS=(xdpvm trace --li) COMP_CWORD=2; _xdpvm; echo "${COMPREPLY[@]}"
COMP_WORDS=(xdpvm verify install.s) COMP_CWORD=2; _xdpvm; echo "${COMPREPLY[@]}"
COMP_WORDS=(xdpvm_survey log --sl) COMP_CWORD=2; _xdpvm_survey; echo "${COMPREPLY[@]}"
COMP_WORDS=(xdpvm_survey --fo) COMP_CWORD=1; _xdpvm_survey; echo "${COMPREPLY[@]}"
COMP_WORDS=(xdpvm_filter image frames out --che) COMP_CWORD=4; _xdpvm_filter; echo "${COMPREPLY[@]}"
"""


def check(files: dict[str, str]) -> bool:
    good = True
    for name, text in files.items():
        path = os.path.join(TOP, name)
        if not os.path.exists(path) or text_of(path) != text:
            print(f"{name}: it is not what checks/manual.py makes of the program's help")
            good = False
    os.chdir(TOP)
    with tempfile.NamedTemporaryFile("w", suffix=".bash") as script:
        script.write(COMPLETES)
        script.flush()
        found = subprocess.run(["bash", script.name], stdout=subprocess.PIPE, text=True, check=False).stdout.split()
    if found != ["verify", "--limit", "install.sh", "--slot", "--format", "--checked"]:
        print(f"tools/completions: the shell completes to {found}")
        good = False
    for name in files:
        words = {".1": ("man", "--warnings", "-l"), ".fish": ("fish", "-n"), "": ("zsh", "-n")}.get(os.path.splitext(name)[1])
        good &= not words or is_read(name, *words, name)
    return good


def main() -> None:
    words = command_line()
    words.add_argument("programs", nargs="*", metavar="PROGRAM", default=[built(name) for name in STATUSES])
    words.add_argument("--check", action="store_true")
    asked = words.parse_args()
    files = {}
    for program in asked.programs:
        if not os.path.exists(program):
            raise SystemExit(f"manual.py: there is no {program}")
        files.update(made(os.path.abspath(program)))
    if asked.check:
        sys.exit(0 if check(files) else 1)
    for name, text in files.items():
        os.makedirs(os.path.dirname(os.path.join(TOP, name)), exist_ok=True)
        write(os.path.join(TOP, name), text)


if __name__ == "__main__":
    main()
