"""The checks, in the order in which they are listed. The dearest begin first; one that measures time runs alone, at the end."""
from dataclasses import dataclass
from pathlib import Path

TOP = Path(__file__).resolve().parent.parent


@dataclass(frozen=True)
class Check:
    """A command that ends with status 0 where all is as it is to be. `seconds` is about what it takes of processors, on a
    busy machine. Status 77 is that it cannot be tried here, where `skips` says that this may be."""

    name: str
    command: str
    about: str
    seconds: int = 1
    skips: bool = False
    alone: bool = False


CHECKS = (
    Check("guide", "python3 checks/guide.py", "every example of the pages, on the program; that links lead somewhere", 14),
    Check("tour", "python3 checks/tour.py", "the changes of TOUR.md: what the prover says of each", 35),
    Check(
        "cases",
        "python3 tests/cases.py",
        "cases that are written by hand: what the programs write to each output and file, and their status; verdicts, bounds and "
        "runs; what is said of wrong inputs",
        33,
    ),
    Check("entries", "python3 checks/entries.py", "whether `xdpvm explain` prints what REFUSALS.md says of each code", 1),
    Check("cases_runner", "python3 checks/test_cases.py", "that the runner of cases finds each difference", 1),
    Check("edits_fit", "python3 checks/run.py --fit", "whether the text that each edit replaces is still there", 1),
    Check(
        "near",
        "python3 -m checks near flatmem::get16 flatmem::get64",
        "that functions are proved and their edits tried by themselves",
        25,
    ),
    Check("laws", "python3 checks/laws.py", "which laws are in specs/ without need", 2),
    Check("names", "python3 checks/names.py", "which public names mean different things in two crates", 2),
    Check(
        "file_map",
        "python3 checks/file_map.py --check",
        "whether the map of the crates agrees with the tree, and each file says what it has",
        2,
    ),
    Check(
        "readmes",
        "python3 checks/readmes.py",
        "whether each crate has a README of at most 40 lines, and clauses and names that pages name exist",
        7,
    ),
    Check("hygiene", "python3 checks/hygiene.py", "what makes proofs hard to keep: it may only become less", 3),
    Check("imports", "python3 checks/imports.py", "that what many proofs of a crate cite is imported from one file", 2),
    Check("trusted", "python3 checks/trusted.py", "which definitions the promise rests on", 2),
    Check(
        "scripts",
        "python3 checks/scripts.py",
        "that each script has a run, and what black, mypy, pylint and shellcheck find",
        3,
    ),
    Check("script_tests", "python3 checks/test_scripts.py", "the checks of the tree and the attacks on small cases", 8),
    Check("serving", "python3 checks/test_serving.py", "that a script which is served to checks does as where Python starts it", 3),
    Check("limits", "python3 checks/limits.py", "which numbers stand for a limit and do not cite its name", 2),
    Check("version", "python3 checks/version.py", "that the version is the same wherever it stands", 1),
    Check("header", "python3 checks/header.py", "the declarations for C and Rust against the exports of the library", 1),
    Check(
        "embedding",
        "bash examples/embed/build.sh --short",
        "the library, called from C and Rust on every image in examples/, with each request for memory refused in turn",
        6,
    ),
    Check("installation", "bash checks/installation.sh", "install.sh into a fresh folder, and what a user runs there", 5),
    Check("releases", "bash checks/releases.sh", "the archives of a release, tried without the toolchain", 8),
    Check("tools", "python3 checks/test_tools.py", "frames.py, image.py, table.py and xdp.py on small cases", 6),
    Check(
        "pages",
        "python3 checks/test_hits.py",
        "what xdp.py --hits and xdpvm_survey log --html write: counts, what genhtml reads of them, what HTML Tidy says of pages",
        4,
    ),
    Check(
        "filled_maps",
        "python3 checks/test_maps.py",
        "what maps begin with: variables and constants of objects, the file of maps beside an image, the options of xdp.py",
        2,
    ),
    Check(
        "contents",
        "python3 tests/contents.py",
        "random programs on maps that are filled: two runs over halves of a stream against one, with checks and without, and by "
        "Linux; damaged texts of maps against a judge in Python",
        8,
    ),
    Check("objects_made", "python3 checks/test_object.py", "objects for Linux, made and read", 8),
    Check("files", "python3 checks/test_files.py", "that no tool writes over a file that it reads, and that outputs are whole", 6),
    Check(
        "objects_run",
        "python3 tests/object_files.py",
        "stored objects of clang 14, 16, 19 and gcc 12: their verdicts, and runs against their C, compiled here, and against Linux",
        12,
    ),
    Check(
        "damaged_captures",
        "python3 attacks/damage_captures.py --count 500",
        "damaged captures: the packets before the damage, and then the fault with its offset",
        8,
    ),
    Check("damage", "python3 attacks/damage_tools.py --each 20", "damaged objects, captures and texts", 3),
    Check("manual", "python3 checks/manual.py --check", "the man pages and completions against what --help says", 2),
    Check("pictures", "python3 checks/pictures.py --check", "the pictures of the pages against what they show", 1),
    Check(
        "captures", "python3 tests/captures.py", "generated captures against Wireshark's stored packets, and against Wireshark", 4
    ),
    Check("expressions", "python3 tests/tcpdump.py", "filters of tcpdump's expressions against stored results of tcpdump", 12),
    Check(
        "terminal",
        "python3 attacks/terminal.py",
        "what a terminal shows while a command takes over a second",
        8,
        skips=True,
    ),
    Check("devices", "python3 attacks/devices.py", "that files on two devices are two", 1, skips=True),
    Check(
        "pipes",
        "python3 attacks/pipes.py",
        "that each frame is handed on before the next one is waited for, with a slow writer within 50 ms",
        1,
    ),
    Check(
        "endless",
        "python3 attacks/endless.py",
        "that tables, texts and earlier surveys without an end are refused as their first bytes are, within a second and 5 MB",
        8,
    ),
    Check(
        "worst_keys",
        "python3 attacks/hostile_inputs.py crates/xdpvm/out/xdpvm worst_keys",
        "that a map of 65,536 keys of one hash is filled within 0.3 seconds, and a call with one takes 3 microseconds",
        3,
        alone=True,
    ),
    Check(
        "traced",
        "python3 attacks/hostile_inputs.py crates/xdpvm/out/xdpvm traced",
        "that a traced frame on a full map takes half a second, whatever keys come and go and whatever it loads",
        3,
    ),
    Check(
        "outputs",
        "python3 attacks/hostile_inputs.py crates/xdpvm/out/xdpvm outputs",
        "that a small image with a large table and a long log takes seconds and 100 MB",
        8,
    ),
    Check(
        "hostile",
        "python3 attacks/hostile.py crates/xdpvm/out/xdpvm --few",
        "that the images which keep `verify` busy longest, or take most memory, take at most 30 seconds and 300 MB",
        16,
    ),
    Check("failures", "python3 attacks/break.py --few", "what comes of memory, reads and writes that fail, on three programs", 8),
    Check(
        "stack",
        "python3 attacks/stack.py",
        "that each command needs at most 512 KB of the machine's stack, and the library 256 for an explanation",
        9,
    ),
    Check("survey_failures", "python3 attacks/break_survey.py", "the same of the survey", 16),
    Check(
        "hits",
        "python3 attacks/hits_sweep.py --programs 20",
        "that the counts of hits are those of a second counting over steps, on random programs",
        6,
    ),
    Check("filter_failures", "python3 attacks/break_filter.py", "the same of xdpvm_filter", 8),
    Check(
        "tables",
        "python3 attacks/proofs.py --random 20 --damages 3",
        "that recheck accepts what prove wrote, and refuses what is damaged",
        2,
    ),
    Check(
        "programs",
        "python3 attacks/fuzz.py --programs 300 --ways --jobs 2 --library crates/xdpvm_c/out/libxdpvm_c.a --explored 20000 "
        "--filter crates/xdpvm_filter/out/xdpvm_filter",
        "random programs: the library and the programs, which are served, against runs with all checks, on maps that are filled",
        4,
    ),
    Check("kernel", "bash checks/kernel.sh", "that Linux runs an example alike", 2, skips=True),
    Check("objects_of_cases", "python3 attacks/object_sweep.py stored --every 10", "objects of the cases in tests/programs", 8),
    Check("objects_of_random", "python3 attacks/object_sweep.py random --count 100", "objects of random programs", 5),
    Check("loading", "python3 checks/loading.py", "every example of LOADING.md in a network namespace", 10, skips=True),
    Check(
        "interfaces", "python3 attacks/interfaces.py", "examples on a pair of virtual interfaces, by each loader", 12, skips=True
    ),
    Check(
        "bridge",
        "python3 tests/bridge.py",
        "the bridge between two network namespaces: traffic, filters that change, and random frames against `xdpvm run`",
        20,
        skips=True,
    ),
)
