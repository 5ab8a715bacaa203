#!/usr/bin/env python3
"""Runs the checks of the gate side by side, on the programs that were built.

usage: python3 -m checks [--list] [--jobs N] [NAME ..]        (at the top of the repository)
       python3 -m checks near [--since COMMIT] [CRATE::FUNCTION ..]

NAME is one of --list, which prints each with its command, its processor seconds, and what it checks; without a name all
run. --jobs: so many at once (the default: the cores). Where TMPDIR is not set, the files that checks make are in memory, if 4 GB
of it are free: there a file is made in a tenth of the time. What a check prints is shown if it fails. The last line is 'N passed,
M failed': a check counts once, and the pages' examples each. The exit status is 0 if all pass. `near` proves only the functions
that were changed: checks/near.py.
"""
import argparse
import os
import re
import resource
import subprocess
import sys
import tempfile
import time
from concurrent.futures import ThreadPoolExecutor, as_completed
from dataclasses import dataclass

sys.path.insert(0, os.path.dirname(os.path.abspath(__file__)))
import near
import serving
from common import CANNOT, compiler, text_of, there
from listed import CHECKS, TOP, Check

EXAMPLES = re.compile(r"^(\d+) examples, (\d+) differ$")
MEMORY, ROOM = "/dev/shm", 4 << 30  # a file system in memory, and the bytes that have to be free for the files of checks
MOST_SHOWN = 20000  # characters of a check's output, from its end
PYTHONS = ("PYTHONDONTWRITEBYTECODE", "PYTHONUNBUFFERED")  # which checks run without: they make a start of Python slow


@dataclass(frozen=True)
class Result:
    """How a check ended, and the seconds that it took: by the clock, and of processors, but for those of served scripts."""

    check: Check
    status: int
    said: str
    seconds: float
    used: float

    def counts(self) -> tuple[int, int]:
        """How many tests of it passed and failed."""
        lines = self.said.splitlines()
        found = EXAMPLES.match(lines[-1]) if lines else None
        if found:
            total, differ = int(found[1]), int(found[2])
            return total - differ, differ if self.status == 0 or differ else 1
        return (1, 0) if self.is_passed() else (0, 1)

    def is_passed(self) -> bool:
        return self.status == 0 or self.check.skips and self.status == CANNOT


def in_memory() -> dict[str, str]:
    """What the environment has where the files of checks are to be in memory; empty where they cannot be."""
    if "TMPDIR" in os.environ or not os.access(MEMORY, os.W_OK | os.X_OK):
        return {}
    system, free = os.statvfs(MEMORY), int(there(re.search(r"MemAvailable: +(\d+)", text_of("/proc/meminfo")))[1]) << 10
    is_fit = not system.f_flag & os.ST_NOEXEC and min(free, system.f_bavail * system.f_frsize) >= ROOM
    return {"TMPDIR": MEMORY} if is_fit else {}


def run(check: Check, environment: dict[str, str]) -> Result:
    begin = time.monotonic()
    with tempfile.TemporaryFile() as out:
        how = {"cwd": TOP, "env": environment, "stdin": subprocess.DEVNULL, "stdout": out, "stderr": subprocess.STDOUT}
        words = [sys.executable if it == "python3" else it for it in check.command.split()]
        child = subprocess.Popen(words, **how)  # type: ignore[call-overload]
        _, status, used = os.wait4(child.pid, 0)
        child.returncode = os.waitstatus_to_exitcode(status)
        out.seek(0)
        said = out.read().decode(errors="replace")
    return Result(check, child.returncode, said, time.monotonic() - begin, used.ru_utime + used.ru_stime)


def tell(result: Result) -> None:
    """A line for a check, with the last line that it printed; all that it printed where it failed."""
    lines = result.said.strip().splitlines()
    if result.is_passed():
        last = lines[-1] if lines else ""
        print(
            f"{result.check.name}: {result.seconds:.0f} s, {result.used:.0f} of processors{': ' + last[:160] if last else ''}",
            flush=True,
        )
        return
    print(result.said[-MOST_SHOWN:].rstrip())
    print(f"FAILED: {result.check.name}: {result.check.command} ended with status {result.status}", flush=True)


def run_all(checks: list[Check], jobs: int, environment: dict[str, str]) -> list[Result]:
    found = []
    with ThreadPoolExecutor(jobs) as pool:
        in_order = sorted(checks, key=lambda it: -it.seconds)
        waiting = [pool.submit(run, it, environment) for it in in_order if not it.alone]
        for ended in as_completed(waiting):
            found.append(ended.result())
            tell(found[-1])
    for check in checks:
        if check.alone:
            found.append(run(check, environment))
            tell(found[-1])
    return found


def main() -> int:
    if sys.argv[1:2] == ["near"]:
        return near.main(sys.argv[2:])
    words = argparse.ArgumentParser(
        prog="python3 -m checks", description=__doc__, formatter_class=argparse.RawDescriptionHelpFormatter
    )
    words.add_argument("--list", action="store_true")
    words.add_argument("--jobs", type=int, default=len(os.sched_getaffinity(0)))
    words.add_argument("names", nargs="*", metavar="NAME")
    given = words.parse_args()
    if given.list:
        for check in CHECKS:
            print(f"{check.name}: {check.command}\n    {check.seconds} s: {check.about}")
        return 0
    unknown = [name for name in given.names if name not in {it.name for it in CHECKS}]
    if unknown:
        words.error(f"there is no check {unknown[0]}; --list prints them")
    begin, asked = time.monotonic(), [it for it in CHECKS if not given.names or it.name in given.names]
    with serving.served(compiler()) as more:
        own = {name: it for name, it in os.environ.items() if name not in PYTHONS}
        results = run_all(asked, max(given.jobs, 1), {**own, **in_memory(), **more})
    used = resource.getrusage(resource.RUSAGE_CHILDREN)
    print(f"the checks took {time.monotonic() - begin:.0f} s, and {used.ru_utime + used.ru_stime:.0f} of processors")
    counts = [it.counts() for it in results]
    passed, failed = sum(it[0] for it in counts), sum(it[1] for it in counts)
    print(f"{passed} passed, {failed} failed")
    return 1 if failed else 0


if __name__ == "__main__":
    sys.exit(main())
