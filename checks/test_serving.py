#!/usr/bin/env python3
"""Tests of serving.py and call.c: what a served script writes and how it ends is as where Python starts it. In the gate;
`python3 checks/test_serving.py` runs them.
"""
import contextlib
import os
import signal
import subprocess
import sys
import tempfile
import time
import unittest
from functools import partial
from pathlib import Path

from common import TOP, compiler
from serving import served

TABLE, FRAMES = "tools/table.py", "tools/frames.py"
Ran = subprocess.CompletedProcess[bytes]


class Served(unittest.TestCase):
    """A server, which all tests ask."""

    more: dict[str, str]

    @classmethod
    def setUpClass(cls) -> None:
        cls.more = cls.enterClassContext(served(compiler()))

    def setUp(self) -> None:
        self.folder = self.enterContext(tempfile.TemporaryDirectory())
        self.environment = {**os.environ, **self.more, "PYTHONUNBUFFERED": ""}

    def ran(self, program: str, *words: str, given: bytes = b"", folder: str = TOP) -> Ran:
        return subprocess.run([program, *words], input=given, cwd=folder, env=self.environment, capture_output=True, check=False)

    def test_it_is_as_where_python_starts_it(self) -> None:
        """Words, folders, standard files, names that are no text, and statuses."""
        table = f"{TOP}/{TABLE}"
        for words, given, folder in (
            ((TABLE, "show", "examples/pass.table"), b"", TOP),
            ((table, "show", "pass.table"), b"", f"{TOP}/examples"),
            ((f"../{TABLE}", "show", "none"), b"", f"{TOP}/examples"),
            ((TABLE, "show", os.fsdecode(b"\xff")), b"", TOP),
            ((TABLE, "show", ""), b"", TOP),
            ((TABLE, "--none"), b"", TOP),
            ((FRAMES, "-", "-"), b"frame 1\ncafe\n", TOP),
            ((FRAMES, "-", "-"), b"no frame\n", TOP),
            (("attacks/break.py", "/nowhere"), b"", TOP),
            (("-c", "import sys; print(sys.argv)", "a"), b"", TOP),
        ):
            with self.subTest(words):
                wanted = self.ran(sys.executable, *words, given=given, folder=folder)
                found = self.ran(self.more["PYTHON_OF_TOOLS"], *words, given=given, folder=folder)
                self.assertEqual((found.returncode, found.stdout), (wanted.returncode, wanted.stdout))
                self.assertEqual(found.stderr, wanted.stderr)

    def waiting(self, *before: str) -> "subprocess.Popen[bytes]":
        """A tool that waits for its standard input, under a command that changes what holds for a process."""
        words = [*before, self.more["PYTHON_OF_TOOLS"], FRAMES, "-", f"{self.folder}/made"]
        return subprocess.Popen(words, cwd=TOP, env=self.environment, stdin=subprocess.PIPE)

    def forks(self) -> list[int]:
        """The forks of the server, which is the only process that this one leaves running."""
        parents = {}
        for it in Path("/proc").glob("[0-9]*/stat"):
            with contextlib.suppress(OSError):
                text = it.read_text(encoding="utf-8")
                parents[int(text.split()[0])] = int(text.rpartition(") ")[2].split()[1])
        return [it for it, parent in parents.items() if parents.get(parent) == os.getpid()]

    def test_a_fork_ends_with_who_asked(self) -> None:
        """And one that is ended by a signal has that status."""
        child = self.waiting()
        until(lambda: len(self.forks()) == 1)
        child.kill()
        until(lambda: not self.forks())
        child.communicate()
        child = self.waiting()
        until(lambda: len(self.forks()) == 1)
        os.kill(self.forks()[0], signal.SIGKILL)
        child.communicate()
        self.assertEqual(child.returncode, -signal.SIGKILL)

    def test_other_limits_are_not_served(self) -> None:
        """Python itself is started then, and the tool does the same."""
        python = Path(sys.executable).resolve()
        for before in (["prlimit", "--nofile=500"], ["bash", "-c", 'umask 077 && exec "$@"', "bash"]):
            with self.subTest(before):
                child = self.waiting(*before)
                until(partial(is_program, child.pid, python))
                self.assertEqual(self.forks(), [])
                child.communicate(b"frame 1\ncafe\n")
                self.assertEqual(child.returncode, 0)


def is_program(process: int, program: Path) -> bool:
    """Whether a process runs a program."""
    return Path(f"/proc/{process}/exe").resolve() == program


def until(holds: object, seconds: float = 60) -> None:
    """Waits until something holds."""
    assert callable(holds)
    end = time.monotonic() + seconds
    while not holds():
        assert time.monotonic() < end, "it does not come"
        time.sleep(0.01)


if __name__ == "__main__":
    unittest.main()
