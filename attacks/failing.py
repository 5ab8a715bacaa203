"""Programs under break.c, which makes one call of a run fail: what the run wrote, and whether it came to that call."""

import contextlib
import os
import select
import socket
import struct
import subprocess
from collections import Counter
from collections.abc import Callable, Iterator, Mapping, Sequence
from dataclasses import dataclass, field
from typing import IO

from common import TOP, bytes_of, compiler, there, write

BETWEEN, MARK, STORED = "between.so", "mark", "standard.output"
OLD = 400 * b"what stood in an output before\n"  # longer than most of the new ones: a rest of it would be seen
GONE = b"an output that is gone"
SECONDS = 60
MOST_STARTED = 16


def prepare() -> None:
    """Links the examples into the working folder, and compiles break.c there."""
    os.symlink(os.path.join(TOP, "examples"), "examples")
    subprocess.run([compiler(), "-O1", "-fPIC", "-shared", "-o", BETWEEN, f"{TOP}/attacks/break.c"], check=True)


@dataclass(frozen=True)
class Answer:
    """What a run wrote to standard output and standard error, its status, its files, and whether the call that was to fail was
    reached, and tried again. A file that has what stood in it before is None."""

    status: int
    out: bytes
    err: bytes
    files: tuple[bytes | None, ...]
    reached: bool
    tried_again: bool

    def is_as(self, whole: "Answer") -> bool:
        return self.has_outputs_of(whole) and self.err == whole.err

    def has_outputs_of(self, whole: "Answer") -> bool:
        return (self.status, self.out, self.files) == (whole.status, whole.out, whole.files)

    def is_quiet(self) -> bool:
        """Whether standard output got no byte, and each file is as it was."""
        return not self.out and not any(it is not None for it in self.files)

    def begins(self, whole: "Answer") -> bool:
        """Whether each output has a beginning of what it should have, and nothing else, or is as it was."""
        pairs = zip((self.out, *self.files), (whole.out, *whole.files))
        return all(found is None or right is not None and right.startswith(found) for found, right in pairs)


def changed(name: str, before: bytes) -> bytes | None:
    """What an output has now; None: what stood in it before."""
    found = bytes_of(name) if os.path.exists(name) else GONE
    return None if found == before else found


def read_now(file: int) -> bytes:
    """What a pipe has, which is not waited for."""
    data = b""
    with contextlib.suppress(BlockingIOError):
        while more := os.read(file, 1 << 16):
            data += more
    return data


class Started:
    """A program under break.c, which waits before it begins, and runs in a fork for each failure that is asked for: that takes a
    fifth of a start. Standard output is a pipe, or a file where it is stored."""

    def __init__(self, words: Sequence[str], stored: bool, environment: Mapping[str, str]) -> None:
        self.control, its = socket.socketpair()
        self.file = open(STORED, "w+b", buffering=0) if stored else None
        env = {"LD_PRELOAD": os.path.abspath(BETWEEN), "MARK": os.path.abspath(MARK), "FORKS": str(its.fileno()), **environment}
        how = {"stdin": subprocess.DEVNULL, "stdout": self.file or subprocess.PIPE, "stderr": subprocess.PIPE}
        self.child: subprocess.Popen[bytes] = subprocess.Popen(
            words, env=env, pass_fds=[its.fileno()], **how  # type: ignore[call-overload]
        )
        its.close()
        self.pipes = [it.fileno() for it in (self.child.stdout, self.child.stderr) if it]
        self.poll = select.poll()
        for it in (self.control.fileno(), *self.pipes):
            os.set_blocking(it, False)
            self.poll.register(it, select.POLLIN)

    def run(self, kind: str, call: int) -> tuple[int, bytes, bytes]:
        """A run, in which the nth call of a kind fails: its status, and what it wrote to standard output and standard error."""
        if self.file:
            os.ftruncate(self.file.fileno(), 0)
            os.lseek(self.file.fileno(), 0, os.SEEK_SET)
        self.control.send(struct.pack("16sl", kind.encode(), call))
        said, has_ended = {it: b"" for it in self.pipes}, False
        while not has_ended:
            ready = [it for it, _ in self.poll.poll(1000 * SECONDS)]
            if not ready:
                self.child.kill()
                raise subprocess.TimeoutExpired(self.child.args, SECONDS)
            has_ended = self.control.fileno() in ready
            for it in self.pipes if has_ended else ready:
                said[it] += read_now(it)
        status = struct.unpack("i", self.control.recv(4))[0]
        if self.file:
            self.file.seek(0)
        out, err = (
            self.file.read() if self.file else said[there(self.child.stdout).fileno()],
            said[there(self.child.stderr).fileno()],
        )
        return os.waitstatus_to_exitcode(status), out, err

    def end(self) -> None:
        """Ends the program, which has no more to do."""
        self.control.close()
        self.child.communicate()


@dataclass(frozen=True)
class Tried:
    """A program, the files that it may write, what makes its standard output the same in each run, more of its
    environment, and what stands in outputs before a run, if not OLD."""

    program: str
    outputs: tuple[str, ...] = ()
    cleaned: Callable[[bytes], bytes] = bytes
    environment: Mapping[str, str] = field(default_factory=dict)
    before: Mapping[str, bytes] = field(default_factory=dict)

    def ran(self, words: Sequence[str], kind: str, call: int, stored: bool) -> tuple[int, bytes, bytes]:
        """A run's status, and what it wrote to standard output and standard error."""
        env = {"LD_PRELOAD": os.path.abspath(BETWEEN), **self.environment}
        if kind:
            env.update({"BREAK": kind, "WHEN": str(call), "MARK": os.path.abspath(MARK)})
        with open(STORED, "w+b") as file:
            out: int | IO[bytes] = file if stored else subprocess.PIPE
            called = [self.program, *words]
            ended = subprocess.run(
                called, env=env, stdin=subprocess.DEVNULL, stdout=out, stderr=subprocess.PIPE, timeout=SECONDS, check=False
            )
            file.seek(0)
            return ended.returncode, file.read() if stored else ended.stdout, ended.stderr

    def answer(self, words: Sequence[str], kind: str = "", call: int = 0, stored: bool = False) -> Answer:
        """A run, in which the nth call of a kind fails. Standard output is a pipe, or a file where it is stored."""
        for name in self.outputs:
            write(name, self.before.get(name, OLD))
        if os.path.exists(MARK):
            os.remove(MARK)
        status, out, err = self.ran(words, kind, call, stored)
        files = tuple(changed(name, self.before.get(name, OLD)) for name in self.outputs)
        reached = os.path.exists(MARK)
        return Answer(status, self.cleaned(out), err, files, reached, reached and os.path.getsize(MARK) > 0)

    def failures(self, words: Sequence[str], kind: str, stored: bool = False) -> Iterator[tuple[int, Answer]]:
        """A run for each call of a kind, in which that call fails."""
        call = 1
        while (answer := self.answer(words, kind, call, stored)).reached:
            yield call, answer
            call += 1


@dataclass(frozen=True)
class Forked(Tried):
    """The same of a program that starts no others: it is started once with its words, and forks for each run."""

    started: dict[tuple[bool, str], Started] = field(default_factory=dict)  # those that wait for runs

    def __enter__(self) -> "Forked":
        return self

    def __exit__(self, *_: object) -> None:
        for it in self.started.values():
            it.end()

    def with_words(self, words: Sequence[str], stored: bool) -> Started:
        """The program with these words, which is started if it is none of the last that were."""
        key = stored, "\0".join(words)
        if key not in self.started:
            if len(self.started) == MOST_STARTED:
                self.started.pop(next(iter(self.started))).end()
            self.started[key] = Started([self.program, *words], stored, self.environment)
        return self.started[key]

    def ran(self, words: Sequence[str], kind: str, call: int, stored: bool) -> tuple[int, bytes, bytes]:
        return self.with_words(words, stored).run(kind, call)


class Told:
    """How often which answer came; a wrong one is printed."""

    def __init__(self) -> None:
        self.counts: Counter[tuple[str, str | None]] = Counter()

    def count(self, words: Sequence[str], kind: str, call: int, answer: Answer, result: str | None) -> None:
        """Counts an answer: what it was, or None, where it is not allowed."""
        self.counts[kind, result] += 1
        if result is None:
            print(f"WRONG {' '.join(words)}: {kind} {call}: {answer}"[:2000], flush=True)

    def wrong(self) -> int:
        return sum(count for (_, result), count in self.counts.items() if result is None)

    def tell(self) -> None:
        for (kind, result), count in sorted(self.counts.items(), key=str):
            print(f"{count:6} {kind}: {result}")
