"""Programs that do one command line after the other in one process, for attacks that would otherwise start a process for each
(served.c). A program is started at its first command line; one that ends or is late is started again at the next one."""
import functools
import os
import select
import struct
import subprocess
import sys
import time

sys.path.insert(0, os.path.join(os.path.dirname(os.path.abspath(__file__)), "../checks"))
from common import TOP, compiler, there
from jobs import kept

HEAD = struct.Struct("<III")  # of an answer: the status, and the sizes of both outputs


@functools.cache
def server() -> str:
    """What makes a program serve."""
    made = os.path.join(kept(), "served.so")
    words = [compiler(), "-std=c11", "-O2", "-Wall", "-Wextra", "-shared", "-fPIC", "-o", made, f"{TOP}/attacks/served.c", "-ldl"]
    subprocess.run(words, check=True)
    return made


class Served:
    """The programs that were asked, by their paths."""

    def __init__(self) -> None:
        self.running: dict[str, subprocess.Popen[bytes]] = {}

    def ran(self, words: list[str], seconds: float) -> subprocess.CompletedProcess[bytes]:
        """What the command line does. One that takes longer than this is an error, as of subprocess.run."""
        child = self.running.get(words[0]) or self.started(words[0])
        asked = b"".join(os.fsencode(word) + b"\0" for word in [os.getcwd(), *words])
        try:
            there(child.stdin).write(struct.pack("<I", len(asked)) + asked)
            return self.answered(child, words, time.monotonic() + seconds)
        except (BrokenPipeError, EOFError):
            return subprocess.CompletedProcess(words, self.ended(words[0]), b"", b"")
        except TimeoutError as late:
            child.kill()
            self.ended(words[0])
            raise subprocess.TimeoutExpired(words, seconds) from late

    def ended(self, program: str) -> int:
        """How a program ended, for which another one is started at its next command line."""
        with self.running.pop(program) as child:
            return child.wait()

    def started(self, program: str) -> subprocess.Popen[bytes]:
        env = {**os.environ, "LD_PRELOAD": server()}
        child = subprocess.Popen([program], bufsize=0, stdin=subprocess.PIPE, stdout=subprocess.PIPE, env=env)
        self.running[program] = child
        return child

    @staticmethod
    def answered(child: subprocess.Popen[bytes], words: list[str], end: float) -> subprocess.CompletedProcess[bytes]:
        got, wanted = bytearray(), HEAD.size
        while len(got) < wanted:
            if not select.select([child.stdout], [], [], max(0, end - time.monotonic()))[0]:
                raise TimeoutError
            some = there(child.stdout).read(1 << 20)
            if not some:
                raise EOFError
            got += some
            if len(got) >= HEAD.size:
                wanted = HEAD.size + sum(HEAD.unpack_from(got)[1:])
        status, out, _ = HEAD.unpack_from(got)
        body = bytes(got[HEAD.size :])
        return subprocess.CompletedProcess(words, status, body[:out], body[out:])
