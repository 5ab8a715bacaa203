#!/usr/bin/env python3
"""Runs scripts in forks of one process, which has imported what they import: a start of Python takes them 0.15 to 0.3 seconds.

usage: python3 checks/serving.py SOCKET PYTHON

It waits at a socket for what checks/call.c sends, which stands for python3 in the gate: the standard files, the folder, the words
and the environment of a process. Where the words call a script of FOLDERS, a fork becomes that script, as Python would start it,
and its status is sent back. Where they ask Python for something else, or where the process has other rights, limits of resources
or namespaces than the server, it is not taken, and call.c starts Python. PYTHON is the stand-in, by which scripts start other
ones. The server ends with its standard input.
"""
import contextlib
import functools
import gc
import importlib
import io
import os
import select
import signal
import socket
import struct
import subprocess
import sys
import tempfile
import types
from collections.abc import Iterator
from dataclasses import dataclass
from pathlib import Path
from typing import Any

TOP = Path(__file__).resolve().parent.parent
TOOLS = TOP / "tools"
FOLDERS = [TOOLS, *(TOP / it for it in ("attacks", "bench", "tests"))]
STANDARD = sys.path[1:]
MOST = 1 << 17  # bytes of a request
TAKEN = -1  # what is sent once a request is taken; then comes its status, as waitpid(2) has it
RIGHTS = ("Umask", "Uid", "Gid", "Groups", "CapEff", "NoNewPrivs", "Seccomp")
PLAIN = ("C", "POSIX", "C.UTF-8", "C.utf8", "UTF-8")  # locales in which Python takes bytes that are no text as they are


@dataclass(frozen=True)
class Request:
    """A call of a script: its standard files, and the folder, the words and the environment of the process that calls it."""

    files: list[int]
    folder: str
    words: list[str]
    environment: dict[str, str]

    @staticmethod
    def of(data: bytes, files: list[int]) -> "Request":
        count, folder, *texts = [os.fsdecode(it) for it in data.split(b"\0")[:-1]]
        words, environment = texts[1 : int(count)], texts[int(count) :]
        return Request(files, folder, words, dict(it.split("=", 1) for it in environment if "=" in it))

    def script(self) -> Path:
        """What is called."""
        return Path(self.folder, *self.words[:1]).resolve()


# ---- the server


@functools.cache
def code_of(path: Path) -> types.CodeType:
    """The code of a script."""
    code: types.CodeType = compile(path.read_bytes(), str(path), "exec")
    return code


def preload() -> None:
    """Imports the tools' modules and what scripts of other folders share, and compiles the tools."""
    sys.path.insert(1, str(TOOLS))
    for path in sorted(TOOLS.glob("*.py")):
        if path.stem != "__main__":
            importlib.import_module(path.stem)
            code_of(path)
    importlib.import_module("common")
    tempfile.tempdir = None
    gc.freeze()


def held(pid: int | str) -> list[str]:
    """The rights, limits and namespaces of a process."""
    status = Path(f"/proc/{pid}/status").read_text(encoding="utf-8", errors="replace").splitlines()
    spaces = sorted(os.readlink(it) for it in Path(f"/proc/{pid}/ns").iterdir())
    return [*(it for it in status if it.startswith(RIGHTS)), Path(f"/proc/{pid}/limits").read_text(encoding="utf-8"), *spaces]


class Server:
    """Takes requests until its standard input ends. Each is run in a fork, whose end is told to the process that asked; if that
    goes before, the fork is ended."""

    def __init__(self, path: str) -> None:
        self.held = held("self")
        self.listening = socket.socket(socket.AF_UNIX, socket.SOCK_SEQPACKET)
        self.listening.bind(path)
        self.listening.listen(256)
        self.running: dict[int, tuple[int, int, socket.socket]] = {}  # by either file: a fork, its file, and who asked
        self.poll = select.poll()
        for it in (0, self.listening.fileno()):
            self.poll.register(it, select.POLLIN)

    def serve(self) -> Request | None:
        """The request to be run, in each fork; None at the end of the server."""
        while True:
            ready = self.poll.poll()[0][0]
            if ready == 0:
                return None
            if ready in self.running:
                self.end(ready)
                continue
            taken = self.take()
            if taken:
                return taken

    def request_of(self, peer: socket.socket) -> Request | None:
        """What a process asks for, or None where it has to start Python itself."""
        data, files, _, _ = socket.recv_fds(peer, MOST, 3)
        with contextlib.suppress(OSError, ValueError, SyntaxError):
            asked, pid = Request.of(data, files), struct.unpack("3i", peer.getsockopt(socket.SOL_SOCKET, socket.SO_PEERCRED, 12))[0]
            if asked.script().parent in FOLDERS and code_of(asked.script()) and held(pid) == self.held:
                return asked
        for it in files:
            os.close(it)
        return None

    def take(self) -> Request | None:
        """Takes a request; it is returned in the fork that runs it."""
        peer, _ = self.listening.accept()
        asked = self.request_of(peer)
        if not asked:
            peer.close()
            return None
        pid = os.fork()
        if not pid:
            peer.close()
            self.close()
            return asked
        for it in asked.files:
            os.close(it)
        file = os.pidfd_open(pid)
        for it in (file, peer.fileno()):
            self.running[it] = pid, file, peer
            self.poll.register(it, select.POLLIN)
        with contextlib.suppress(OSError):
            peer.send(struct.pack("i", TAKEN))
        return None

    def end(self, ready: int) -> None:
        """Tells that a fork has ended, or ends it, where the process that asked has gone."""
        pid, file, peer = self.running[ready]
        if ready != file:
            os.kill(pid, signal.SIGKILL)
        _, status = os.waitpid(pid, 0)
        with contextlib.suppress(OSError):
            peer.send(struct.pack("i", status))
        for it in (file, peer.fileno()):
            self.poll.unregister(it)
            del self.running[it]
        os.close(file)
        peer.close()

    def close(self) -> None:
        """Closes all files of the server, in a fork."""
        self.listening.close()
        for file, peer in {(file, peer) for _, file, peer in self.running.values()}:
            os.close(file)
            peer.close()


@contextlib.contextmanager
def served(compiler: str) -> Iterator[dict[str, str]]:
    """What the environment has where `python3` asks a server, as long as that runs."""
    with tempfile.TemporaryDirectory() as folder:
        socket_path, stands_in = f"{folder}/socket", f"{folder}/python3"
        given = [f'-DSERVER="{socket_path}"', f'-DPYTHON="{sys.executable}"']
        subprocess.run([compiler, "-O1", *given, "-o", stands_in, f"{TOP}/checks/call.c"], check=True)
        words = [sys.executable, __file__, socket_path, stands_in]
        with subprocess.Popen(words, stdin=subprocess.PIPE, stdout=subprocess.PIPE) as server:
            assert server.stdout
            if not server.stdout.readline():
                raise RuntimeError("serving.py does not start")
            yield {"PATH": f"{folder}:{os.environ['PATH']}", "PYTHON_OF_TOOLS": stands_in}


# ---- a fork that becomes a script


def find_modules(script: Path) -> None:
    """Has a script find the modules that it finds where Python starts it: a tool those of its folder, and others what `common`
    puts on their path."""
    if script.parent == TOOLS:
        del sys.modules["common"]
        sys.path[:] = [str(TOOLS), *STANDARD]
    else:
        sys.path[0] = str(script.parent)


def become(asked: Request) -> None:
    """Gives this process the files, the folder, the words and the environment of a call."""
    for at, it in enumerate(asked.files):
        os.dup2(it, at)
    for it in asked.files:
        os.close(it)
    os.chdir(asked.folder)
    os.environ.clear()
    os.environ.update(asked.environment)
    sys.executable, sys.argv[:] = sys.argv[2], asked.words
    places = filter(None, (asked.environment.get(it) for it in ("LC_ALL", "LC_CTYPE", "LANG")))
    errors = "surrogateescape" if next(places, "C") in PLAIN else "strict"
    reader, writer = sys.stdin, sys.stdout
    assert isinstance(reader, io.TextIOWrapper) and isinstance(writer, io.TextIOWrapper)
    reader.reconfigure(errors=errors)
    writer.reconfigure(errors=errors, line_buffering=os.isatty(1))


def main() -> tuple[types.CodeType, dict[str, Any]] | None:
    """In a fork, the code of a script and the names of the module `__main__` in which it runs."""
    preload()
    server = Server(sys.argv[1])
    print("it listens", flush=True)
    asked = server.serve()
    if not asked:
        return None
    code, path = code_of(asked.script()), os.path.join(asked.folder, asked.words[0])
    find_modules(asked.script())
    become(asked)
    made = sys.modules["__main__"] = types.ModuleType("__main__")
    made.__file__ = path
    return code, made.__dict__


if __name__ == "__main__":
    taken = main()
    if taken:
        exec(*taken)  # pylint: disable=exec-used
