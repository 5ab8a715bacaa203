"""Attacks in several processes: each job is one, and answers at its end."""
import atexit
import functools
import json
import os
import shutil
import sys
import tempfile
import traceback
from collections.abc import Callable, Iterator
from typing import Any

sys.path.insert(0, os.path.join(os.path.dirname(os.path.abspath(__file__)), "../checks"))
from common import MEMORY


@functools.cache
def kept() -> str:
    """A folder for what a script makes for all its jobs, until it ends."""
    folder = tempfile.mkdtemp()
    atexit.register(shutil.rmtree, folder)
    return folder


def in_jobs(count: int, work: Callable[[int, str], object]) -> Iterator[tuple[Any, str]]:
    """The answer of each job to its number and a folder of its own, and the folder; it is None of a job that died, whose
    folder stays."""
    children = []
    for job in range(count):
        (back, out), folder = os.pipe(), tempfile.mkdtemp(dir=MEMORY)
        child = os.fork()
        if child == 0:
            os.close(back)
            answer(out, work, job, folder)
        os.close(out)
        children.append((child, back, folder))
    for child, back, folder in children:
        with os.fdopen(back) as file:
            said = file.read()
        os.waitpid(child, 0)
        yield json.loads(said) if said else None, folder
        if said:
            shutil.rmtree(folder)


def answer(out: int, work: Callable[[int, str], object], job: int, folder: str) -> None:
    """Writes the answer of this process, and ends it."""
    # pylint: disable=protected-access
    try:
        told = json.dumps(work(job, folder))
        with os.fdopen(out, "w") as file:
            file.write(told)
        os._exit(0)
    except BaseException:  # pylint: disable=broad-exception-caught
        traceback.print_exc()
        os._exit(1)
