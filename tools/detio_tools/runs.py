"""How the tools run the program: where it stands, one run with a limit of time, and many runs, several at a time."""
import argparse
import itertools
import multiprocessing
import os
import subprocess
import sys
import time
from collections.abc import Callable, Iterable, Iterator
from concurrent.futures import ProcessPoolExecutor
from typing import TypeVar

from detio_tools.repository import TOP

PROGRAM = TOP + "/crates/detio_cmd/out/detio_cmd"
UNPROVED = TOP + "/crates/detio_cmd/out/unproved"
SECONDS = 30
# Programs that are wrong, which run the one that the variable DETIO names.
WRONG = TOP + "/tools/wrong"
# What a run has of the environment; wrong programs need what is not PATH.
PASSED = ["PATH", "DETIO", "DETIO_WRONG"]

# The status of a run, or "hung", its standard output and its standard error.
Answer = tuple[int | str, str, str]
T = TypeVar("T")


def program_of(path: str | None) -> str:
    """The program at this path, or the one that was built here: the proved one, or else the other, and says so."""
    if not path and not os.access(PROGRAM, os.X_OK) and os.access(UNPROVED, os.X_OK):
        print("the program here is not proved, and slow: tools/build makes the proved one", file=sys.stderr, flush=True)
        path = UNPROVED
    path = os.path.realpath(path or PROGRAM)
    if not os.access(path, os.X_OK):
        sys.exit(f"there is no program {path}: `tools/build` builds it, or name another with --program")
    return path


def answer(words: list[str], folder: str, more: dict[str, str] | None = None, seconds: float = SECONDS) -> Answer:
    """What a run answers; the status is "hung" where it did not end in time."""
    env = {**{name: os.environ[name] for name in PASSED if name in os.environ}, **(more or {})}
    try:
        ran = subprocess.run(words, cwd=folder, env=env, stdin=subprocess.DEVNULL, capture_output=True, timeout=seconds)
    except subprocess.TimeoutExpired:
        return "hung", "", ""
    return ran.returncode, ran.stdout.decode("latin-1"), ran.stderr.decode("latin-1")


# What counts some runs: it is called with the program, the seed and the numbers of the runs, and returns what it
# counted, with the first failure, or None.
Work = Callable[[str, str, Iterable[int]], tuple[T, str | None]]


def in_parts(name: str, work: Work[T], program: str, asked: argparse.Namespace, size: int) -> Iterator[T]:
    """Has `work` make the runs that are asked for, asked.jobs parts of `size` runs at a time, and yields what it
    counted of each. A failure ends all."""
    begun, told, last = time.time(), 0.0, asked.first + asked.count
    parts = [range(at, min(at + size, last)) for at in range(asked.first, last, size)]
    with ProcessPoolExecutor(asked.jobs, multiprocessing.get_context("fork")) as pool:
        counts = pool.map(work, [program] * len(parts), [asked.seed] * len(parts), parts)
        for part, (counted, failure) in zip(parts, counts):
            if failure:
                pool.shutdown(cancel_futures=True)
                sys.exit(f"{name}: failed\n{failure}")
            yield counted
            if time.time() > told + 2:
                told, done = time.time(), part[-1] + 1 - asked.first
                print(f"{name}: {done} of {asked.count} runs, {told - begun:.0f} seconds", file=sys.stderr, flush=True)


def said(found: Answer) -> str:
    """An answer as a text, for a failure."""
    status, out, err = found
    return f"status {status}, standard output {shortened(out)!r}, standard error {shortened(err)!r}"


def both_said(found: Answer, wanted: Answer) -> str:
    """An answer and what it had to be, for a failure, and the first line in which they differ where much is printed."""
    text = f"answered: {said(found)}\nwanted:   {said(wanted)}"
    for name, mine, other in zip(("standard output", "standard error"), found[1:], wanted[1:]):
        if mine != other and shortened(mine) + shortened(other) != mine + other:
            text += f"\n{name} differs in {difference(mine, other)}"
    return text


def difference(text: str, wanted: str) -> str:
    """The first line in which a text is not what is wanted."""
    lines = itertools.zip_longest(text.split("\n"), wanted.split("\n"))
    for number, (line, other) in enumerate(lines, 1):
        if line != other:
            named = ["no line" if it is None else repr(shortened(it)) for it in (line, other)]
            return f"line {number}: {named[0]}, and not {named[1]}"
    return "no line"


def shortened(text: str) -> str:
    """A text without its middle, where it is long."""
    return text if len(text) <= 2000 else f"{text[:1000]} .. {text[-1000:]}"
