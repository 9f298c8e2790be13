"""Which of the preload library's C the tests reach: what tools/covered does."""
import os
import pathlib
import re
import subprocess
from dataclasses import dataclass

from detio_tools import repository

TOP = pathlib.Path(repository.TOP)
COVERED = 1 << 22  # as in bindings/preload/coverage.h
# .. of what is optimised little, so that a block is of one line.
FLAGS = "-O1 -fno-inline-small-functions -fsanitize-coverage=trace-pc"
CALL = re.compile(r"^\s*([0-9a-f]+):.*call.*__sanitizer_cov_trace_pc")
LINE = re.compile(r"^\s*([0-9a-f]+):\t")


@dataclass(frozen=True)
class Block:
    """A place where a block begins."""

    function: str
    file: str
    line: int
    reached: bool


def make(room: pathlib.Path, objects: pathlib.Path) -> str | None:
    """Makes the library in a folder: what the compiler said, or None."""
    (room / "reached").write_bytes(bytes(2 * COVERED))
    (room / "out").mkdir()
    os.symlink(objects, room / "out/objects")
    flags = f'{FLAGS} -DDETIO_COVERAGE="{room}/reached"'  # words, which no shell reads
    done = subprocess.run([f"{TOP}/tools/link-preload", str(room / "out")], capture_output=True, text=True,
                          env={**os.environ, "CFLAGS": flags})
    return done.stdout + done.stderr if done.returncode else None


def places(text: str) -> list[int]:
    """Where calls that mark a block return to, of what objdump prints."""
    found, calls = [], False
    for line in text.splitlines():
        at = LINE.match(line)
        if at and calls:
            found.append(int(at[1], 16))
        if at:
            calls = CALL.match(line) is not None
    return found


def named(built: pathlib.Path, offsets: list[int], reached: bytes) -> list[Block]:
    """The blocks of one file that is made, by the lines of its sources."""
    asked = "\n".join(hex(it - 1) for it in offsets)
    said = subprocess.run(["addr2line", "-f", "-e", str(built)], input=asked, capture_output=True, text=True,
                          check=True).stdout.splitlines()
    found = []
    for offset, function, where in zip(offsets, said[::2], said[1::2]):
        path, _, line = where.partition(":")
        number = re.match(r"\d+", line)
        found.append(Block(function, pathlib.Path(path).name, int(number[0]) if number else 0, reached[offset] != 0))
    return found


def blocks(room: pathlib.Path) -> list[Block]:
    """All blocks of the library and the launcher."""
    reached = (room / "reached").read_bytes()
    found = []
    for name, first in ("libdetio_preload.so", 0), ("detio-launch", COVERED):
        built = room / "out" / name
        text = subprocess.run(["objdump", "-d", "--no-show-raw-insn", str(built)], capture_output=True, text=True,
                              check=True).stdout
        found += named(built, places(text), reached[first:first + COVERED])
    return found


def report(all_of: list[Block]) -> list[str]:
    """Functions no block of which was reached; then lines no block of which was, of the others; and how many."""
    functions: dict[tuple[str, str], bool] = {}
    lines: dict[tuple[str, int], bool] = {}
    of: dict[tuple[str, int], str] = {}
    for it in all_of:
        functions[it.file, it.function] = functions.get((it.file, it.function), False) or it.reached
        lines[it.file, it.line] = lines.get((it.file, it.line), False) or it.reached
        of[it.file, it.line] = it.function
    never = sorted(it for it, reached in functions.items() if not reached)
    rows = [f"{file}: {function}: no line" for file, function in never]
    by_function: dict[tuple[str, str], list[int]] = {}
    for (file, line), reached in sorted(lines.items()):
        if not reached and functions[file, of[file, line]]:
            by_function.setdefault((file, of[file, line]), []).append(line)
    rows += [f"{file}: {function}: {', '.join(map(str, found))}" for (file, function), found in by_function.items()]
    count = sum(lines.values())
    return [*rows, f"covered: {count} of {len(lines)} lines that begin a block were reached, and "
                   f"{len(functions) - len(never)} of {len(functions)} functions"]
