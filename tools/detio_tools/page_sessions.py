"""The sessions that the pages show, run again: what tools/doc-runs does with each page.

A page is Markdown. A block of it is indented by four spaces, or fenced. A block that begins with `$` is a session: each
line that begins with `$` is a command, which a `\\` at its end carries on. The lines up to the next command are what it
prints, on standard output or standard error. A line `..` stands for lines that are left out, one at least.

A line before a block may be a mark, which does not show:

    <!-- not run: REASON -->        the block is not run, for this reason
    <!-- needs: NAME, NAME -->      it is run where this is there: `the library`, or a program, with a version or none
    <!-- numbers differ: REASON --> it is run, and each number that it prints may be another
"""
import contextlib
import os
import pathlib
import re
import shlex
import shutil
import signal
import subprocess
from collections.abc import Iterator, Sequence
from dataclasses import dataclass, field

from detio_tools import runs

INDENT = "    "
FENCE = "```"
COMMENT = re.compile(r"<!--\s*(?P<text>.*?)\s*-->")
LIBRARY = "the library"
NOT_RUN, NEEDS, NUMBERS = "not run", "needs", "numbers differ"
KINDS = NOT_RUN, NEEDS, NUMBERS
LEFT_OUT = ".."
# How long the commands of a page may take together.
SECONDS = 180
# How many lines of what was printed a fault has.
SHOWN = 40
# What has tools print something else than on a terminal of the reader's: pytest does not cut its lines where CI is set.
PRINTS_OTHERWISE = frozenset([
    "BUILD_NUMBER", "CARGO_TERM_COLOR", "CI", "CLICOLOR_FORCE", "COLUMNS", "FORCE_COLOR", "GITHUB_ACTIONS", "LINES",
    "NO_COLOR", "PYTEST_ADDOPTS", "PY_COLORS", "RUST_BACKTRACE", "TERM"])
# What a command is run by: it finds the status of the one before, and leaves its own; both of its streams are kept.
STEP = """doc_runs_text=$(cat {kept}/{at}.command)
(exit "$doc_runs_last"); eval "$doc_runs_text" > {kept}/{at}.printed 2>&1 < /dev/null
doc_runs_last=$?; echo "$doc_runs_last" > {kept}/{at}.status
"""


class PageFault(Exception):
    """What is wrong with a page, as it stands."""


@dataclass(frozen=True)
class Command:
    """A command of a page, the number of its line there, and what it is to print."""

    line: int
    text: str
    wanted: tuple[str, ...]


@dataclass(frozen=True)
class Block:
    """A block that begins with `$`, the number of its first line, and its mark: which, and what it says."""

    line: int
    commands: tuple[Command, ...]
    mark: tuple[str, str] = ("", "")

    def needs(self) -> list[str]:
        """What must be there for it to be run."""
        return [it.strip() for it in self.mark[1].split(",")] if self.mark[0] == NEEDS else []

    @property
    def numbers_differ(self) -> bool:
        return self.mark[0] == NUMBERS


@dataclass
class Counts:
    """What came of some pages."""

    blocks: int = 0
    commands: int = 0
    faults: list[str] = field(default_factory=list)
    # Of each block that was not run its place, the reason, and how many commands it has.
    marked: list[tuple[str, str, int]] = field(default_factory=list)
    left_out: list[tuple[str, str, int]] = field(default_factory=list)

    def add(self, other: "Counts") -> None:
        self.blocks += other.blocks
        self.commands += other.commands
        self.faults += other.faults
        self.marked += other.marked
        self.left_out += other.left_out


def mark_of(number: int, text: str) -> tuple[str, str] | None:
    """The mark that a line is, or None."""
    comment = COMMENT.fullmatch(text)
    kind, colon, says = comment["text"].partition(":") if comment else ("", "", "")
    if kind.strip() not in KINDS:
        return None
    parts = says.split(",") if kind.strip() == NEEDS else [says]
    if not colon or not all(it.strip() for it in parts):
        raise PageFault(f"{number}: a mark without a reason")
    return kind.strip(), says.strip()


def bodies(lines: list[str]) -> Iterator[tuple[int, list[str]]]:
    """The blocks of a page, each with the number of its first line, without what indents or fences it."""
    at = 0
    while at < len(lines):
        begun = at
        if lines[at].startswith(FENCE):
            at += 1
            while at < len(lines) and not lines[at].startswith(FENCE):
                at += 1
            yield begun + 2, lines[begun + 1:at]
        elif lines[at].startswith(INDENT) and (at == 0 or not lines[at - 1] or COMMENT.fullmatch(lines[at - 1])):
            while at < len(lines) and (lines[at].startswith(INDENT) or not lines[at]):
                at += 1
            while not lines[at - 1]:
                at -= 1
            yield begun + 1, [it.removeprefix(INDENT) for it in lines[begun:at]]
            continue
        at += 1


def commands_of(number: int, body: list[str]) -> tuple[Command, ...]:
    """The commands of a block, of which the first stands on the line with this number."""
    found: list[tuple[int, list[str], list[str]]] = []
    for at, line in enumerate(body, number):
        if line.startswith("$ "):
            found.append((at, [line.removeprefix("$ ")], []))
        elif found[-1][1][-1].endswith("\\") and not found[-1][2]:
            found[-1][1].append(line.strip())
        else:
            found[-1][2].append(line)
    return tuple(Command(at, "\n".join(text), tuple(wanted)) for at, text, wanted in found)


def blocks_of(text: str) -> list[Block]:
    """The blocks of a page that begin with `$`. Marks that mark nothing are faults, and so are commands elsewhere."""
    lines = text.split("\n")
    marks = {at: mark for at, line in enumerate(lines, 1) if (mark := mark_of(at, line))}
    found, seen = [], set()
    for number, body in bodies(lines):
        if not body or not body[0].startswith("$ "):
            continue
        fenced = lines[number - 2].startswith(FENCE) if number > 1 else False
        before = number - (2 if fenced else 1)
        if before and before not in marks and COMMENT.fullmatch(lines[before - 1]):
            raise PageFault(f"{before}: not run, needs and numbers differ are marks, and this is none")
        found.append(Block(number, commands_of(number, body), marks.pop(before, ("", ""))))
        seen |= {it.line for it in found[-1].commands}
    if marks:
        raise PageFault(f"{min(marks)}: a mark with no block that begins with $ on the line after it")
    for at, line in enumerate(lines, 1):
        if line.lstrip().startswith("$ ") and at not in seen:
            raise PageFault(f"{at}: a command in a block that does not begin with $, or in none")
    return found


def pattern(wanted: tuple[str, ...]) -> re.Pattern[str]:
    """What is printed where these lines are wanted."""
    return re.compile("".join("(?:.*\n)+" if it == LEFT_OUT else re.escape(it) + "\n" for it in wanted))


def is_so(printed: str, wanted: tuple[str, ...], numbers_differ: bool) -> bool:
    """Whether a command printed what the page has."""
    if printed and not printed.endswith("\n"):
        printed += "\n"
    if numbers_differ:
        printed, wanted = re.sub(r"\d+", "0", printed), tuple(re.sub(r"\d+", "0", it) for it in wanted)
    return bool(pattern(wanted).fullmatch(printed))


class Room:
    """A folder for what pages need of the tree, and for what they make; the program, and the library or none."""

    def __init__(self, top: str, folder: pathlib.Path, program: str, library: str | None = None,
                 seconds: float = SECONDS) -> None:
        self.top, self.folder, self.program, self.library, self.seconds = top, folder, program, library, seconds

    def has(self, need: str) -> bool:
        """Whether this is there: the library, or a program, whose `--version` has these words."""
        if need == LIBRARY:
            return self.library is not None
        name, *version = need.split()
        if not version or not shutil.which(name):
            return bool(shutil.which(name))
        said = subprocess.run([name, "--version"], capture_output=True, text=True, timeout=SECONDS, check=False)
        return version[0] in f"{said.stdout} {said.stderr}".split()

    def furnish(self, here: pathlib.Path) -> None:
        """Puts into a folder what pages need: the examples, `./detio`, and the library with what stands beside it."""
        here.mkdir()
        shutil.copytree(f"{self.top}/examples", here / "examples")
        launcher = ""
        if self.library:
            launcher = f"  run | rerun) exec {shlex.quote(self.library)}/detio-launch \"$@\" ;;\n"
        detio = here / "detio"
        program = shlex.quote(self.program)
        detio.write_text(f"#!/bin/sh\ncase $1 in\n{launcher}  *) exec {program} \"$@\" ;;\nesac\n", encoding="utf-8")
        detio.chmod(0o755)
        if self.library:
            ignored = shutil.ignore_patterns("out", "target", "__pycache__")
            shutil.copytree(f"{self.top}/bindings", here / "bindings", ignore=ignored)
            shutil.copytree(self.library, here / "bindings/out", symlinks=True)

    def run(self, commands: list[Command], name: str) -> list[tuple[int | None, str]]:
        """Runs commands in one shell and a folder of their own. Of each its status, or None where it has no end, and
        what it printed."""
        here, kept = self.folder / name, self.folder / f"{name}.kept"
        self.furnish(here)
        kept.mkdir()
        for at, command in enumerate(commands):
            (kept / f"{at}.command").write_text(command.text, encoding="utf-8")
        steps = "".join(STEP.format(kept=shlex.quote(str(kept)), at=at) for at in range(len(commands)))
        self.run_shell(f"doc_runs_last=0\n{steps}", here)
        return [ended(kept, at) for at in range(len(commands))]

    def run_shell(self, script: str, here: pathlib.Path) -> None:
        """Has a shell run this script in a folder, and takes away what it left in the background."""
        shell = subprocess.Popen(["bash", "-c", script], cwd=here, env={**plain_environment(), "LC_ALL": "C.UTF-8"},
                                 stdin=subprocess.DEVNULL, stdout=subprocess.DEVNULL, stderr=subprocess.DEVNULL,
                                 start_new_session=True)
        with contextlib.suppress(subprocess.TimeoutExpired):
            shell.wait(self.seconds)
        with contextlib.suppress(ProcessLookupError):
            os.killpg(shell.pid, signal.SIGKILL)
        shell.wait()


def plain_environment() -> dict[str, str]:
    """The environment without what would have a tool or the program do, or print, something else."""
    return {name: it for name, it in os.environ.items()
            if name in runs.PASSED or not name.startswith("DETIO") and name not in PRINTS_OTHERWISE}


def ended(kept: pathlib.Path, at: int) -> tuple[int | None, str]:
    """The status of this command, or None where it has no end, and what it printed."""
    printed, status = kept / f"{at}.printed", kept / f"{at}.status"
    text = printed.read_text(encoding="utf-8", errors="replace") if printed.exists() else ""
    return int(status.read_text(encoding="ascii")) if status.exists() else None, text


def fault_of(command: Command, numbers_differ: bool, status: int | None, printed: str) -> str | None:
    """What is wrong with what a command printed, or None."""
    if status is None:
        return "has no end, or was not begun, within the time that a page may take"
    if is_so(printed, command.wanted, numbers_differ):
        return None
    wanted = indented(command.wanted)
    return f"printed, with status {status},\n{indented(printed.splitlines())}\nand the page has\n{wanted}"


def indented(lines: Sequence[str]) -> str:
    return "\n".join(f"{INDENT}{it}" for it in lines[:SHOWN] or ["nothing"])


def try_page(path: str, text: str, room: Room) -> Counts:
    """Runs the blocks of a page, in their order."""
    counts, given = Counts(), []
    try:
        blocks = blocks_of(text)
    except PageFault as found:
        counts.faults.append(f"{path}:{found}")
        return counts
    for block in blocks:
        place, count = f"{path}:{block.line}", len(block.commands)
        missing = [it for it in block.needs() if not room.has(it)]
        if block.mark[0] == NOT_RUN:
            counts.marked.append((place, block.mark[1], count))
        elif missing:
            reason = "no library is given" if missing[0] == LIBRARY else f"there is no {missing[0]} here"
            counts.left_out.append((place, reason, count))
        else:
            given += [(block, it) for it in block.commands]
            counts.blocks += 1
    ran = room.run([it for _, it in given], path.replace("/", "-")) if given else []
    for (block, command), (status, printed) in zip(given, ran):
        counts.commands += 1
        fault = fault_of(command, block.numbers_differ, status, printed)
        if fault:
            counts.faults.append(f"{path}:{command.line}: {command.text}\n{fault}")
    return counts
