"""The prover, called as `rattle check --help` has it, over the libraries that `rt ci` or `rt lib` left."""
import functools
import os
import shutil
import subprocess
import sys
from dataclasses import dataclass

from detio_tools import repository

RATTLE = "rattle"


@functools.cache
def kit() -> str:
    """The folder of the kit."""
    program = shutil.which("rt")
    if not program:
        sys.exit("there is no rt on the path")
    page = subprocess.run([program, "doc"], capture_output=True, text=True, check=True).stdout
    return os.path.dirname(page.strip())


@dataclass(frozen=True)
class Proved:
    """A copy of the repository, with what was proved of its libraries."""

    top: str
    uses: dict[str, list[str]]
    static: frozenset[str]

    def library(self, crate: str) -> str:
        """Where the library of a crate is kept."""
        return f"{self.top}/crates/{crate}/{repository.LIBRARY}/{crate}.rlib"

    def lacking(self, crate: str) -> list[str]:
        """The crates below this one of which no library is kept."""
        return [it for it in repository.below(self.uses, crate) if not os.path.isdir(self.library(it))]

    def words(self, crate: str) -> list[str]:
        """What every call of the prover is given for this crate."""
        given = ["--crate-name", crate, "src/lib.rt", "--extern", f"std={kit()}/rlibs/std.rlib"]
        for name in self.uses[crate]:
            library = self.library(name) if name in self.uses else f"{kit()}/rlibs/{name}.rlib"
            given += ["--extern", f"{name}={library}"]
        given += ["-L", f"dependency={kit()}/rlibs"]
        for name in repository.below(self.uses, crate):
            given += ["-L", f"dependency={os.path.dirname(self.library(name))}"]
        given += ["--antt-project", f"{kit()}/rattle/logic/antt-project.json", "--logic-built", f"{kit()}/logic_built"]
        given += ["--links", f"{crate}="]
        return [*given, "--crate-type", "staticlib"] if crate in self.static else given


def proved(top: str) -> Proved:
    """The repository at this folder."""
    with open(f"{top}/crates.txt", encoding="utf-8") as file:
        text = file.read()
    return Proved(top, repository.crates(text), repository.static(text))


def check(words: list[str], folder: str) -> tuple[int, str]:
    """The status of a check of the crate in this folder by one process, and what it said. What is killed, most likely
    for memory, is tried once more."""
    for _ in range(2):
        ran = subprocess.run(
            [RATTLE, "check", *words, "--jobs", "1"], cwd=folder, encoding="utf-8", errors="replace",
            stdin=subprocess.DEVNULL, stdout=subprocess.PIPE, stderr=subprocess.STDOUT,
        )
        if ran.returncode >= 0:
            break
    return ran.returncode, ran.stdout
