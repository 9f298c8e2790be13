"""Refusals of must-fail edits that an earlier gate on this machine saw. Each is kept by the sum of all that it rests on:
the kit, these tools, the edits of its crate, and the texts of the crate and of those below."""
import functools
import hashlib
import os
import shutil
import subprocess
import tempfile
import time
from collections.abc import Iterator
from dataclasses import dataclass

from detio_tools import prover, repository

# The tools that try an edit and judge it, and what of the kit does.
TOOLS = ["edits", *(f"detio_tools/{it}.py" for it in ("edits", "kept", "prover", "repository", "trials"))]
KIT = ["bin", "rlibs", "logic_built", "rattle/logic"]
# After so many seconds what is kept is removed.
LONGEST = 30 * 24 * 60 * 60


def folder() -> str:
    """Where they are kept."""
    caches = os.environ.get("XDG_CACHE_HOME") or os.path.expanduser("~/.cache")
    return f"{caches}/detio/edits"


def sum_of(texts: list[bytes]) -> str:
    """One sum of these texts, each with its length."""
    summed = hashlib.sha256()
    for text in texts:
        summed.update(b"%d:" % len(text))
        summed.update(text)
    return summed.hexdigest()


def files_in(place: str) -> Iterator[str]:
    """The paths of all files below a folder, in one order."""
    for at, folders, names in os.walk(place):
        folders.sort()
        yield from (f"{at}/{name}" for name in sorted(names))


def text_of(path: str) -> bytes:
    """What stands in a file, or where a link leads."""
    if os.path.islink(path):
        return os.readlink(path).encode()
    with open(path, "rb") as file:
        return file.read()


@functools.cache
def sum_of_judges() -> str:
    """The sum of the kit, by the names, sizes and times of its files, and of the tools."""
    kit = prover.kit()
    version = subprocess.run(["rt", "--version"], capture_output=True, check=True).stdout
    there = [shutil.which(prover.RATTLE) or "", *(it for part in KIT for it in files_in(f"{kit}/{part}"))]
    stats = [(it, os.stat(it, follow_symlinks=False)) for it in there if it]
    marks = [f"{it} {stat.st_size} {stat.st_mtime_ns}".encode() for it, stat in stats]
    return sum_of([version, *marks, *(text_of(f"{repository.TOP}/tools/{it}") for it in TOOLS)])


def sum_of_parts(place: str, parts: list[str]) -> str:
    """The sum of the paths and texts in these parts of a crate's folder."""
    paths = [it for part in parts for it in files_in(f"{place}/{part}")]
    return sum_of([text for it in paths for text in (os.path.relpath(it, place).encode(), text_of(it))])


@dataclass(frozen=True)
class Kept:
    """The refusals that are kept of the edits of a repository."""

    top: str
    proved: prover.Proved
    room: str

    def places(self, crates: list[str]) -> dict[str, str]:
        """Of each of these crates the beginning of the names of the files that keep its refusals, by what stands there
        now."""
        uses, sums = self.proved.uses, dict[str, str]()
        for crate in dict.fromkeys(it for crate in crates for it in [crate, *repository.below(uses, crate)]):
            sums[crate] = sum_of_parts(f"{self.top}/crates/{crate}", repository.PARTS)
        found = dict[str, str]()
        for crate in crates:
            kind = "static" if crate in self.proved.static else "library"
            own = sum_of_parts(f"{self.top}/crates/{crate}", ["must-fail"])
            read = [text for it in [crate, *repository.below(uses, crate)] for text in (it, *uses[it], sums[it])]
            found[crate] = sum_of([it.encode() for it in (sum_of_judges(), kind, own, *read)])
        return found

    def line(self, place: str, edit: str) -> str | None:
        """How this edit was refused, if that was seen."""
        name = f"{place}-{edit}"
        try:
            first, _, line = text_of(f"{self.room}/{name}").decode().partition("\n")
        except (OSError, UnicodeDecodeError):
            return None
        return line.removesuffix("\n") if first == name and line.endswith("\n") and line != "\n" else None

    def keep(self, place: str, edit: str, line: str) -> None:
        """Keeps how it was refused. Where that cannot be written, nothing is kept."""
        name = f"{place}-{edit}"
        try:
            os.makedirs(self.room, exist_ok=True)
            with tempfile.NamedTemporaryFile("w", dir=self.room, delete=False, encoding="utf-8") as file:
                file.write(f"{name}\n{line}\n")
            os.replace(file.name, f"{self.room}/{name}")
        except OSError:
            pass

    def clear(self) -> None:
        """Removes what has been kept for long."""
        for path in files_in(self.room):
            try:
                if os.stat(path).st_mtime < time.time() - LONGEST:
                    os.remove(path)
            except OSError:
                pass
