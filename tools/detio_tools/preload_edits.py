"""Wrong versions of the preload library: what tools/wrong-preloads reads of bindings/preload/wrong."""
import pathlib
from dataclasses import dataclass

CAUGHT = "# caught by: "


@dataclass(frozen=True)
class Change:
    """A text of a file, which stands in it once, and what is there in its place."""

    file: str
    old: str
    new: str


@dataclass(frozen=True)
class Wrong:
    """A wrong version: its name, the cases that catch it, and what it changes."""

    name: str
    cases: tuple[str, ...]
    changes: tuple[Change, ...]


def read(path: pathlib.Path) -> Wrong:
    """The wrong version of a file. Where a line begins with spaces, its texts keep all but the first."""
    cases, changes, file, old = [], [], None, None
    for number, line in enumerate(path.read_text(encoding="ascii").splitlines(), 1):
        if line.startswith(CAUGHT):
            cases.append(line.removeprefix(CAUGHT).strip())
        elif line.startswith("file: "):
            file = line.removeprefix("file: ").strip()
        elif line.startswith("old: ") and file and old is None:
            old = line.removeprefix("old: ")
        elif line.startswith("new:") and file and old is not None:
            changes.append(Change(file, old, line.removeprefix("new:").removeprefix(" ")))
            old = None
        elif line and not line.startswith("#"):
            raise ValueError(f"{path.name}:{number}: {line}")
    if not cases or not changes or old is not None:
        raise ValueError(f"{path.name}: it names no case or no change")
    return Wrong(path.stem, tuple(cases), tuple(changes))


def apply(wrong: Wrong, sources: pathlib.Path) -> None:
    """Makes the changes in a copy of the sources."""
    for it in wrong.changes:
        path = sources / it.file
        text = path.read_text(encoding="utf-8")
        if text.count(it.old) != 1:
            raise ValueError(f"{wrong.name}: {it.file} has {text.count(it.old)} times: {it.old}")
        path.write_text(text.replace(it.old, it.new), encoding="utf-8")
