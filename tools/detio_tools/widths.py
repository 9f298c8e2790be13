"""The widths of the sources that CONTRIBUTING.md gives."""
import pathlib
import re
from collections.abc import Iterator

from detio_tools.repository import TOP

CRATES = pathlib.Path(TOP) / "crates"
COMMENT = re.compile(r"\s*(//|--)")
# What `rt fmt` keeps as it is written: a clause, its further lines, and the operators that such a line begins with.
CLAUSE = re.compile(r"\s*(requires|ensures|invariant|decreases|ghost)\b|\s*[×→∙≡⊎]")
CLAUSES, PROOFS = 100, 120


def limit_of(path: pathlib.Path, line: str) -> int | None:
    """The most columns of this line, or none where no rule is for it."""
    if path.suffix == ".antt" and "specs" in path.parts:
        return CLAUSES
    if path.suffix == ".antt" or COMMENT.match(line):
        return PROOFS
    return CLAUSES if CLAUSE.match(line) else None


def too_long(path: pathlib.Path) -> Iterator[tuple[int, int]]:
    """The numbers of the lines of a file that are too long, each with its columns."""
    for number, line in enumerate(path.read_text(encoding="utf-8").splitlines(), 1):
        limit = limit_of(path, line)
        if limit is not None and len(line) > limit:
            yield number, len(line)


def sources(crates: list[str]) -> Iterator[pathlib.Path]:
    """The files of these crates that are held to a width, or those of all crates."""
    for crate in crates or sorted(it.name for it in CRATES.iterdir()):
        for part, ending in ("src", "rt"), ("specs", "antt"), ("proofs", "antt"):
            yield from sorted((CRATES / crate / part).rglob(f"*.{ending}"))
