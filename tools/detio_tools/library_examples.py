"""The examples in the comments of the libraries, tried: what tools/doc-runs --libraries does.

An example is a block ```rust of a comment `//!` or `///`. It takes as given what a program has: `rt`, the runtime, and
`alloc`, its allocator; and where it hands on a failure by `?`, whoever calls it. All examples of the repository go into
one crate of tests, in a copy of the sources, each in a module of its own. Its statements are the body of a test, and
its items, as functions and constants, stand beside that. `rt try --test` compiles and runs them, and proves nothing.
"""
import os
import pathlib
import re
import shutil
import subprocess
from collections.abc import Iterator
from dataclasses import dataclass

from detio_tools import repository

CRATE = "library_examples"
FENCE = "```"
COMMENT = re.compile(r"\s*//[/!] ?(?P<text>.*)")
IMPORT = re.compile(r"(ghost )?use ")
ITEM = re.compile(r"(ghost )?(pub )?(fn|const|struct|enum|impl|static|trait|type)\b|#\[")
HEAD = """//! The examples of the libraries.
#![tactic(auto)]
"""
TEST = "#[test]", "fn runs(rt: HostRuntime) -> Result<(), std::test::Fail> {", "    let alloc = rt.alloc();"
MAIN = re.compile(r"fn main\(")
# How the kit names a place of the crate of the examples, or a test of it.
PLACE = re.compile(r"(?:src/)?(?P<name>example_\d+_of_\w+)(?:\.rt:(?P<line>\d+)|::runs)?")
# What `rt try --test` says where all tests have passed.
PASSED = re.compile(r"^test result: ok\. (?P<count>\d+) passed; 0 failed;", re.M)
SECONDS = 900


@dataclass(frozen=True)
class Example:
    """An example: the crate in whose comments it stands, the file, the number of its first line there, its lines."""

    crate: str
    path: str
    line: int
    lines: tuple[str, ...]

    @property
    def is_run(self) -> bool:
        """Whether it has something to run. Another one only compiles."""
        _, items, statements = parts(self.lines)
        return any(self.lines[it].strip() for it in statements) or any(MAIN.match(self.lines[it]) for it in items)


def in_text(crate: str, path: str, text: str) -> Iterator[Example]:
    """The examples in the comments of a file."""
    began = 0
    lines: list[str] | None = None
    for number, line in enumerate(text.split("\n"), 1):
        comment = COMMENT.fullmatch(line)
        words = comment["text"] if comment else ""
        if lines is None and words == FENCE + "rust":
            began, lines = number + 1, []
        elif lines is not None and (not comment or words == FENCE):
            yield Example(crate, path, began, tuple(lines))
            lines = None
        elif lines is not None:
            lines.append(words)


def of_repository(top: str) -> list[Example]:
    """The examples of all crates, in the order of crates.txt."""
    found: list[Example] = []
    for crate in repository.crates(pathlib.Path(top, "crates.txt").read_text(encoding="utf-8")):
        for path in sorted(pathlib.Path(top, "crates", crate, "src").rglob("*.rt")):
            found += in_text(crate, str(path.relative_to(top)), path.read_text(encoding="utf-8"))
    return found


def parts(lines: tuple[str, ...]) -> tuple[list[int], list[int], list[int]]:
    """The lines of an example apart: its imports, its items and its statements.

    What begins at the first column goes on to the line before the next that does so, a closing bracket aside. Comments
    and empty lines go with what follows them."""
    found: tuple[list[int], list[int], list[int]] = [], [], []
    waiting: list[int] = []
    into = found[2]
    for at, line in enumerate(lines):
        if not line or line.startswith("//"):
            waiting.append(at)
            continue
        if not line.startswith((" ", "}", ")", "]")) and not (into is found[1] and line.startswith("{")):
            into = found[0] if IMPORT.match(line) else found[1] if ITEM.match(line) else found[2]
        into += [*waiting, at]
        waiting = []
    return found


def module(example: Example) -> list[tuple[str, int | None]]:
    """The file of an example, line by line, each with the number of the line of the example that it is, from 0."""
    imports, items, statements = parts(example.lines)
    text: list[tuple[str, int | None]] = [(example.lines[it], it) for it in imports]
    for it in items:
        main = MAIN.match(example.lines[it])
        text += [("#[test]", None)] if main else []
        text.append((MAIN.sub("fn runs(", example.lines[it]), it))
    if any(example.lines[it].strip() for it in statements):
        text += [(it, None) for it in TEST]
        text += [(f"    {example.lines[it]}".rstrip(), it) for it in statements]
        text += [("    Ok(())", None), ("}", None)]
    return text


def name_of(number: int, example: Example) -> str:
    return f"example_{number}_of_{example.crate}"


def in_the_repository(said: str, examples: list[Example]) -> str:
    """What the kit says of the crate of the examples, with the places of the repository in place of that crate's."""
    names = {name_of(*it): it[1] for it in enumerate(examples)}

    def place(found: re.Match[str]) -> str:
        example = names.get(found["name"])
        if not example:
            return found[0]
        if not found["line"]:
            return f"{example.path}:{example.line}"
        known = [at for _, at in module(example)[:int(found["line"])] if at is not None]
        return f"{example.path}:{example.line + (known[-1] if known else 0)}"

    return PLACE.sub(place, said)


def write_crate(examples: list[Example], top: str, room: pathlib.Path) -> pathlib.Path:
    """Writes the crate of the examples beside copies of the sources of all crates, and returns its folder."""
    for crate in os.listdir(f"{top}/crates"):
        for part in "src", "specs":
            if os.path.isdir(f"{top}/crates/{crate}/{part}"):
                shutil.copytree(f"{top}/crates/{crate}/{part}", room / "crates" / crate / part)
    shutil.copy(f"{top}/HANDLES", room)
    text = pathlib.Path(top, "crates.txt").read_text(encoding="utf-8").rstrip("\n")
    spoken = "\n".join(line for it in examples for line in it.lines)
    uses = [it for it in repository.crates(text) if re.search(rf"\b{it}::", spoken)]
    (room / "crates.txt").write_text(f"{text}\n{CRATE}: {' '.join([*uses, 'anyhow'])}\n", encoding="utf-8")
    source = room / "crates" / CRATE / "src"
    source.mkdir(parents=True)
    for number, example in enumerate(examples):
        lines = "\n".join(it for it, _ in module(example))
        (source / f"{name_of(number, example)}.rt").write_text(f"{lines}\n", encoding="utf-8")
    modules = "".join(f"\n#[cfg(test)]\nmod {name_of(*it)};\n" for it in enumerate(examples))
    (source / "lib.rt").write_text(f"{HEAD}{modules}", encoding="utf-8")
    return source.parent


def fault_of(examples: list[Example], top: str, room: pathlib.Path) -> str | None:
    """What is wrong with these examples, as `rt try --test` says it, or None. The folder is for what is made."""
    folder = write_crate(examples, top, room)
    wanted = sum(it.is_run for it in examples)
    ran = subprocess.run(["rt", "try", "--test"], cwd=folder, stdin=subprocess.DEVNULL, stdout=subprocess.PIPE,
                         stderr=subprocess.STDOUT, text=True, timeout=SECONDS, check=False)
    passed = PASSED.search(ran.stdout)
    if ran.returncode == 0 and passed and int(passed["count"]) == wanted:
        return None
    return f"{in_the_repository(ran.stdout, examples).strip()}\nstatus {ran.returncode}, of {wanted} tests"
