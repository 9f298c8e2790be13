"""The reading list of docs/PROMISES.md by the files of specs/, and the list of crates in docs/map.md by crates.txt."""
import glob
import os
import re
import textwrap
from collections.abc import Iterator

from detio_tools import repository

PAGE = "docs/PROMISES.md"
# The group of the list that is not of the headline.
COMMANDS = 9
MAP = "docs/map.md"
CRATES = "<!-- what is between these two lines is made by tools/reading-list --write -->"
WIDTH = 120
GROUP = re.compile(
    r"^(?P<index>\d+)\. \*\*.*?(?=^\d+\. \*\*|^For the commands|^\*\*How|\Z)", re.S | re.M
)
OF_CRATE = re.compile(r"   - \[`(?P<crate>\w+)`\].*?(?=\n   - |\Z)", re.S)
FILE = re.compile(r"`(?P<name>[A-Z]\w*)`(?P<gap>\s+)(?P<lines>\d+)(?P<needed>\s+\([^)]*\))?")
# With which files to begin, and their count as a word.
BEGIN = re.compile(r"Begin with these \w+ files, [\d,]+ lines:.*?(?=\n\n|\Z)", re.S)
LINKED = re.compile(r"\]\(\.\./(crates/[^)]*)\)")
COUNTS = ["no", "one", "two", "three", "four", "five", "six", "seven", "eight", "nine", "ten"]


def number(count: int) -> str:
    return f"{count:,}"


def text_of(path: str) -> str:
    with open(path, encoding="utf-8") as file:
        return file.read()


def lines_of(path: str) -> int:
    with open(path, encoding="utf-8") as file:
        return sum(1 for _ in file)


def believed(path: str) -> bool:
    """Whether the first line of a file says that it is believed."""
    with open(path, encoding="utf-8") as file:
        return file.readline().startswith("-- Believed:")


class List:
    """The list as it stands on the page: groups of crates, and of each crate its files with their lengths."""

    def __init__(self) -> None:
        self.faults: list[str] = []
        # The files that are listed, and how many files and lines each group has.
        self.found: set[str] = set()
        self.sums: dict[int, tuple[int, int]] = {}

    def entry(self, group: int, crate: str, file: re.Match[str]) -> str:
        """A file of the list, with its right length."""
        path = f"crates/{crate}/specs/{file['name']}.antt"
        if not os.path.exists(path):
            self.faults.append(f"{path}: there is no such file")
            return file[0]
        if path in self.found:
            self.faults.append(f"{path}: listed twice")
        length = lines_of(path)
        self.found.add(path)
        files, lines = self.sums.get(group, (0, 0))
        self.sums[group] = (files + 1, lines + length)
        if int(file["lines"]) != length:
            self.faults.append(f"{path}: {length} lines, and not {file['lines']}")
        needed = file["needed"] or ""
        for name in re.findall(r"`([^`]*)`", needed):
            if name not in re.findall(r"[^\s(){}.,:;]+", text_of(path)):
                self.faults.append(f"{path}: there is no {name}")
        return f"`{file['name']}`{file['gap']}{length}{needed}"

    def crate(self, group: int, match: re.Match[str]) -> str:
        """The files of a crate in the list, with their right lengths."""
        return FILE.sub(lambda file: self.entry(group, match["crate"], file), match[0])

    def group(self, match: re.Match[str]) -> str:
        """A group of crates in the list, with its right numbers."""
        index = int(match["index"])
        body = OF_CRATE.sub(lambda it: self.crate(index, it), match[0])
        files, lines = self.sums.get(index, (0, 0))
        return self.said(body, r"\*\*: [\d,]+ files, [\d,]+ lines\.", f"**: {files} files, {number(lines)} lines.")

    def beginning(self, match: re.Match[str]) -> str:
        """The files to begin with, with their right numbers."""
        paths = LINKED.findall(match[0])
        for path in paths:
            if path not in self.found:
                self.faults.append(f"{path}: one begins with it, and it is not listed")
        lines = sum(lines_of(it) for it in paths if os.path.exists(it))
        count = COUNTS[len(paths)] if len(paths) < len(COUNTS) else str(len(paths))
        wanted = f"Begin with these {count} files, {number(lines)} lines:"
        return self.said(match[0], r"Begin with these \w+ files, [\d,]+ lines:", wanted)

    def said(self, text: str, pattern: str, wanted: str) -> str:
        """The text with what is wanted in the place of what has this pattern."""
        found = re.search(pattern, text)
        if found is None:
            self.faults.append(f"nowhere: {wanted}")
            return text
        if re.sub(r"\s+", " ", found[0]) == wanted:
            return text
        self.faults.append(f"{wanted!r}, and not {found[0]!r}")
        return text[: found.start()] + wanted + text[found.end() :]


def corrected(text: str) -> tuple[str, list[str]]:
    """The page with its right numbers, and what is wrong with it as it stands."""
    page = List()
    text = GROUP.sub(page.group, text)
    headline = [page.sums[index] for index in page.sums if index < COMMANDS]
    files, lines = sum(it[0] for it in headline), sum(it[1] for it in headline)
    more, more_lines = page.sums.get(COMMANDS, (0, 0))
    counted = r"[\d,]+ files, [\d,]+ lines"
    text = page.said(text, f"in this order: {counted}", f"in this order: {files} files, {number(lines)} lines")
    besides = f"read these besides: {more} files, {number(more_lines)} lines"
    text = page.said(text, f"read these besides: {counted}", besides)
    together = f"Together that is {files + more} files and {number(lines + more_lines)} lines"
    text = page.said(text, r"Together that is\s+[\d,]+ files and\s+[\d,]+\s+lines", together)
    text = BEGIN.sub(page.beginning, text)
    rest = other_files(page)
    text = page.said(text, f"The other {counted}", f"The other {len(rest)} files, {number(sum(rest))} lines")
    return text, page.faults


def other_files(page: List) -> list[int]:
    """The lengths of the files of specs/ that are not believed. One that is listed, or not, wrongly is a fault."""
    rest = []
    for path in sorted(glob.glob("crates/*/specs/**/*.antt", recursive=True)):
        if os.path.basename(path) == "Lib.antt":
            continue
        if not believed(path):
            rest.append(lines_of(path))
        if believed(path) != (path in page.found):
            wrong = "believed, and not listed" if believed(path) else "listed, and not believed"
            page.faults.append(f"{path}: {wrong}")
    return rest


def first_sentence(crate: str) -> str:
    """What the comment at the head of a crate says first."""
    path = next(it for it in (f"crates/{crate}/src/lib.rt", f"crates/{crate}/src/main.rt") if os.path.exists(it))
    words: list[str] = []
    with open(path, encoding="utf-8") as file:
        for line in file:
            if not line.startswith("//! "):
                break
            words += line[4:].split()
            if words[-1].endswith("."):
                break
    found = re.match(r".*?\.(?= |$)", " ".join(words))
    return found[0] if found else f"{path} has no first sentence"


def crate_lines() -> Iterator[str]:
    """The lines of the list of crates."""
    for crate in repository.crates(repository.read("crates.txt")):
        entry = f"- [`{crate}`](../crates/{crate}/src): {first_sentence(crate)}"
        yield from textwrap.wrap(entry, WIDTH, subsequent_indent="  ", break_long_words=False, break_on_hyphens=False)


def with_crates(text: str) -> str:
    front, _, end = text.split(CRATES)
    return f"{front}{CRATES}\n" + "\n".join(crate_lines()) + f"\n{CRATES}{end}"


def corrected_map(text: str) -> tuple[str, list[str]]:
    """The map with the list of crates, and what is wrong with it as it stands."""
    if text.count(CRATES) != 2:
        return text, [f"{MAP}: the lines round the list of crates are not there: {CRATES}"]
    wanted = with_crates(text)
    return wanted, [] if wanted == text else [f"{MAP}: the list of crates is another: tools/reading-list --write"]
