"""The command line of the program, as its help texts have it."""
import functools
import re
import subprocess
import sys
from dataclasses import dataclass, field

HEADS = {"Commands:": "commands", "Arguments:": "arguments", "Options:": "options"}
# Values of these names are paths, or may be.
FILES = {"FILE", "SCRIPT", "TEXT", "PROGRAM", "ARGS"}
FOLDERS = {"DIR", "PREFIX"}


@dataclass
class Item:
    """A command, an argument or an option: how it is written, what it does, and the notes in brackets."""

    written: str
    about: str
    notes: list[str] = field(default_factory=list)

    @property
    def flags(self) -> list[str]:
        """Its names as an option, `-h` and `--help`."""
        return re.findall(r"(?<!\S)--?[A-Za-z][\w-]*", self.written)

    @property
    def values(self) -> list[str]:
        """The names of its values."""
        return re.findall(r"<(\S+?)>", self.written) or re.findall(r"\[(\w+)\]", self.written)

    @property
    def is_value_optional(self) -> bool:
        return "[<" in self.written

    @property
    def is_path(self) -> bool:
        return self.values[:1] != [] and self.values[0] in FILES

    @property
    def is_folder(self) -> bool:
        return self.values[:1] != [] and self.values[0] in FOLDERS

    @property
    def choices(self) -> list[str]:
        """The values that it may have, where its notes name them."""
        named = [it.removeprefix("possible values: ") for it in self.notes if it.startswith("possible values: ")]
        return named[0].split(", ") if named else []


@dataclass
class Help:
    """A help text in its parts. Above the usage and after the options stand lines of text."""

    name: str
    above: list[str]
    usage: str = ""
    commands: list[Item] = field(default_factory=list)
    arguments: list[Item] = field(default_factory=list)
    options: list[Item] = field(default_factory=list)
    after: list[str] = field(default_factory=list)

    @property
    def takes_paths(self) -> bool:
        return any(it.is_path for it in self.arguments)


@functools.cache
def printed(program: str, *words: str) -> str:
    ran = subprocess.run([program, *words], stdin=subprocess.DEVNULL, capture_output=True, text=True)
    if ran.returncode or ran.stderr:
        sys.exit(f"{program} {' '.join(words)}: status {ran.returncode}: {ran.stderr}")
    return ran.stdout


def parted(name: str, text: str) -> Help:
    """The parts of a help text."""
    lines = text.rstrip("\n").split("\n")
    at = next(number for number, line in enumerate(lines) if line.startswith("Usage: "))
    found = Help(name, stripped(lines[:at]), lines[at].removeprefix("Usage: "))
    items: list[Item] | None = None
    for number, line in enumerate(lines[at + 1 :], at + 1):
        if line in HEADS:
            items = getattr(found, HEADS[line])
        elif line.startswith(" ") and items is not None:
            add_line(items, line)
        elif line:
            found.after = stripped(lines[number:])
            break
    return found


def add_line(items: list[Item], line: str) -> None:
    """An item begins in the first columns. What is said of it stands there after two spaces, or in the lines below."""
    if not line.strip():
        return
    if len(line) - len(line.lstrip()) < 10:
        written, _, about = line.strip().partition("  ")
        items.append(Item(written, about.strip()))
    elif line.strip().startswith("["):
        items[-1].notes.append(line.strip()[1:-1])
    else:
        items[-1].about = f"{items[-1].about} {line.strip()}".strip()


def stripped(lines: list[str]) -> list[str]:
    """The lines without empty ones at both ends."""
    text = "\n".join(lines).strip("\n")
    return text.split("\n") if text else []


def read(program: str) -> tuple[Help, list[Help]]:
    """The help of the program, and that of each of its commands but `help`, of which there is only a line."""
    top = parted("detio", printed(program, "--help"))
    names = [it.written for it in top.commands if it.written != "help"]
    return top, [parted(name, printed(program, name, "--help")) for name in names]
