"""The repository: its crates, and what each uses."""
import os
import re

TOP = os.path.dirname(os.path.dirname(os.path.dirname(os.path.realpath(__file__))))
# What a check of a crate reads of it, and what is kept for the crates above it.
PARTS = ["src", "specs", "proofs"]
LIBRARY = "out/rlib"
CRATE = re.compile(r"(?P<name>\w+)(?P<settings>[^:]*):(?P<uses>.*)")


def crates(text: str) -> dict[str, list[str]]:
    """The crates that a crates.txt lists, in its order, each with the libraries that it uses."""
    lines = [CRATE.fullmatch(line) for line in text.split("\n") if not line.startswith("#")]
    return {it["name"]: it["uses"].split() for it in lines if it}


def static(text: str) -> frozenset[str]:
    """The crates of a crates.txt that are static libraries."""
    lines = [CRATE.fullmatch(line) for line in text.split("\n") if not line.startswith("#")]
    return frozenset(it["name"] for it in lines if it and "staticlib" in it["settings"].split())


def below(uses: dict[str, list[str]], crate: str) -> list[str]:
    """The crates of the repository below this one, in the order of the list."""
    found: set[str] = set()
    left = [crate]
    while left:
        more = set(uses[left.pop()]) & set(uses) - found
        found |= more
        left += more
    return [it for it in uses if it in found]


def read(path: str) -> str:
    with open(f"{TOP}/{path}", encoding="utf-8") as file:
        return file.read()
