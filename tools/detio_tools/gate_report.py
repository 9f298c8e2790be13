"""What the gate says at its end: what failed, which crates took most, and what was left out."""
import json
import os
import re
from collections import Counter
from dataclasses import dataclass

from detio_tools.processor_time import Part

# How many crates are named.
DEAREST = 20
# What the parts of the gate print of what failed, and of what was not looked at.
FAILED = re.compile(r"^(?:rt: (\S+) NOT PROVED|rt: FAILED: (.+)|FAILED +(.+))$", re.M)
LEFT_OUT = re.compile(r"^(?:left out: .*|.*: left out(?: \(.*)?)$", re.M)


@dataclass(frozen=True)
class Report:
    """What failed, the seconds of processor time of each crate, and what was left out."""

    failures: list[str]
    took: Counter[str]
    left_out: list[str]

    def dearest(self) -> list[tuple[str, int]]:
        """The crates that took most, the dearest first."""
        return sorted(self.took.items(), key=lambda it: (-it[1], it[0]))[:DEAREST]

    def lines(self) -> list[str]:
        """What is printed."""
        crates = ", ".join(f"{crate} {seconds}" for crate, seconds in self.dearest())
        dearest = f"the dearest crates, in seconds of processor time: {crates or 'none was proved now'}"
        return [*(f"failed: {it}" for it in self.failures), dearest, *self.left_out]

    def text(self) -> str:
        """The same, with all crates, as JSON."""
        found = {"failures": self.failures, "seconds": dict(sorted(self.took.items())), "left_out": self.left_out}
        return json.dumps(found, indent=1) + "\n"


def failures(text: str) -> list[str]:
    """What failed, by what `rt ci` and tools/edits printed."""
    return list(dict.fromkeys(next(filter(None, it)) for it in FAILED.findall(text)))


def report(room: str) -> Report:
    """The report of a gate that leaves what its parts printed in this folder, and what they took in `costs`."""
    said = "".join(text_of(f"{room}/{name}") for name in ("said", "tried"))
    library = text_of(f"{room}/library")
    took = Counter[str]()
    for part, seconds in json.loads(text_of(f"{room}/costs") or "{}").items():
        took[part.partition("/")[0]] += seconds
    return Report(failures(said), took, [it[0] for it in LEFT_OUT.finditer(library)])


def text_of(path: str) -> str:
    """What stands in a file; nothing where there is none."""
    if not os.path.isfile(path):
        return ""
    with open(path, encoding="utf-8", errors="replace") as file:
        return file.read()


def write_costs(path: str, took: Counter[Part]) -> None:
    """Writes what each part took, for the report; whoever reads meets all of it."""
    with open(f"{path}.new", "w", encoding="utf-8") as file:
        json.dump({f"{crate}/{part}": seconds for (crate, part), seconds in took.items()}, file)
    os.replace(f"{path}.new", path)
