"""What processor time the prover takes for each crate, as its processes show while they run."""
import os
from collections import Counter
from dataclasses import dataclass

# A part of the gate: a crate, and "proof", "tests" or "edits".
Part = tuple[str, str]
TICKS = os.sysconf("SC_CLK_TCK")


@dataclass(frozen=True)
class Process:
    """A process: its parent, when it started, and its seconds with those of its children that ended."""

    parent: int
    started: int
    seconds: float
    words: list[str]
    folder: str

    def part(self) -> Part | None:
        """What the prover works on in this process, or None where it is another program's."""
        if os.path.basename(self.words[0]) != "rattle" or "--crate-name" not in self.words[:-1]:
            return None
        crate = self.words[self.words.index("--crate-name") + 1]
        if any(it.startswith(("edits-", "rt-edit")) for it in self.folder.split("/")):
            return crate, "edits"
        return crate, "tests" if "--test" in self.words else "proof"


def process_of(stat: str, line: str, folder: str) -> Process:
    """A process, by what /proc has of it."""
    fields = stat.rpartition(")")[2].split()
    seconds = sum(map(int, fields[11:15])) / TICKS
    return Process(int(fields[1]), int(fields[19]), seconds, line.rstrip("\0").split("\0"), folder)


def processes() -> dict[int, Process]:
    """All processes that can be looked at."""
    found: dict[int, Process] = {}
    for number in filter(str.isdigit, os.listdir("/proc")):
        try:
            with open(f"/proc/{number}/stat") as stat, open(f"/proc/{number}/cmdline", errors="replace") as line:
                found[int(number)] = process_of(stat.read(), line.read(), os.readlink(f"/proc/{number}/cwd"))
        except OSError:
            continue  # it ended, or is another user's
    return found


def below(found: dict[int, Process], top: int) -> list[int]:
    """The processes that this one started, those that these started, and so on."""
    children = [number for number, it in found.items() if it.parent == top]
    return children + [it for child in children for it in below(found, child)]


class Clock:
    """The seconds of each part of what a process does. Each look adds what was taken since the last."""

    def __init__(self, top: int) -> None:
        self.top = top
        self.of_process: dict[tuple[int, int], tuple[Part, float]] = {}

    def look(self, found: dict[int, Process]) -> None:
        """Notes the prover's processes, each with the copies of itself that it started."""
        mine = set(below(found, self.top))
        for number in mine:
            it, part = found[number], found[number].part()
            if part is None or it.parent in mine and found[it.parent].part():
                continue
            seconds = it.seconds + sum(found[copy].seconds for copy in below(found, number))
            _, before = self.of_process.get((number, it.started), (part, 0.0))
            self.of_process[number, it.started] = part, max(seconds, before)

    def seconds(self) -> Counter[Part]:
        took: Counter[Part] = Counter()
        for part, seconds in self.of_process.values():
            took[part] += round(seconds)
        return took


def table(took: Counter[Part]) -> str:
    """The seconds by crate, as CONTRIBUTING.md has them, and their sums."""
    parts = ["proof", "tests", "edits"]
    lines = ["| Crate | its proof | its tests | its edits |", "|---|---|---|---|"]
    for crate in sorted({crate for crate, _ in took}):
        lines.append(f"| `{crate}` | " + " | ".join(str(took[crate, part] or "") for part in parts) + " |")
    sums = [sum(seconds for (_, part), seconds in took.items() if part == it) for it in parts]
    return "\n".join([*lines, f"| in all {sum(sums)} | " + " | ".join(map(str, sums)) + " |"])
