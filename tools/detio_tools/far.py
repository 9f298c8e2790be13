"""What the program says on a terminal of how far it is: what is wrong with it, for tools/terminal."""
import re

# What takes away the rest of a line.
CLEAR = b"\x1b[K"
TURNS = re.compile(rb"(?P<turns>\d+) turns, clock (?P<clock>\d+)(?:, (?P<came>\d+) of (?P<records>\d+) records)?")
RUNS = re.compile(rb"(?P<runs>\d+) of (?P<all>\d+) runs(?:, (?P<groups>\d+) groups)?, (?P<rate>\d+) a second")
MINIMISED = re.compile(rb"(?P<runs>\d+) runs, (?P<lines>\d+) lines left, (?P<rate>\d+) a second")
# How many seconds more than one a line takes at most, on a machine that is busy.
LATE = 9
# What a line says, by its names: None where it does not say that.
Line = dict[str, int | None]


def lines_of(said: bytes, form: re.Pattern[bytes]) -> list[Line] | None:
    """What lines of this form say that were written over each other, the last of which was taken away. None where
    something else was said."""
    parts = said.split(b"\r")
    found = [form.fullmatch(it.removesuffix(CLEAR)) if it.endswith(CLEAR) else None for it in parts[1:-1]]
    if parts[0] or parts[-1] != CLEAR or not found:
        return None
    read = [{name: None if value is None else int(value) for name, value in it.groupdict().items()}
            for it in found if it]
    return read if len(read) == len(found) else None


def rise(lines: list[Line], name: str) -> bool:
    """Whether each line has more of this than the one before."""
    values = [it[name] or 0 for it in lines]
    return all(before < after for before, after in zip(values, values[1:]))


def is_rate(line: Line, number: int) -> bool:
    """Whether the line of this number, from 1, has the runs in a second: it came after so many seconds, or later."""
    return line["rate"] in [(line["runs"] or 0) // passed for passed in range(number, number * (1 + LATE) + 1)]


def wrong_turns(said: bytes, records: tuple[int, int] | None) -> str | None:
    """What is wrong with what a run says, of whose log so many records were used, of so many; None for a run without a
    log."""
    lines = lines_of(said, TURNS)
    if lines is None:
        return "is not such lines, the last of which is taken away"
    if not rise(lines, "turns") or not rise(lines, "clock"):
        return "has turns or clocks that do not rise"
    wanted = records or (None, None)
    if any((it["came"], it["records"]) != wanted for it in lines):
        return f"has other records than {wanted}"
    return None


def wrong_runs(said: bytes, count: int, has_groups: bool) -> str | None:
    """What is wrong with what is said of so many runs, in groups or not."""
    lines = lines_of(said, RUNS)
    if lines is None:
        return "is not such lines, the last of which is taken away"
    if not rise(lines, "runs") or any(it["all"] != count or not 0 < (it["runs"] or 0) <= count for it in lines):
        return f"has runs that do not rise to {count}"
    if any((it["groups"] is not None) != has_groups for it in lines):
        return "has groups where there are none, or none where there are some"
    return None if all(is_rate(it, number) for number, it in enumerate(lines, 1)) else "has another rate"


def wrong_minimised(said: bytes, count: int) -> str | None:
    """What is wrong with what is said of scripts that are minimised, of which so many lines stay."""
    lines = lines_of(said, MINIMISED)
    if lines is None:
        return "is not such lines, the last of which is taken away"
    if not rise(lines, "runs") or any(it["lines"] != count for it in lines):
        return f"has runs that do not rise, or other lines than {count}"
    return None if all(is_rate(it, number) for number, it in enumerate(lines, 1)) else "has another rate"
