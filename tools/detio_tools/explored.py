"""What `detio explore` has to print, by runs of `detio plain`.

The scripts are varied and the runs grouped in code of its own, after docs/exploring.md; what each run gives comes from
`detio plain --expect`.
"""
import itertools
import struct
import sys
import tempfile
from collections.abc import Iterable, Iterator, Sequence
from dataclasses import dataclass

from detio_tools import model, runs

MASK = 2**64 - 1
LINES = 1000
DESCRIPTORS = 32
AT_DESCRIPTOR = set(
    "close read write pread pwrite lseek ftruncate fstat dup dup_from dup2 getfl setfl shutdown tcp_accept".split()
)
CAUSES = ("clock full", "end of log", "diverged")
# A run by `detio plain`: by thread its rows, its last line, and the line of its unmet expectation, if it has one.
Ran = tuple[list[list[str]], str, str | None]
# A list of delays: thread, line and units of each.
Delays = list[tuple[int, int, int]]
# The words of the line of a seed or a list, and the texts with its delays.
Case = tuple[str, list[str]]
CALLS = set(
    "open close read write pread pwrite lseek ftruncate fstat dup dup_from dup2 getfl setfl link unlink rename mkdir "
    "rmdir pipe socketpair shutdown host_open tcp_listen tcp_connect tcp_accept".split()
)


def mixed(hash: int, number: int) -> int:
    """A number mixed into a hash, by a step of SplitMix64."""
    z = ((hash ^ number) + 0x9E3779B97F4A7C15) & MASK
    z = ((z ^ (z >> 30)) * 0xBF58476D1CE4E5B9) & MASK
    z = ((z ^ (z >> 27)) * 0x94D049BB133111EB) & MASK
    return z ^ (z >> 31)


def lines_of(text: str) -> list[str]:
    lines = text.split("\n")
    return lines[:-1] if lines[-1] == "" else lines


def is_call(line: str) -> bool:
    words = [] if line.startswith("#") else [word for word in line.split(" ") if word]
    return bool(words) and words[0] in CALLS


def varied(seed: int, reach: int, thread: int, text: str) -> str:
    """The text of a thread's script with the delays of a seed."""
    out: list[str] = []
    for number, line in enumerate(lines_of(text), 1):
        if is_call(line):
            out.append(f"work {mixed(mixed(mixed(0, seed), thread), number) % (reach + 1)}\n")
        out.append(line + "\n")
    return "".join(out)


def expecting(text: str, each: int) -> str:
    """The text, with the expectation after each so many lines of calls that they do not fail."""
    out: list[str] = []
    calls = 0
    for line in lines_of(text):
        out.append(line + "\n")
        calls += is_call(line)
        if is_call(line) and calls % each == 0:
            out.append("#= not fail\n")
    return "".join(out)


def plain(program: str, texts: list[str], settings: Sequence[str]) -> Ran:
    """By thread its rows, and then the end of a run and the line of its unmet expectation, as `detio plain` prints
    them."""
    with tempfile.TemporaryDirectory() as room:
        names = [f"{room}/{thread}" for thread in range(len(texts))]
        for name, text in zip(names, texts):
            with open(name, "w", encoding="latin-1") as it:
                it.write(text)
        status, out, err = runs.answer([program, "plain", "--expect", *settings, *names], room)
    lines = out.splitlines()
    unmet = lines.pop() if lines and lines[-1].startswith("expected ") else None
    if not lines:
        sys.exit(f"explored: status {status}: {err}")
    rows: list[list[str]] = [[] for _ in texts]
    for line in lines[:-1]:
        thread, _, rest = line.split(" ", 2)
        rows[int(thread)].append(rest)
    return rows, lines[-1], unmet


def given(unmet: str | None, varied_texts: list[str], texts: list[str]) -> str:
    """The line of an unmet expectation, with the number that its call's line has in the script as it was given."""
    if unmet is None:
        return ""
    word, thread, number, rest = unmet.split(" ", 3)
    calls = sum(map(is_call, lines_of(varied_texts[int(thread)])[: int(number)]))
    places = [place for place, line in enumerate(lines_of(texts[int(thread)]), 1) if is_call(line)]
    return f" {word} {thread} {places[calls - 1]} {rest}"


def reply_of(row: str) -> model.Reply:
    """The reply of a row, as the model has it."""
    what, *words = row.split(" ")[1:]
    if what == "fail":
        return what, *words
    if what == "data":
        return what, b"" if words[0] == "-" else bytes.fromhex(words[0])
    return what, *map(int, words)


class Names:
    """The names of descriptors: how many were named before them. What is none has the name -1."""

    def __init__(self) -> None:
        self.count = 0
        self.of: dict[int, int] = {}

    def given(self, number: int) -> int:
        """The name of a descriptor that was opened at this number."""
        if not 0 <= number < DESCRIPTORS:
            return -1
        self.of[number], self.count = self.count, self.count + 1
        return self.of[number]

    def used(self, number: int) -> int:
        """The name of a descriptor that is used by this number."""
        return self.of[number] if number in self.of else self.given(number)

    def in_call(self, step: model.Call, reply: model.Reply) -> list[object]:
        """A call and its reply, with their descriptors renamed."""
        word, *operands = step
        for at in range(2 if word == "dup2" else 1 if word in AT_DESCRIPTOR else 0):
            operands[at] = self.used(operands[at])
        what, *values = reply
        if what == "pair" or what == "number" and word not in ("lseek", "getfl"):
            values = [self.given(value) for value in values]
        return [word, *operands, what, *values]


def renamed(texts: list[str], seen: list[list[str]]) -> list[list[list[object]]]:
    """What threads saw, with their descriptors renamed as it is read, thread by thread."""
    names = Names()
    threads: list[list[list[object]]] = []
    for text, rows in zip(texts, seen):
        script, calls = model.Script(text), []
        for reply in map(reply_of, rows):
            step = script.step()
            while step is not None and step[0] == "work":
                script.tell(None)
                step = script.step()
            assert step is not None, "a row has its call"
            script.tell(reply)
            calls.append(names.in_call(step, reply))
        threads.append(calls)
    return threads


def is_cut_off(text: str, rows: list[str]) -> bool:
    """Whether a thread with these rows ended before its script did. Whatever stops a run, a thread that is not
    at a call has ended by then."""
    script, replies = model.Script(text), map(reply_of, rows)
    while True:
        step = script.step()
        if step is None:
            return script.place < len(script.lines)
        reply = None if step[0] == "work" else next(replies, ())
        if reply == ():
            return False
        script.tell(reply)


def is_still(turns: list[model.Turn], thread: int) -> bool:
    """Whether this thread is blocked at one of the last of these turns, since one at which something may have changed:
    a call was answered, or waits for the outside, or a write was blocked for the first time since then."""
    window: list[model.Turn] = []
    for turn in reversed(turns):
        if not turn.is_blocked or turn.is_outside:
            break
        window.insert(0, turn)
    since: list[int] = []
    for at, turn in enumerate(window):
        is_first = all(it.thread != turn.thread for it in window[:at])
        since = [] if turn.word == "write" and is_first else [*since, turn.thread]
    return thread in since


def waiting_for_good(turns: list[model.Turn], are_over: list[bool]) -> list[tuple[int, int]]:
    """The threads whose calls are blocked for good when first all are, each with how many calls of it were answered
    before; of each thread it is said whether it was over in the end."""
    for at in range(1, len(turns) + 1):
        if not turns[at - 1].is_blocked:
            continue
        live = [it for it, is_over in enumerate(are_over) if not is_over or any(t.thread == it for t in turns[at:])]
        if live and all(is_still(turns[:at], it) for it in live):
            return [(it, sum(t.has_reply for t in turns[:at] if t.thread == it)) for it in live]
    return []


def line_of(text: str, rows: list[str]) -> int:
    """The number of the line of the call that a thread makes after those of these rows."""
    script, replies = model.Script(text), map(reply_of, rows)
    while True:
        step = script.step()
        reply = None if step is None or step[0] == "work" else next(replies, ())
        if step is None or reply == ():
            break
        script.tell(reply)
    numbers = [at for at, line in enumerate(lines_of(text), 1) if line.strip(" ") and not line.startswith("#")]
    return numbers[script.place - 1]


def blocked_lines(
    run: Ran, varied_texts: list[str], texts: list[str], settings: Sequence[str]
) -> list[tuple[int, int]]:
    """The threads whose calls were blocked for good in a run, and their lines in the scripts as they were given: by the
    turns of the model."""
    options = dict(zip(settings[::2], map(int, settings[1::2])))
    header = struct.pack(">HHII", 2, len(texts), options.get("--patience", 1000), options.get("--door-cost", 100))
    ran = model.Run(model.Log(model.spelled(2, b"DIOL" + header, [])), varied_texts)
    waiting = waiting_for_good(ran.turns, [it.phase == "ended" for it in ran.threads])
    return [(thread, line_of(texts[thread], run[0][thread][:row])) for thread, row in waiting]


def ending(run: Ran, texts: list[str], blocked: list[tuple[int, int]]) -> str:
    """How a run ended, which threads were cut off in it, and which calls were blocked for good."""
    rows, end = run[:2]
    cut = [str(thread) for thread, (text, rows_of) in enumerate(zip(texts, rows)) if is_cut_off(text, rows_of)]
    waits = ",".join(f"{thread} {line}" for thread, line in blocked)
    return end + (f" cut off {','.join(cut)}" if cut else "") + (f" blocked for good {waits}" if waits else "")


def is_expected(blocked: list[tuple[int, int]], texts: list[str]) -> bool:
    """Whether one of these calls is expected to be interrupted."""
    for thread, number in blocked:
        below = lines_of(texts[thread])[number:]
        quiet = itertools.takewhile(lambda line: line.startswith("#") or not line.strip(" "), below)
        if "#= fail EINTR" in quiet:
            return True
    return False


def came_to(run: Ran, blocked: list[tuple[int, int]], texts: list[str]) -> str:
    """What a run came to."""
    if run[2] is not None:
        return "failed"
    if blocked and not is_expected(blocked, texts):
        return "blocked"
    return "passed" if run[1] == "end" else "stopped"


def unmet_place(unmet: str, texts: list[str]) -> tuple[str, ...]:
    """Which expectation is not met: its thread, the line of its call, and what it expects, of those below that call."""
    if not unmet:
        return ()
    _, thread, number, rest = unmet.split(" ", 3)
    wanted = itertools.takewhile(lambda it: it.startswith("#"), lines_of(texts[int(thread)])[int(number) :])
    fitting = [it[3:] for it in wanted if it.startswith("#= ") and rest.startswith(it[3:] + " ")]
    return thread, number, max(fitting, key=len, default="")


def difference(before: Ran, blocked: list[tuple[int, int]], group: "Group", texts: list[str], raw: bool) -> str:
    """The first row of a group that differs from those of the run as it is, or how their ends do."""
    now = group.run
    ran: list[list[list[list[object]]]] = [compared(texts, it[0], raw) for it in (before, now)]
    for thread, (old, new) in enumerate(zip(*ran)):
        for row in range(max(len(old), len(new))):
            if old[row : row + 1] != new[row : row + 1]:
                was, is_now = ((*it[0][thread], *["-"] * (row + 1))[row] for it in (before, now))
                return f"differs {thread} {row} {was} -> {is_now}"
    return "same" if (before[1], blocked) == (now[1], group.blocked) else "ends otherwise"


def compared(texts: list[str], seen: list[list[str]], raw: bool) -> list[list[list[object]]]:
    """What is compared of what threads saw."""
    return [[[row] for row in rows] for rows in seen] if raw else renamed(texts, seen)


def by_seeds(texts: list[str], seeds: Iterable[int], reach: int) -> Iterator[Case]:
    """For each seed the words of its line, and the texts with its delays."""
    for seed in seeds:
        yield f"seed {seed} ", [varied(seed, reach, thread, text) for thread, text in enumerate(texts)]


def lists_of(texts: list[str], most_delays: int, reach: int) -> Iterator[Delays]:
    """All lists of at most so many delays, 1 or 2, each at a line of a call of its own: by thread, line and units."""
    places = [
        (thread, number)
        for thread, text in enumerate(texts)
        for number, line in enumerate(lines_of(text), 1)
        if is_call(line)
    ]
    yield []
    for place in places:
        yield from ([(*place, units)] for units in range(1, reach + 1))
    if most_delays > 1:
        for at, place in enumerate(places):
            for units in range(1, reach + 1):
                for other in places[at + 1 :]:
                    yield from ([(*place, units), (*other, more)] for more in range(1, reach + 1))


def delayed(delays: Delays, thread: int, text: str) -> str:
    """The text of a thread with the delays of a list."""
    out: list[str] = []
    for number, line in enumerate(lines_of(text), 1):
        out += [f"work {units}\n" for where, place, units in delays if (where, place) == (thread, number)]
        out.append(line + "\n")
    return "".join(out)


def by_lists(texts: list[str], lists: Iterable[tuple[int, Delays]]) -> Iterator[Case]:
    """For each of these lists the words of its line, and the texts with its delays."""
    for case, delays in lists:
        words = "".join(f"delay {thread} {line} {units} " for thread, line, units in delays)
        yield f"list {case} {words}", [delayed(delays, thread, text) for thread, text in enumerate(texts)]


@dataclass
class Group:
    """Runs that are the same: the words of the first, how many there are, that run, how it ended, the line of its
    unmet expectation, the calls that were blocked for good, and what it came to."""

    words: str
    count: int
    run: Ran
    end: str
    unmet: str
    blocked: list[tuple[int, int]]
    came_to: str


def grouped(
    program: str, texts: list[str], cases: Iterable[Case], settings: Sequence[str], raw: bool
) -> list[Group] | tuple[int, str, str]:
    """The groups of the runs of these cases, those together of which the same expectation is not met; or what is
    answered where a script has no room for its delays."""
    groups: dict[str, Group] = {}
    sections: dict[tuple[str, ...], list[Group]] = {}
    for words, varied_texts in cases:
        for thread, text in enumerate(varied_texts):
            if len(lines_of(text)) > LINES:
                return 3, "", f"script {thread}: no room for delays\n"
        run = plain(program, varied_texts, settings)
        blocked = blocked_lines(run, varied_texts, texts, settings)
        unmet, judged = given(run[2], varied_texts, texts), came_to(run, blocked, texts)
        place = unmet_place(unmet.strip(), texts)
        key = repr((place, judged, compared(texts, run[0], raw), run[1], blocked))
        if key not in groups:
            end = ending(run, varied_texts, blocked)
            groups[key] = Group(words, 0, run, end, unmet, blocked, judged)
            sections.setdefault(place, []).append(groups[key])
        groups[key].count += 1
    return list(itertools.chain.from_iterable(sections.values()))


def explored(
    program: str, texts: list[str], cases: Iterable[Case], left: str = "", settings: Sequence[str] = (),
    raw: bool = False,
) -> runs.Answer:
    """Status, standard output and standard error of `detio explore`, for scripts without a fault and these cases."""
    before = plain(program, texts, settings)
    if before[1].startswith("stop end of log "):
        return 2, "", "the scripts go outside, and nothing comes from there: give --log, a log of record\n"
    groups = grouped(program, texts, cases, settings, raw)
    if isinstance(groups, tuple):
        return groups
    blocked = blocked_lines(before, texts, texts, settings)
    all_came_to = {came_to(before, blocked, texts), *(it.came_to for it in groups)}
    out = [f"as they are {ending(before, texts, blocked)}{given(before[2], texts, texts)}\n"]
    for it in groups:
        out.append(f"{it.words}runs {it.count} {it.end} {difference(before, blocked, it, texts, raw)}{it.unmet}\n")
    out.append(f"runs {sum(it.count for it in groups)} groups {len(groups)}{sums(groups)}{left}\n")
    return 0 if all_came_to == {"passed"} else 1, "".join(out), ""


def sums(groups: list[Group]) -> str:
    """How many runs failed, stopped, by their reasons too, and were blocked."""
    def counted(word: str, cause: str = "") -> int:
        end = f"stop {cause}" if cause else ""
        return sum(it.count for it in groups if it.came_to == word and it.run[1].startswith(end))
    causes = "".join(f" {it} {count}" for it in CAUSES if (count := counted("stopped", it)))
    return f" failed {counted('failed')} stopped {counted('stopped')}{causes} blocked {counted('blocked')}"
