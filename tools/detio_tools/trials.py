"""Trials of must-fail edits: which edits one check of a copy of a crate tries, what it refuses, and what comes next."""
import os
import re
import shutil
import tempfile
import time
from collections.abc import Iterator
from concurrent.futures import FIRST_COMPLETED, Future, ThreadPoolExecutor, wait
from dataclasses import dataclass, field

from detio_tools import edits, prover, repository
from detio_tools.edits import Edit, Texts

# What `rt ci` says of a crate that is proved, and last of all.
# What `rt ci` says of a crate that it proved, or that an earlier run on this machine did.
PROVED = re.compile(r"^rt: (\w+) (?:proved$|is kept: )", re.M)
OVER = re.compile(r"^\d+ passed, \d+ failed$", re.M)


@dataclass(frozen=True)
class Trial:
    """One check of a copy of a crate with these edits in it: of these functions alone or, with none, of the crate."""

    crate: str
    folder: str
    given: list[Edit]
    texts: Texts
    only: list[str]

    def is_lone(self) -> bool:
        return len(self.given) == 1

    def name_of(self, it: Edit) -> str:
        return f"{self.crate}/{it.name}"


@dataclass(frozen=True)
class Judged:
    """What a trial came to: of each refused edit how, of each that was not why, and which trials are next."""

    refused: list[tuple[str, str]] = field(default_factory=list)
    failed: list[tuple[str, str]] = field(default_factory=list)
    more: list[Trial] = field(default_factory=list)


def paths(given: list[Edit]) -> list[str]:
    """What the prover is to check of these edits."""
    return list(dict.fromkeys(edits.path_of(place) for it in given for place in it.functions()))


def lone(crate: str, folder: str, it: Edit, only: list[str]) -> Trial:
    """The trial of one edit."""
    texts: Texts = {}
    one = it.alone()
    return Trial(crate, folder, [one], texts if one.apply(texts, folder) else {}, only)


def first_trials(crate: str, folder: str, given: list[Edit]) -> list[Trial]:
    """The first trials of a crate's edits: those of functions together, each other one alone."""
    together = [it for it in given if it.functions()]
    found = [lone(crate, folder, it, it.refused_by) for it in given if it not in together]
    for taken, texts in edits.batches(together, folder):
        found.append(Trial(crate, folder, taken, texts, paths(taken)))
    tried = [it.alone() for trial in found for it in trial.given]
    return found + [lone(crate, folder, it, []) for it in given if it not in tried]


def refusal(trial: Trial, it: Edit, status: int, said: str) -> str | None:
    """How the prover refused this edit, or None where it did not."""
    last = said.rstrip("\n").rpartition("\n")[2]
    if not trial.texts or edits.unread(said, trial.texts):
        return None
    if not trial.only:
        first = re.search(r"^fn (\S+: (?:not proved|no proof).*)", said, re.M)
        return (first[1] if first else "not proved") if status == 1 and last.startswith("logic=not-proved") else None
    if not last.startswith("only="):
        return None
    for function in it.functions():
        line = edits.own_line(trial.crate, function, said)
        if line and (trial.is_lone() or edits.is_its_own(function, line, said)):
            return f"{function}: {edits.goal_of(line)}"
    lines = [(path, edits.line_by(trial.crate, path, said)) for path in it.refused_by if trial.is_lone()]
    return next((f"{path}: {edits.goal_of(line)}" for path, line in lines if line), None)


def judge(trial: Trial, status: int, said: str) -> Judged:
    """What this check says of each edit. What is not refused is tried alone, and at last by a check of the crate."""
    found = Judged()
    unknown = [path for path in trial.only if status == 2 and f"`{path}`" in said]
    if unknown:
        # (a path that names no function, or several: those that stand there are tried on)
        others = [it.alone() for it in trial.given if not set(unknown) & {*paths([it]), *it.refused_by}]
        rest = [it for it in trial.given if it.alone() not in others]
        found.more.extend(lone(trial.crate, trial.folder, it, []) for it in rest)
        for taken, texts in edits.batches(others, trial.folder):
            found.more.append(Trial(trial.crate, trial.folder, taken, texts, paths(taken)))
        return found
    for it in trial.given:
        line = refusal(trial, it, status, said)
        if line:
            found.refused.append((trial.name_of(it), line))
        elif not trial.texts:
            found.failed.append((trial.name_of(it), "an old text of it does not stand there once"))
        elif trial.only:
            only = [] if trial.is_lone() else paths([it.alone()])
            found.more.append(lone(trial.crate, trial.folder, it, only))
        else:
            why = edits.unread(said, trial.texts) or said.rstrip("\n").rpartition("\n")[2]
            found.failed.append((trial.name_of(it), f"{it.where()}: {why}"))
    return found


def make(trial: Trial, proved: prover.Proved) -> Judged:
    """Makes a trial in a copy of the crate."""
    with tempfile.TemporaryDirectory(prefix="edits-") as room:
        for part in repository.PARTS:
            if os.path.isdir(f"{trial.folder}/{part}"):
                shutil.copytree(f"{trial.folder}/{part}", f"{room}/{part}")
        edits.write(room, trial.texts)
        only = [word for path in trial.only for word in ("--only", path)]
        return judge(trial, *prover.check([*proved.words(trial.crate), *only], room))


def is_ready(crate: str, proved: prover.Proved, said: str | None) -> bool:
    """Whether what lies below the crate is proved, by what `rt ci` said so far."""
    if said is None:
        return not proved.lacking(crate)
    return set(PROVED.findall(said)) >= set(repository.below(proved.uses, crate))


def try_all(trials: list[Trial], proved: prover.Proved, said_in: str | None, jobs: int) -> Iterator[Judged]:
    """Makes these trials and those that follow from them, so many at a time, each once what lies below is proved. Where
    `rt ci` ended before that, what is left has failed."""
    left, running = list(trials), set[Future[Judged]]()
    with ThreadPoolExecutor(jobs) as pool:
        while left or running:
            said = edits.read(*os.path.split(said_in)) if said_in else None
            ready = {it for it in {trial.crate for trial in left} if is_ready(it, proved, said)}
            for trial in [it for it in left if it.crate in ready][: jobs - len(running)]:
                left.remove(trial)
                running.add(pool.submit(make, trial, proved))
            if not running and said is not None and OVER.search(said):
                names = [trial.name_of(it) for trial in left for it in trial.given]
                yield Judged(failed=[(name, "what lies below it was not proved") for name in names])
                return
            if not running:
                time.sleep(1)
                continue
            ended, running = wait(running, timeout=5, return_when=FIRST_COMPLETED)
            for judged in (it.result() for it in ended):
                left += judged.more
                yield judged
