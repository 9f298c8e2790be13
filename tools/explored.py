#!/usr/bin/env python3
"""Says what `detio explore` has to print, by runs of `detio plain`:
`tools/explored.py [--seeds A..B] [--reach N] [--raw] SCRIPT..`, or with `--delays D [--most N]` in place of seeds.

It varies the scripts and groups the runs in code of its own, after docs/exploring.md, and takes what each
run gives from `detio plain --expect`. With --check it compares that with what `detio explore` prints, and the
scripts that it writes for the first seed or the last list with its own. tools/soak does the same for scripts
made by chance.
"""
import argparse
import os
import sys
import tempfile

from detio_tools import runs
from detio_tools.explored import Case, by_lists, by_seeds, explored, lists_of


def check(program: str, asked: argparse.Namespace, wanted: runs.Answer, first: int, first_texts: list[str]) -> None:
    """Ends with what is wrong with what is printed, or with what is written for the first case, if something is."""
    raw = ["--raw"] if asked.raw else []
    words: list[str] = ["--reach", str(asked.reach), *(os.path.abspath(it) for it in asked.script)]
    of_lists = ["--delays", str(asked.delays)] if asked.delays else []
    all_cases: list[str] = [*of_lists, "--most", str(asked.most)] if asked.delays else ["--seeds", asked.seeds]
    found = runs.answer([program, "explore", *raw, *all_cases, *words], "/")
    if found != wanted:
        sys.exit(f"explored: failed\n{runs.both_said(found, wanted)}")
    with tempfile.TemporaryDirectory() as room:
        only = ["explore", *of_lists, "--only", str(first), "--write", "new", *words]
        found = runs.answer([program, *only], room)
        if found != (0, "".join(f"new/{thread}.script\n" for thread in range(len(first_texts))), ""):
            sys.exit(f"explored: what is written: {runs.said(found)}")
        for thread, text in enumerate(first_texts):
            with open(f"{room}/new/{thread}.script", encoding="latin-1") as it:
                written = it.read()
            if written != text:
                sys.exit(f"explored: failed\nthread {thread} has other delays: {runs.difference(written, text)}")
    print("all runs as the rules say")


def cases_of(texts: list[str], asked: argparse.Namespace) -> tuple[list[Case], int, str]:
    """The cases that are asked for, the number of one whose scripts are written, and what is said of lists left out."""
    if asked.delays:
        lists = list(enumerate(lists_of(texts, asked.delays, asked.reach)))
        left = f" left out {max(len(lists) - asked.most, 0)}"
        return list(by_lists(texts, lists[: asked.most])), min(asked.most, len(lists)) - 1, left
    seeds = range(*map(int, asked.seeds.split("..")))
    return list(by_seeds(texts, seeds, asked.reach)), seeds.start, ""


def read_words() -> argparse.Namespace:
    options = argparse.ArgumentParser(description=__doc__, formatter_class=argparse.RawDescriptionHelpFormatter)
    options.add_argument("--program", help="the program (default: the one that was built here)")
    options.add_argument("--seeds", default="0..1000")
    options.add_argument("--delays", type=int, help="lists of at most so many delays, 1 or 2, in place of seeds")
    options.add_argument("--most", type=int, default=1000, help="how many lists are run at most")
    options.add_argument("--reach", type=int, default=20)
    options.add_argument("--raw", action="store_true", help="the numbers of descriptors are compared too")
    options.add_argument("--check", action="store_true")
    options.add_argument("script", nargs="+")
    return options.parse_args()


def main() -> int:
    asked = read_words()
    program, texts = runs.program_of(asked.program), []
    for path in asked.script:
        with open(path, encoding="latin-1") as it:
            texts.append(it.read())
    cases, first, left = cases_of(texts, asked)
    status, out, err = explored(program, texts, cases, left, raw=asked.raw)
    if asked.check:
        check(program, asked, (status, out, err), first, cases[first if asked.delays else 0][1])
        return 0
    sys.stdout.write(out)
    sys.stderr.write(err)
    return int(status)


if __name__ == "__main__":
    sys.exit(main())
