"""Which trials are made of must-fail edits, and what is said of an edit that nothing refuses."""
import os
import tempfile
import unittest
from unittest import mock

from detio_tools import edits, prover, trials
from detio_tools.edits import Edit

SOURCE = """pub fn one() -> u8 {
    1
}

pub fn two() -> u8 {
    2
}

pub fn three() -> u8 {
    one() + two()
}
"""
# The number in each function's text that an edit changes, by the edit's name.
EDITS = {"one-is-seven": ("    1", "    7"), "two-is-seven": ("    2", "    7"), "sum-is-seven": ("one() + two()", "7")}
LAW = "refused by: law\nfile: specs/Law.antt\nold: law = 3\nnew: law = 4\n"
PROVED = prover.Proved("", {"low": [], "lib": ["low"]}, frozenset())


class Trials(unittest.TestCase):
    def setUp(self) -> None:
        room = tempfile.TemporaryDirectory()
        self.addCleanup(room.cleanup)
        self.folder = room.name
        for part in "src", "specs", "must-fail":
            os.mkdir(f"{self.folder}/{part}")
        edits.write(self.folder, {"src/lib.rt": SOURCE, "specs/Law.antt": "law = 3\n"})
        edits.write(self.folder, {"must-fail/law-of-four.edit": LAW})
        for name, (old, new) in EDITS.items():
            edits.write(self.folder, {f"must-fail/{name}.edit": f"file: src/lib.rt\nold: {old}\nnew: {new}\n"})
        self.calls: list[list[str]] = []

    def tried(self, answers: dict[str, str], said_in: str | None = None) -> tuple[dict[str, str], dict[str, str]]:
        """What was refused and what failed, where the prover says this of the functions that are edited."""

        def check(words: list[str], folder: str) -> tuple[int, str]:
            text = edits.read(folder, "src/lib.rt") + edits.read(folder, "specs/Law.antt")
            asked = [words[at + 1] for at, word in enumerate(words) if word == "--only"]
            self.calls.append(asked)
            named = [it for it in answers if answers[it] and (not asked or it in asked) and self.is_edited(it, text)]
            lines = [f"fn lib::{it}: {answers[it]}" for it in named]
            whole = "logic=not-proved" if lines else "logic=proved functions=3"
            last = f"only={len(asked)} proved=0" if asked else whole
            return (1 if lines else 0), "\n".join([*lines, last, ""])

        given = [Edit(name, self.folder) for name in edits.names_of(self.folder)]
        refused, failed = dict[str, str](), dict[str, str]()
        first = trials.first_trials("lib", self.folder, given)
        with mock.patch.object(prover, "check", check), mock.patch.object(prover.Proved, "words", lambda *_: []):
            with mock.patch.object(prover.Proved, "lacking", lambda *_: []):
                for judged in trials.try_all(first, PROVED, said_in, 1):
                    refused |= dict(judged.refused)
                    failed |= dict(judged.failed)
        return refused, failed

    def is_edited(self, function: str, text: str) -> bool:
        return ("law = 4" if function == "law" else f"fn {function}() -> u8 {{\n    7\n") in text

    GOAL = "no proof: expected answers; `search` did not prove `returns`"

    def test_each_refused_at_once(self) -> None:
        refused, failed = self.tried(dict.fromkeys(("one", "two", "three", "law"), self.GOAL))
        self.assertEqual(sorted(refused), sorted(f"lib/{it}" for it in [*EDITS, "law-of-four"]))
        self.assertEqual(refused["lib/law-of-four"], "law: `returns`")
        self.assertEqual(failed, {})
        self.assertEqual(self.calls, [["law"], ["one", "three", "two"]])

    def test_nothing_refuses_one(self) -> None:
        refused, failed = self.tried({"one": self.GOAL, "three": self.GOAL, "law": self.GOAL})
        self.assertEqual(sorted(refused), ["lib/law-of-four", "lib/one-is-seven", "lib/sum-is-seven"])
        self.assertEqual(failed, {"lib/two-is-seven": "lib::two: logic=proved functions=3"})
        self.assertEqual(self.calls[2:], [["two"], []])

    def test_a_callee_is_no_refusal(self) -> None:
        calls = "no proof: it calls `two`, which is not proved"
        self.tried({"one": calls, "two": self.GOAL, "three": self.GOAL, "law": self.GOAL})
        self.assertIn(["one"], self.calls[2:])

    def test_no_fit_is_tried_alone(self) -> None:
        refused, _ = self.tried({"one": "not proved", "two": self.GOAL, "three": self.GOAL, "law": self.GOAL})
        self.assertEqual(refused["lib/one-is-seven"], f"lib::one: {edits.NO_FIT}")
        self.assertEqual(self.calls[2:], [["one"]])

    def test_a_twin_that_is_not_refused_is_tried_alone(self) -> None:
        edits.write(self.folder, {"must-fail/one-is-eight.edit": "file: src/lib.rt\nold:     1\nnew:     8\n"})
        refused, failed = self.tried(dict.fromkeys(("one", "one_twin0", "two", "three", "law"), self.GOAL))
        self.assertEqual(self.calls, [["law"], ["one", "three", "two", "one_twin0"], ["one"], []])
        self.assertEqual(refused["lib/one-is-seven"], "lib::one_twin0: `returns`")
        self.assertEqual(list(failed), ["lib/one-is-eight"])

    def test_a_twin_is_tried_again_as_the_function(self) -> None:
        edits.write(self.folder, {"must-fail/one-is-eight.edit": "file: src/lib.rt\nold:     1\nnew:     8\n"})
        refused, _ = self.tried(dict.fromkeys(("one", "two", "three", "law"), self.GOAL))
        self.assertEqual(refused["lib/one-is-seven"], "lib::one: `returns`")

    def test_what_lies_below_is_not_proved(self) -> None:
        edits.write(self.folder, {"said": "rt: low NOT PROVED\n0 passed, 1 failed\n"})
        refused, failed = self.tried(dict.fromkeys(("one", "two", "three", "law"), self.GOAL), f"{self.folder}/said")
        self.assertEqual((refused, len(failed), self.calls), ({}, 4, []))

    def test_what_lies_below_is_proved(self) -> None:
        for said in "rt: low proved", "rt: low is kept: an earlier run on this machine proved the same files":
            edits.write(self.folder, {"said": f"{said}\n"})
            refused, _ = self.tried(dict.fromkeys(("one", "two", "three", "law"), self.GOAL), f"{self.folder}/said")
            self.assertEqual(len(refused), 4)


if __name__ == "__main__":
    unittest.main()
