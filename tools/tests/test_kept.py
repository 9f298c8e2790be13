"""What refusals of must-fail edits are kept by, what is taken of them, and that nothing is lost where they cannot be."""
import os
import re
import tempfile
import unittest
from unittest import mock

from detio_tools import kept, prover, repository
from detio_tools.kept import Kept

FILES = {
    "low/src/lib.rt": "pub fn one() -> u8 {\n    1\n}\n",
    "low/specs/Lib.antt": "pub mod One\n",
    "high/src/lib.rt": "pub fn two() -> u8 {\n    low::one() + 1\n}\n",
    "beside/src/lib.rt": "pub fn three() -> u8 {\n    3\n}\n",
    "high/must-fail/seven.edit": "file: src/lib.rt\nold: + 1\nnew: + 6\n",
}
USES: dict[str, list[str]] = {"low": [], "beside": [], "high": ["low"]}
LINE = "two: `returns`"
IMPORTS = re.compile(r"^from detio_tools(?:\.(\w+))? import (.*)", re.M)


class Keeping(unittest.TestCase):
    def setUp(self) -> None:
        room = tempfile.TemporaryDirectory()
        self.addCleanup(room.cleanup)
        self.top = room.name
        for path, text in FILES.items():
            self.write(path, text)
        judges = mock.patch.object(kept, "sum_of_judges", lambda: "kit")
        judges.start()
        self.addCleanup(judges.stop)
        self.kept = Kept(self.top, prover.Proved("", USES, frozenset()), f"{self.top}/kept")

    def write(self, path: str, text: str) -> None:
        os.makedirs(os.path.dirname(f"{self.top}/crates/{path}"), exist_ok=True)
        with open(f"{self.top}/crates/{path}", "w", encoding="utf-8", newline="") as file:
            file.write(text)

    def place(self) -> str:
        return self.kept.places(["high"])["high"]

    def line(self) -> str | None:
        return self.kept.line(self.place(), "seven")

    def test_kept_until_something_changes(self) -> None:
        self.assertIsNone(self.line())
        self.kept.keep(self.place(), "seven", LINE)
        self.assertEqual(self.line(), LINE)
        self.assertIsNone(self.kept.line(self.place(), "eight"))
        self.write("beside/src/lib.rt", "pub fn three() -> u8 {\n    4\n}\n")
        self.assertEqual(self.line(), LINE)
        for path in "low/src/lib.rt", "low/specs/Lib.antt", "high/src/lib.rt", "high/must-fail/seven.edit":
            for text in f"{FILES[path]}\n", FILES[path].replace("\n", "\r\n"):
                self.write(path, text)
                self.assertIsNone(self.line(), path)
            self.write(path, FILES[path])
        for path in "low/proofs/Lib.antt", "high/must-fail/eight.edit":
            self.write(path, "")
            self.assertIsNone(self.line(), path)
            os.remove(f"{self.top}/crates/{path}")
        self.assertEqual(self.line(), LINE)

    def test_kept_by_what_it_uses_and_is(self) -> None:
        place = self.place()
        apart: dict[str, list[str]] = {**USES, "high": []}
        for uses, static in ((apart, frozenset[str]()), (USES, frozenset(["high"]))):
            other = Kept(self.top, prover.Proved("", uses, static), self.kept.room)
            self.assertNotEqual(other.places(["high"])["high"], place)

    def test_nothing_taken_of_what_is_damaged(self) -> None:
        self.kept.keep(self.place(), "seven", LINE)
        path = f"{self.kept.room}/{self.place()}-seven"
        with open(path, "rb") as file:
            whole = file.read()
        for text in b"", whole[:20], whole[:-1], whole.replace(LINE.encode(), b""), b"\xff" + whole, b"x" + whole:
            with open(path, "wb") as file:
                file.write(text)
            self.assertIsNone(self.line(), text)

    def test_nothing_kept_where_it_cannot_be(self) -> None:
        self.write("../kept", "a file where the folder would be")
        self.kept.keep(self.place(), "seven", LINE)
        self.assertIsNone(self.line())
        self.kept.clear()

    def test_what_was_kept_for_long_is_removed(self) -> None:
        self.kept.keep(self.place(), "seven", LINE)
        self.kept.clear()
        self.assertEqual(self.line(), LINE)
        os.utime(f"{self.kept.room}/{self.place()}-seven", (0, 0))
        self.kept.clear()
        self.assertIsNone(self.line())

    def test_all_tools_that_judge_are_summed(self) -> None:
        left, found = ["edits"], set[str]()
        while left:
            tool = left.pop()
            found.add(tool)
            for module, names in IMPORTS.findall(repository.read(f"tools/{tool}")):
                named = [module] if module else names.split(", ")
                left += [path for it in named if (path := f"detio_tools/{it}.py") not in found]
        self.assertEqual(sorted(kept.TOOLS), sorted(found))


if __name__ == "__main__":
    unittest.main()
