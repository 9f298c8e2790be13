"""What is said on a terminal of how far a run is: each way in which it may be wrong."""
import unittest

from detio_tools import far

TURNS = b"\r900 turns, clock 950\x1b[K\r1900 turns, clock 2010\x1b[K\r\x1b[K"
REPLAY = b"\r900 turns, clock 950, 2 of 3 records\x1b[K\r\x1b[K"
RUNS = b"\r900 of 5000 runs, 2 groups, 900 a second\x1b[K\r1801 of 5000 runs, 2 groups, 900 a second\x1b[K\r\x1b[K"
CASES = b"\r9 of 20 runs, 9 a second\x1b[K\r\x1b[K"
MINIMISED = b"\r70 runs, 53 lines left, 70 a second\x1b[K\r\x1b[K"


class Far(unittest.TestCase):
    def test_what_is_right(self) -> None:
        self.assertIsNone(far.wrong_turns(TURNS, None))
        self.assertIsNone(far.wrong_turns(REPLAY, (2, 3)))
        self.assertIsNone(far.wrong_runs(RUNS, 5000, True))
        self.assertIsNone(far.wrong_runs(CASES, 20, False))
        self.assertIsNone(far.wrong_minimised(MINIMISED, 53))

    def test_a_line_that_comes_late_has_a_lower_rate(self) -> None:
        self.assertIsNone(far.wrong_runs(RUNS.replace(b"2 groups, 900", b"2 groups, 450", 1), 5000, True))

    # Of each what stands there, and what in its place.
    def wrong_turns(self, old: bytes, new: bytes) -> str:
        return far.wrong_turns(REPLAY.replace(old, new), (2, 3)) or ""

    def test_wrong_records_are_caught(self) -> None:
        for new in b"3 of 2", b"1 of 3", b"0 of 3", b"2 of 4":
            self.assertIn("other records", self.wrong_turns(b"2 of 3", new))
        self.assertIn("other records", self.wrong_turns(b", 2 of 3 records", b""))
        self.assertIn("other records", far.wrong_turns(REPLAY, None) or "")

    def test_turns_and_clocks_rise(self) -> None:
        for old, new in (b"1900", b"900"), (b"2010", b"950"):
            self.assertIn("do not rise", far.wrong_turns(TURNS.replace(old, new), None) or "")

    def test_other_lines_are_caught(self) -> None:
        for said in b"", b"\r\x1b[K", TURNS[:-4], TURNS + b"x", b"x" + TURNS, TURNS.replace(b" turns", b" turn"):
            self.assertIn("is not such lines", far.wrong_turns(said, None) or "")

    def test_wrong_runs_are_caught(self) -> None:
        for old, new, wrong in [
            (b"1801 of 5000", b"900 of 5000", "do not rise"),
            (b"of 5000", b"of 4999", "do not rise"),
            (b"900 of 5000", b"0 of 5000", "do not rise"),
            (b", 2 groups", b"", "groups where there are none"),
            (b"900 a second", b"0 a second", "another rate"),
            (b"900 a second", b"901 a second", "another rate"),
        ]:
            self.assertIn(wrong, far.wrong_runs(RUNS.replace(old, new), 5000, True) or "")
        self.assertIn("groups where there are none", far.wrong_runs(RUNS, 5000, False) or "")

    def test_wrong_lines_left_are_caught(self) -> None:
        for old, new, wrong in (b"53", b"52", "other lines"), (b"70 a", b"7000 a", "another rate"):
            self.assertIn(wrong, far.wrong_minimised(MINIMISED.replace(old, new), 53) or "")


if __name__ == "__main__":
    unittest.main()
