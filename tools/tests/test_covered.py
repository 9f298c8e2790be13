"""What tools/covered and tools/sanitized have that needs no library."""
import unittest

from detio_tools import covered, preload_edits, programs, sanitized


class Covered(unittest.TestCase):
    def test_places_are_behind_calls(self) -> None:
        text = ("0000000000001000 <f>:\n    1000:\tpush   %rbp\n    1001:\tcall   20 <__sanitizer_cov_trace_pc>\n"
                "    1006:\tret\n\n0000000000001010 <g>:\n    1010:\tcall   30 <__sanitizer_cov_trace_pc@plt>\n"
                "    1015:\tcall   40 <other>\n    101a:\tret\n")
        self.assertEqual(covered.places(text), [0x1006, 0x1015])

    def test_what_is_reported(self) -> None:
        blocks = [covered.Block("f", "a.c", 3, True), covered.Block("f", "a.c", 4, False),
                  covered.Block("f", "a.c", 4, False), covered.Block("f", "a.c", 5, False),
                  covered.Block("f", "a.c", 5, True), covered.Block("f", "a.c", 9, False),
                  covered.Block("g", "b.c", 7, False)]
        self.assertEqual(covered.report(blocks), [
            "b.c: g: no line", "a.c: f: 4, 9",
            "covered: 2 of 5 lines that begin a block were reached, and 1 of 2 functions"])

    def test_planted_faults_fit_the_library(self) -> None:
        for case, it in sanitized.PLANTED.values():
            self.assertIn(case, {one.name for one in programs.CASES})
            self.assertEqual((programs.PRELOAD / it.file).read_text(encoding="utf-8").count(it.old), 1, it.old)
            self.assertIsInstance(it, preload_edits.Change)

    def test_cases_that_are_run(self) -> None:
        names = [it.name for it in sanitized.own_cases([])]
        self.assertNotIn("lookups", names)
        self.assertEqual([it.name for it in sanitized.own_cases(["race", "pigz", "lookups"])], ["race"])


if __name__ == "__main__":
    unittest.main()
