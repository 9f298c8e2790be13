"""What the gate says at its end."""
import json
import os
import tempfile
import unittest
from collections import Counter

from detio_tools import gate_report

SAID = """rt: low proved
rt: high NOT PROVED
rt: FAILED: high: its tests
1 passed, 2 failed
"""
TRIED = """refused  low/one: low::one: `returns`
FAILED   low/two: low::two: logic=proved functions=3
1 refused, 1 not, in 3 seconds low/two
"""
LIBRARY = """try-library: there is no pytest here: left out
docs/programs.md:14: left out (4 of its commands): there is no pigz here
left out: pigz (9 checks)
doc-runs: 3 blocks with 4 commands run, 0 with 0 marked as not run, 1 with 4 left out, 0 faults
"""


class Reports(unittest.TestCase):
    def setUp(self) -> None:
        room = tempfile.TemporaryDirectory()
        self.addCleanup(room.cleanup)
        self.room = room.name

    def report(self, **texts: str) -> gate_report.Report:
        for name, text in texts.items():
            with open(f"{self.room}/{name}", "w", encoding="utf-8") as file:
                file.write(text)
        return gate_report.report(self.room)

    def test_what_failed(self) -> None:
        found = self.report(said=SAID, tried=TRIED)
        failed = ["high", "high: its tests", "low/two: low::two: logic=proved functions=3"]
        self.assertEqual(found.failures, failed)
        self.assertEqual(found.lines()[:3], [f"failed: {it}" for it in failed])

    def test_what_was_left_out(self) -> None:
        self.assertEqual(self.report(library=LIBRARY).left_out, LIBRARY.splitlines()[:3])

    def test_the_dearest_crates(self) -> None:
        took = Counter({("low", "proof"): 3, ("low", "edits"): 4, ("high", "proof"): 9})
        gate_report.write_costs(f"{self.room}/costs", took)
        self.assertEqual(self.report().dearest(), [("high", 9), ("low", 7)])
        line = "the dearest crates, in seconds of processor time: high 9, low 7"
        self.assertEqual(self.report().lines(), [line])

    def test_twenty_crates_at_most(self) -> None:
        gate_report.write_costs(f"{self.room}/costs", Counter({(f"c{it}", "proof"): it for it in range(30)}))
        found = self.report()
        self.assertEqual([seconds for _, seconds in found.dearest()], list(range(29, 9, -1)))
        self.assertEqual(len(json.loads(found.text())["seconds"]), 30)

    def test_a_gate_that_proved_nothing(self) -> None:
        self.assertEqual(os.listdir(self.room), [])
        line = "the dearest crates, in seconds of processor time: none was proved now"
        self.assertEqual(self.report().lines(), [line])
        self.assertEqual(json.loads(self.report().text()), {"failures": [], "seconds": {}, "left_out": []})


if __name__ == "__main__":
    unittest.main()
