"""The list of crates, and what the prover's processes are taken for."""
import unittest

from detio_tools import processor_time, repository
from detio_tools.processor_time import Process

LIST = """# a comment: none of these is a crate
low:
middle may_abort=2: low clap
library_for_c staticlib: middle
alone backend=rattle opt_level=1: clap
"""


class Crates(unittest.TestCase):
    def test_names_and_uses(self) -> None:
        uses = repository.crates(LIST)
        self.assertEqual(list(uses), ["low", "middle", "library_for_c", "alone"])
        self.assertEqual(uses["middle"], ["low", "clap"])

    def test_below(self) -> None:
        uses = repository.crates(LIST)
        self.assertEqual(repository.below(uses, "library_for_c"), ["low", "middle"])
        self.assertEqual(repository.below(uses, "alone"), [])

    def test_static(self) -> None:
        self.assertEqual(repository.static(LIST), {"library_for_c"})

    def test_the_repository_has_its_crates(self) -> None:
        uses = repository.crates(repository.read("crates.txt"))
        self.assertEqual(uses["logical_clocks"], ["posix_terms"])


def process(parent: int, seconds: float, *words: str, folder: str = "/repository/crates/low") -> Process:
    return Process(parent, 0, seconds, list(words), folder)


class ProcessorTime(unittest.TestCase):
    PROVER = "/kit/bin/rattle", "build", "--crate-name", "low"

    def test_process(self) -> None:
        stat = "7 (a name) with) S 3 7 7 0 -1 0 0 0 0 0 100 50 30 20 20 0 1 0 999 0 0"
        found = processor_time.process_of(stat, "rattle\0build\0--crate-name\0low\0", "/")
        self.assertEqual((found.parent, found.started, found.part()), (3, 999, ("low", "proof")))
        self.assertEqual(found.seconds, 200 / processor_time.TICKS)

    def test_parts(self) -> None:
        self.assertEqual(process(1, 0, *self.PROVER, "--test").part(), ("low", "tests"))
        for folder in "/tmp/rt-edit-5-x", "/tmp/edits-5":
            self.assertEqual(process(1, 0, *self.PROVER, folder=folder).part(), ("low", "edits"))
        self.assertIsNone(process(1, 0, "python3", "rt", "ci").part())
        self.assertIsNone(process(1, 0, "").part())

    def test_clock(self) -> None:
        clock = processor_time.Clock(10)
        others = {10: process(1, 5, "rt", "ci"), 90: process(1, 50, *self.PROVER)}
        clock.look({**others, 11: process(10, 2, *self.PROVER), 12: process(11, 1, *self.PROVER)})
        self.assertEqual(clock.seconds(), {("low", "proof"): 3})
        # The copy ended, so its time counts to that of the first.
        clock.look({**others, 11: process(10, 4, *self.PROVER)})
        clock.look(others)
        self.assertEqual(clock.seconds(), {("low", "proof"): 4})
        self.assertIn("| `low` | 4 |  |  |", processor_time.table(clock.seconds()))


if __name__ == "__main__":
    unittest.main()
