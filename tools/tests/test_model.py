"""The model's log, the scripts by chance, and how the scripts of an exploration are varied."""
import random
import struct
import unittest

from detio_tools import explored, model, scripts_by_chance
from detio_tools.model import Log, Record

HEADER = struct.pack(">4sHHII", b"DIOL", 1, 2, 1000, 100)
RECORDS = [Record(0, 0, 1, 0, 0, b""), Record(1, 0, 2, 0, 2, b"ab"), Record(0, 1, 2, 9, 0, b"")]


class Logs(unittest.TestCase):
    def test_a_log_is_read_as_it_was_written(self) -> None:
        text = model.spelled(1, HEADER, RECORDS)
        log = Log(text)
        self.assertEqual((log.fault, log.is_closed, log.version, log.threads), (None, True, 1, 2))
        self.assertEqual([it.line() for it in log.records], [it.line() for it in RECORDS])
        self.assertEqual(model.spelled(1, text, log.records), text)

    def test_clocks_grow_in_version_2(self) -> None:
        dated = [it.at(clock) for it, clock in zip(RECORDS, (5, 1, 6))]
        self.assertIsNone(Log(model.spelled(2, HEADER, dated)).fault)
        dated = [it.at(clock) for it, clock in zip(RECORDS, (5, 1, 5))]
        self.assertIn("bad record at", str(Log(model.spelled(2, HEADER, dated)).fault))

    def test_each_cut_is_torn_or_open(self) -> None:
        text = model.spelled(1, HEADER, RECORDS)
        ends = {Log(text).starts[1], Log(text).starts[2], len(text) - 5, 16}
        for length in range(16, len(text)):
            log = Log(text[:length])
            self.assertTrue(log.can_replay())
            self.assertEqual(log.fault is None, length in ends)


class Runs(unittest.TestCase):
    def test_two_openers(self) -> None:
        texts = ["open /a rw create\nwrite r0 x6162\n", "open /a r\nread r0 9\n"]
        status, out, err = model.replayed(HEADER, texts, turns=False)
        self.assertEqual((status, err), (0, ""))
        self.assertEqual(out.split("\n")[0], "0 0 open number 0")
        self.assertEqual(out.split("\n")[-2], "end")

    def test_the_clocks_of_two_openers(self) -> None:
        run = model.Run(Log(HEADER), ["open /a rw create\n", "open /a rw create\n"])
        self.assertEqual([it.clocks for it in run.threads], [[(1, 2, 5)], [(1, 5, 8)]])

    def test_an_end_before_the_last_line_ends_the_thread(self) -> None:
        text = "open /a rw create\nend\nopen /b rw create\n"
        run = model.Run(Log(HEADER), [text, "open /c rw create\n"])
        self.assertEqual(([len(it.rows) for it in run.threads], run.stop), ([1, 1], None))
        self.assertFalse(explored.is_cut_off(text, ["open number 0"]))

    def test_what_is_asked_outside_stops_at_the_end_of_the_log(self) -> None:
        status, out, _ = model.replayed(HEADER, ["host_open a r\n", "pipe\n"])
        self.assertEqual((status, out.split("\n")[-2]), (1, "stop end of log 0"))


class Scripts(unittest.TestCase):
    def test_the_same_seed_has_the_same_scripts(self) -> None:
        for seed in range(20):
            one, other = (scripts_by_chance.scripts(random.Random(seed)) for _ in range(2))
            self.assertEqual(one, other)

    def test_each_call_is_one_that_exploring_knows(self) -> None:
        chance = scripts_by_chance.Chance(random.Random(1))
        self.assertEqual(set(scripts_by_chance.LINES), explored.CALLS)
        for word in scripts_by_chance.LINES:
            self.assertTrue(explored.is_call(chance.call(word)))


class Exploring(unittest.TestCase):
    TEXT = "pipe\n# no call\nwork 3\nclose 0\n"

    def test_delays_of_a_seed(self) -> None:
        lines = explored.varied(1, 4, 0, self.TEXT).split("\n")
        self.assertEqual([it for it in lines if not it.startswith("work ")], ["pipe", "# no call", "close 0", ""])
        self.assertEqual(sum(it.startswith("work ") for it in lines), 3)

    def test_lists(self) -> None:
        lists = list(explored.lists_of([self.TEXT], 2, 2))
        self.assertEqual(lists[:3], [[], [(0, 1, 1)], [(0, 1, 2)]])
        self.assertEqual(len(lists), 1 + 4 + 4)
        self.assertEqual(explored.delayed([(0, 4, 7)], 0, self.TEXT), "pipe\n# no call\nwork 3\nwork 7\nclose 0\n")

    def test_expectations(self) -> None:
        self.assertEqual(explored.expecting(self.TEXT, 2), self.TEXT + "#= not fail\n")


if __name__ == "__main__":
    unittest.main()
