"""What tools/try-programs and tools/wrong-preloads have that needs no library."""
import os
import pathlib
import subprocess
import sys
import tempfile
import unittest
from collections.abc import Callable

from detio_tools import interposed, preload_edits, programs


class Programs(unittest.TestCase):
    def setUp(self) -> None:
        room = tempfile.TemporaryDirectory()
        self.addCleanup(room.cleanup)
        self.room = pathlib.Path(room.name).resolve()

    def test_our_lines_are_told_from_the_programs(self) -> None:
        ran = programs.Ran(3, b"out\ndetio: not ours\n", b"one\ndetio: first\ntwo detio: \ndetio: second\nlast")
        self.assertEqual(ran.alone(), (3, b"out\ndetio: not ours\n", b"one\ntwo detio: \nlast"))
        self.assertEqual(ran.ours(), "detio: first; detio: second")
        self.assertEqual(programs.Ran(0, b"", b"").alone(), (0, b"", b""))
        self.assertEqual(programs.Ran(0, b"", b"").ours(), "")

    def test_changed_files_have_other_bytes_and_the_same_times(self) -> None:
        path = self.room / "file"
        path.write_bytes(b"some bytes")
        os.utime(path, ns=(1_000_000_007, 2_000_000_009))
        programs.changed(path)
        status = path.stat()
        self.assertEqual((status.st_size, status.st_atime_ns, status.st_mtime_ns), (10, 1_000_000_007, 2_000_000_009))
        self.assertTrue(all(one != other for one, other in zip(path.read_bytes(), b"some bytes")))
        programs.changed(path)
        self.assertEqual(path.read_bytes(), b"some bytes")

    def test_the_records_of_a_log_are_found(self) -> None:
        def record(thread: int, number: int, clock: int, data: bytes) -> bytes:
            numbers = thread.to_bytes(2, "big") + number.to_bytes(4, "big") + clock.to_bytes(8, "big")
            return b"R" + numbers + b"\2\0" + bytes(8) + len(data).to_bytes(2, "big") + data

        log = bytes(16) + record(0, 0, 5, b"ab") + record(1, 0, 6, b"") + record(0, 1, 2**40, b"c") + b"E\0\0\0\3"
        self.assertEqual(programs.records_end(log), [16, 45, 72, 100])
        self.assertEqual(programs.numbers_of(log), ([0, 1], [5, 2**40]))

    def test_a_change_of_a_folder_is_seen(self) -> None:
        (self.room / "below").mkdir()
        (self.room / "below/file").write_bytes(b"one")
        os.symlink("none", self.room / "link")
        acts: list[Callable[[], object]] = [
            lambda: (self.room / "below/file").write_bytes(b"two"),
            (self.room / "new").mkdir,
            (self.room / "link").unlink,
            lambda: (self.room / "below/file").chmod(0o400), lambda: programs.changed(self.room / "below/file")]
        for act in acts:
            before = programs.seen(self.room)
            self.assertEqual(programs.seen(self.room), before)
            act()
            self.assertNotEqual(programs.seen(self.room), before)

    def test_processes_are_found_by_their_folder(self) -> None:
        self.assertEqual(programs.processes_in(self.room), [])
        with subprocess.Popen([sys.executable, "-c", "input()"], cwd=self.room, stdin=subprocess.PIPE) as process:
            self.assertEqual(programs.processes_in(self.room), [str(process.pid)])
            process.communicate(b"\n")
        self.assertEqual(programs.processes_in(self.room), [])

    def test_a_row_is_a_name_and_how_and_a_test(self) -> None:
        rows = list(programs.table())
        self.assertGreater(len(rows), 300)
        self.assertEqual(len({name for name, _, _ in rows}), len(rows))
        self.assertEqual({how for _, how, _ in rows} - interposed.HOWS, set())
        self.assertIn(("pthread_create", "turn", "bank"), rows)

    def test_cases_have_names_of_their_own(self) -> None:
        names = [it.name for it in programs.CASES] + list(programs.OTHERS)
        self.assertEqual(len(set(names)), len(names))

    def test_words_of_a_case_have_paths(self) -> None:
        trial = programs.Trial(self.room, self.room)
        case = programs.Case("one", ("@race", "{tests}/threads.py", "word"))
        wanted = [f"{self.room}/programs/race", f"{programs.TESTS}/threads.py", "word"]
        self.assertEqual(programs.words_of(case, trial), wanted)
        self.assertEqual(programs.missing(case, trial), "one")
        self.assertIsNone(programs.missing(programs.Case("sh", ("/bin/sh",), needs=("/bin/sh",)), trial))
        self.assertEqual(programs.missing(programs.Case("sh", ("/bin/sh",), needs=("/none",)), trial), "/none")

    def test_checks_are_counted(self) -> None:
        trial = programs.Trial(self.room, self.room)
        self.assertTrue(trial.check(True, "holds"))
        trial.leaves_out("pigz", 2)
        trial.leaves_out("pigz", 3)
        self.assertEqual((trial.checks, trial.faults, trial.left_out), (1, [], {"pigz": 5}))


class Edits(unittest.TestCase):
    def setUp(self) -> None:
        room = tempfile.TemporaryDirectory()
        self.addCleanup(room.cleanup)
        self.room = pathlib.Path(room.name)

    def read(self, text: str) -> preload_edits.Wrong:
        """The wrong version of this text."""
        path = self.room / "wrong.edit"
        path.write_text(text, encoding="ascii")
        return preload_edits.read(path)

    def test_an_edit_is_read(self) -> None:
        wrong = self.read("# why\n# caught by: race with a seed\n# caught by: bank\nfile: a.c\nold:   one: two\n"
                          "new:   2\n\nold: three\nnew:\nfile: b.c\nold: x\nnew: y\n")
        self.assertEqual((wrong.name, wrong.cases), ("wrong", ("race with a seed", "bank")))
        self.assertEqual([(it.file, it.old, it.new) for it in wrong.changes],
                         [("a.c", "  one: two", "  2"), ("a.c", "three", ""), ("b.c", "x", "y")])

    def test_a_wrong_edit_is_refused(self) -> None:
        whole = "# caught by: bank\nfile: a.c\nold: x\nnew: y\n"
        self.read(whole)
        lacking = [whole.replace(it, "") for it in whole.splitlines(keepends=True)]
        for text in ("", *lacking, whole + "old: z\n", whole + "more\n", "old: x\n" + whole):
            with self.assertRaises(ValueError, msg=text):
                self.read(text)

    def test_an_edit_changes_what_stands_there_once(self) -> None:
        (self.room / "a.c").write_text("x; z; z;\n", encoding="ascii")
        wrong = self.read("# caught by: bank\nfile: a.c\nold: x;\nnew: y;\n")
        preload_edits.apply(wrong, self.room)
        self.assertEqual((self.room / "a.c").read_text(encoding="ascii"), "y; z; z;\n")
        for old in "x;", "z;":
            with self.assertRaises(ValueError):
                preload_edits.apply(self.read(f"# caught by: bank\nfile: a.c\nold: {old}\nnew: y;\n"), self.room)

    def test_the_wrong_versions_fit_the_library(self) -> None:
        found = [preload_edits.read(it) for it in sorted((programs.PRELOAD / "wrong").glob("*.edit"))]
        known = {it.name for it in programs.CASES} | set(programs.OTHERS)
        for wrong in found:
            self.assertEqual(set(wrong.cases) - known, set(), wrong.name)
            for it in wrong.changes:
                text = (programs.PRELOAD / it.file).read_text(encoding="utf-8")
                self.assertEqual(text.count(it.old), 1, f"{wrong.name}: {it.old}")
                self.assertNotEqual(it.old, it.new)
        sources = {it.name for it in programs.PRELOAD.glob("*.c")}
        changed = {it.file for wrong in found for it in wrong.changes}
        self.assertEqual(sources - changed, set(), "no wrong version of a file")


if __name__ == "__main__":
    unittest.main()
