"""The widths of lines, the reading list, and the parts of a help text."""
import os
import pathlib
import tempfile
import unittest
from unittest import mock

from detio_tools import completions, helps, reading_list, repository, widths

HELP = """Runs scripts

Usage: detio plain [OPTIONS] <SCRIPT>...

Arguments:
  <SCRIPT>...  Scripts, one for each thread

Options:
      --patience <N>  How many turns
                      a blocked call makes [default: 1000]
      --version <V>   The version [possible values: 1, 2]
  -h, --help          Prints help

An example:
  detio plain a.script
"""


class Widths(unittest.TestCase):
    def limit(self, path: str, line: str) -> int | None:
        return widths.limit_of(pathlib.Path(path), line)

    def test_limits(self) -> None:
        self.assertEqual(self.limit("crates/low/specs/A.antt", "a"), 100)
        self.assertEqual(self.limit("crates/low/proofs/A.antt", "a"), 120)
        self.assertEqual(self.limit("crates/low/src/a.rt", "    // a"), 120)
        self.assertEqual(self.limit("crates/low/src/a.rt", "    ensures"), 100)
        self.assertEqual(self.limit("crates/low/src/a.rt", "        × a ≡ b"), 100)
        self.assertIsNone(self.limit("crates/low/src/a.rt", "    let a = 1;"))

    def test_columns_are_characters(self) -> None:
        with tempfile.TemporaryDirectory() as room:
            path = pathlib.Path(room) / "specs" / "A.antt"
            path.parent.mkdir()
            path.write_text("×" * 100 + "\n" + "×" * 101 + "\n", encoding="utf-8")
            self.assertEqual(list(widths.too_long(path)), [(2, 101)])


    # Of each the file, the front of the line, its columns, and the most that it may have.
    WRONG = [
        ("src/lib.rt", "    ensures ", 101, 100),
        ("src/lib.rt", "    requires ", 101, 100),
        ("src/lib.rt", "        invariant ", 102, 100),
        ("src/lib.rt", "        decreases ", 101, 100),
        ("src/lib.rt", "        × ", 101, 100),
        ("src/lib.rt", "        → ", 140, 100),
        ("src/lib.rt", "//! ", 121, 120),
        ("src/more/other.rt", "    /// ", 121, 120),
        ("specs/Meaning.antt", "means ", 101, 100),
        ("specs/more/Meaning.antt", "-- ", 101, 100),
        ("proofs/Laws.antt", "proves ", 121, 120),
        ("proofs/more/Laws.antt", "-- ", 121, 120),
    ]

    def found(self, path: str, line: str) -> list[tuple[int, int]]:
        """What is too long in a crate with this file, which has this line and others."""
        with tempfile.TemporaryDirectory() as room, mock.patch.object(widths, "CRATES", pathlib.Path(room)):
            (pathlib.Path(room) / "low" / path).parent.mkdir(parents=True)
            (pathlib.Path(room) / "low" / path).write_text(f"\n{line}\n    let a = 1;\n", encoding="utf-8")
            return [it for file in widths.sources([]) for it in widths.too_long(file)]

    def test_each_wrong_width_is_caught(self) -> None:
        for path, front, columns, most in self.WRONG:
            with self.subTest(f"{path}: {front}: {columns}"):
                self.assertEqual(self.found(path, front.ljust(columns, "≡")), [(2, columns)])
                self.assertEqual(self.found(path, front.ljust(most, "≡")), [])

    def test_code_has_no_width(self) -> None:
        self.assertEqual(self.found("src/lib.rt", "    let a = ".ljust(200, "1")), [])


class ReadingList(unittest.TestCase):
    def setUp(self) -> None:
        before = os.getcwd()
        self.addCleanup(os.chdir, before)
        os.chdir(repository.TOP)

    def test_what_is_written_has_no_fault(self) -> None:
        text, _ = reading_list.corrected(repository.read(reading_list.PAGE))
        self.assertEqual(reading_list.corrected(text), (text, []))
        text, _ = reading_list.corrected_map(repository.read(reading_list.MAP))
        self.assertEqual(reading_list.corrected_map(text), (text, []))

    def test_a_wrong_length_is_a_fault(self) -> None:
        text, _ = reading_list.corrected(repository.read(reading_list.PAGE))
        entry = reading_list.FILE.search(text)
        assert entry
        wrong = text[: entry.start()] + f"`{entry['name']}`{entry['gap']}1" + text[entry.end() :]
        found, faults = reading_list.corrected(wrong)
        self.assertEqual(found, text)
        self.assertIn(f"{entry['name']}.antt: {entry['lines']} lines, and not 1", faults[0])

    def test_each_crate_has_a_line(self) -> None:
        lines = [it for it in reading_list.crate_lines() if it.startswith("- [`")]
        self.assertEqual(len(lines), len(repository.crates(repository.read("crates.txt"))))


class SmallRepository(unittest.TestCase):
    """A repository of two crates, whose page and map are right, and what is wrong where something is another."""

    FILES = {
        "crates.txt": "# crates\nlow:\nhigh may_abort=1: low\n",
        "crates/low/src/lib.rt": "//! Low things, for\n//! all. And more.\n",
        "crates/high/src/main.rt": "//! High things.\n",
        "crates/low/specs/Lib.antt": "-- the list\n",
        "crates/low/specs/Meaning.antt": "-- Believed: it\nmeans a = a\nIsLow a = a\n",
        "crates/low/specs/Times.antt": "-- Believed: it\n",
        "crates/low/specs/Laws.antt": "-- Internal\n\n\n\n",
        "crates/high/specs/Prints.antt": "-- Believed: it\n\n",
        "docs/PROMISES.md": """Begin with these two files, 5 lines: [`IsLow`](../crates/low/specs/Meaning.antt) and
[`Prints`](../crates/high/specs/Prints.antt).

Read all that these rest on, in this order: 2 files, 4 lines.

1. **Low**: 2 files, 4 lines.
   - [`low`](../crates/low/specs): `Meaning` 3 (`means`, `IsLow` alone), `Times` 1.

For the commands, read these besides: 1 files, 2 lines. Together that is 3 files and
6 lines.

9. **The commands**: 1 files, 2 lines.
   - [`high`](../crates/high/specs): `Prints` 2.

**How it was counted.** By hand.

The other 1 files, 4 lines, are not needed.
""",
        "docs/map.md": f"""# A map

{reading_list.CRATES}
- [`low`](../crates/low/src): Low things, for all.
- [`high`](../crates/high/src): High things.
{reading_list.CRATES}

More.
""",
    }
    PAGE, MAP, LOW = reading_list.PAGE, reading_list.MAP, "crates/low/specs"
    # What is wrong, in which file, what stands there in place of what, and how the fault begins.
    WRONG = [
        ("a listed file that is not there", PAGE,
         "`Times` 1", "`Clocks` 1", f"{LOW}/Clocks.antt: there is no such file"),
        ("a group of such files alone", PAGE, "`Prints` 2", "`Paints` 2", "crates/high/specs/Paints.antt: there is no"),
        ("a believed file that is not listed", PAGE, ", `Times` 1", "", f"{LOW}/Times.antt: believed, and not listed"),
        ("a file without its length", PAGE, "`Times` 1", "`Times`", f"{LOW}/Times.antt: believed, and not listed"),
        ("a file that is not believed any more", f"{LOW}/Times.antt",
         "Believed", "Internal", f"{LOW}/Times.antt: listed, and"),
        ("a file that is now believed", f"{LOW}/Laws.antt", "Internal", "Believed:", f"{LOW}/Laws.antt: believed, and"),
        ("a file that is listed twice", PAGE, "`Times` 1", "`Times` 1, `Times` 1", f"{LOW}/Times.antt: listed twice"),
        ("a wrong length", PAGE, "`Times` 1", "`Times` 2", f"{LOW}/Times.antt: 1 lines, and not 2"),
        ("a file that has grown", f"{LOW}/Times.antt", "it\n", "it\n\n", f"{LOW}/Times.antt: 2 lines, and not 1"),
        ("a definition that is not there", PAGE, "`means`", "`mean`", f"{LOW}/Meaning.antt: there is no mean"),
        ("a wrong sum of a group", PAGE, "Low**: 2 files, 4", "Low**: 2 files, 5", "'**: 2 files, 4 lines.', and not"),
        ("a wrong sum of the commands", PAGE, "commands**: 1", "commands**: 2", "'**: 1 files, 2 lines.', and not"),
        ("a wrong sum of all groups", PAGE,
         "order: 2 files", "order: 3 files", "'in this order: 2 files, 4 lines', and"),
        ("a wrong sum besides", PAGE,
         "besides: 1 files, 2", "besides: 1 files, 3", "'read these besides: 1 files, 2 lines'"),
        ("a wrong sum together", PAGE,
         "3 files and\n6", "3 files and\n7", "'Together that is 3 files and 6 lines', and"),
        ("a wrong sum of the others", PAGE,
         "other 1 files, 4", "other 1 files, 9", "'The other 1 files, 4 lines', and"),
        ("a sum that is not there", PAGE, "read these besides", "read also", "nowhere: read these besides: 1 files, 2"),
        ("a wrong sum to begin with", PAGE,
         "two files, 5", "two files, 6", "'Begin with these two files, 5 lines:', and"),
        ("a wrong count to begin with", PAGE,
         "these two", "these three", "'Begin with these two files, 5 lines:', and"),
        ("a file to begin with that is not listed", PAGE,
         "specs/Prints.antt", "specs/Paints.antt", "crates/high/specs/Paints"),
        ("a crate missing from the map", MAP, "- [`high`](../crates/high/src): High things.\n", "", f"{MAP}: the list"),
        ("another order in the map", "crates.txt", "low:\nhigh may_abort=1: low", "high:\nlow:", f"{MAP}: the list"),
        ("a crate that the map does not have", "crates.txt", "low:\n", "low:\nlow2:\n", f"{MAP}: the list"),
        ("another sentence in the map", MAP, "for all.", "for some.", f"{MAP}: the list"),
        ("another sentence in the crate", "crates/low/src/lib.rt", "//! all.", "//! each.", f"{MAP}: the list"),
        ("a map without the list", MAP, reading_list.CRATES + "\n\n", "", f"{MAP}: the lines round the list"),
    ]

    def setUp(self) -> None:
        room = tempfile.TemporaryDirectory()
        self.addCleanup(room.cleanup)
        self.addCleanup(os.chdir, os.getcwd())
        patch = mock.patch.object(repository, "TOP", room.name)
        self.addCleanup(patch.stop)
        patch.start()
        os.chdir(room.name)
        os.makedirs("crates/low2/src")
        pathlib.Path("crates/low2/src/lib.rt").write_text("//! More.\n", encoding="utf-8")
        for path, text in self.FILES.items():
            pathlib.Path(path).parent.mkdir(parents=True, exist_ok=True)
            pathlib.Path(path).write_text(text, encoding="utf-8")

    def faults(self) -> list[str]:
        """What is wrong with the page and with the map."""
        _, found = reading_list.corrected(repository.read(self.PAGE))
        return found + reading_list.corrected_map(repository.read(self.MAP))[1]

    def test_the_right_one_has_no_fault(self) -> None:
        self.assertEqual(self.faults(), [])

    def test_each_wrong_one_is_caught(self) -> None:
        for wrong, path, old, new, said in self.WRONG:
            with self.subTest(wrong):
                self.assertEqual(self.FILES[path].count(old), 1, "how often it stands there")
                pathlib.Path(path).write_text(self.FILES[path].replace(old, new), encoding="utf-8")
                faults = self.faults()
                self.assertTrue(any(it.startswith(said) for it in faults), faults)
                pathlib.Path(path).write_text(self.FILES[path], encoding="utf-8")


class Helps(unittest.TestCase):
    def test_parts(self) -> None:
        found = helps.parted("plain", HELP)
        self.assertEqual((found.above, found.usage), (["Runs scripts"], "detio plain [OPTIONS] <SCRIPT>..."))
        self.assertEqual(found.after, ["An example:", "  detio plain a.script"])
        self.assertTrue(found.takes_paths)
        patience, version, shown = found.options
        self.assertEqual((patience.flags, patience.values), (["--patience"], ["N"]))
        self.assertEqual(patience.about, "How many turns a blocked call makes [default: 1000]")
        self.assertEqual(shown.flags, ["-h", "--help"])
        self.assertFalse(version.is_path)

    def test_completions_name_each_option(self) -> None:
        found = helps.parted("plain", HELP)
        for made in completions.bash, completions.zsh, completions.fish:
            text = made(found, [found])
            for option in "patience", "version", "help":
                self.assertIn(option, text)


if __name__ == "__main__":
    unittest.main()
