"""The pages that tools/doc-runs runs: what is a block, which pages are wrong; and the examples of libraries apart."""
import contextlib
import io
import pathlib
import tempfile
import unittest
from importlib.machinery import SourceFileLoader
from importlib.util import module_from_spec, spec_from_loader
from types import ModuleType
from unittest import mock

from detio_tools import library_examples, page_sessions, repository
from detio_tools.library_examples import Example
from detio_tools.page_sessions import PageFault, Room, blocks_of

# A program that prints its words, a line each, and complains on standard error where there is none.
PROGRAM = """#!/bin/sh
[ $# -gt 0 ] || { echo "no words" >&2; exit 3; }
for word in "$@"; do echo "$word"; done
"""
LAUNCHER = "#!/bin/sh\necho \"launched: $*\"\n"

RIGHT = """# A page

It has no block `$ here`.

    a block without commands
    $HOME is none

Its commands go on from each other:

    $ ./detio first second
    first
    second
    $ (exit 7)
    $ echo $?
    7
    $ cd examples; name=value
    $ ../detio && ls || echo "$name"
    no words
    value
    $ ls
    a.script

Lines are left out, and an empty one is printed:

    $ seq 1 9
    1
    ..
    9
    $ ../detio "" last

    last

Then fenced, over two lines:

```
$ ../detio one \\
    two
one
two
```
"""
# What a page has in place of something of the right one, and the command that is at fault.
WRONG = [
    ("another output", "    first\n    second", "    first\n    third", "./detio first second"),
    ("a line too few", "    first\n    second", "    first", "./detio first second"),
    ("a line too many", "    first\n    second", "    first\n    second\n    third", "./detio first second"),
    ("lines in another order", "    first\n    second", "    second\n    first", "./detio first second"),
    ("nothing is left out", "    1\n    ..\n    9", "    ..\n    1\n    ..\n    9", "seq 1 9"),
    ("another end", "    ..\n    9", "    ..\n    8", "seq 1 9"),
    ("a line that begins so", "    1\n    ..", "    1..", "seq 1 9"),
    ("another status", "    7\n", "    6\n", "echo $?"),
    ("standard error is not shown", "    no words\n", "", "../detio && ls"),
    ("no empty line", "last\n\n    last", "last\n    last", "../detio \"\" last"),
    ("no such file", "    $ cd examples;", "    $ cd example;", "cd example;"),
    ("fenced, and wrong", "\none\ntwo\n```", "\none\n```", "../detio one"),
]
# What stands in a page, and what is wrong with it.
REFUSED = [
    ("    echo 1\n    $ ./detio 2\n    2", "2: a command in a block that does not begin with $"),
    ("Text.\n    $ ./detio 2\n    2", "2: a command in a block that does not begin with $"),
    ("- An item:\n\n  $ ./detio 2\n  2", "3: a command in a block that does not begin with $"),
    ("```\nfirst\n$ ./detio 2\n```", "3: a command in a block that does not begin with $"),
    ("<!-- not run: -->\n    $ ./detio 2", "1: a mark without a reason"),
    ("<!-- not run -->\n    $ ./detio 2", "1: a mark without a reason"),
    ("<!-- needs: -->\n    $ ./detio 2", "1: a mark without a reason"),
    ("<!-- needs: sh, -->\n    $ ./detio 2", "1: a mark without a reason"),
    ("<!--numbers differ:-->\n    $ ./detio 2", "1: a mark without a reason"),
    ("<!-- not run: it is long -->\n\n    $ ./detio 2", "1: a mark with no block"),
    ("<!-- not run: it is long -->\nText.\n\n    $ ./detio 2", "1: a mark with no block"),
    ("<!-- not run: it is long -->\n    no command", "1: a mark with no block"),
    ("<!-- not run: it is long -->", "1: a mark with no block"),
    ("<!-- not run: once -->\n<!-- not run: twice -->\n    $ ./detio 2", "1: a mark with no block"),
    ("<!-- mark: it is long -->\n    $ ./detio 2", "1: not run, needs and numbers differ are marks, and this is none"),
    ("<!-- not run: it is long --> \n    $ ./detio 2", "2: a command in a block that does not begin with $"),
]


class Pages(unittest.TestCase):
    def setUp(self) -> None:
        room = tempfile.TemporaryDirectory()
        self.addCleanup(room.cleanup)
        self.folder = pathlib.Path(room.name)
        self.rooms = 0
        (self.folder / "examples").mkdir()
        (self.folder / "examples/a.script").write_text("pipe\n", encoding="ascii")
        self.write("program", PROGRAM)

    def write(self, name: str, text: str) -> None:
        path = self.folder / name
        path.parent.mkdir(parents=True, exist_ok=True)
        path.write_text(text, encoding="utf-8")
        path.chmod(0o755)

    def counts(self, page: str, library: str | None = None, seconds: float = 60) -> page_sessions.Counts:
        self.rooms += 1
        inside = self.folder / f"room-{self.rooms}"
        inside.mkdir()
        room = Room(str(self.folder), inside, str(self.folder / "program"), library, seconds)
        return page_sessions.try_page("page.md", page, room)

    def test_a_right_page(self) -> None:
        found = self.counts(RIGHT)
        self.assertEqual(blocks_of(RIGHT)[1].commands[0].line, RIGHT.split("\n").index("    $ seq 1 9") + 1)
        self.assertEqual(found.faults, [])
        self.assertEqual((found.blocks, found.commands), (3, 9))

    def test_wrong_pages(self) -> None:
        for name, old, new, command in WRONG:
            with self.subTest(name):
                self.assertEqual(RIGHT.count(old), 1)
                faults = self.counts(RIGHT.replace(old, new)).faults
                self.assertTrue(faults and f": {command}" in faults[0].split("\n")[0], faults)

    def test_refused_pages(self) -> None:
        for page, fault in REFUSED:
            with self.subTest(page):
                found = self.counts(page)
                self.assertEqual((found.blocks, len(found.faults)), (0, 1), found)
                self.assertIn(f"page.md:{fault}", found.faults[0])

    def test_a_marked_block_is_counted(self) -> None:
        found = self.counts("<!-- not run: it asks -->\n    $ ./detio 2\n    3\n    $ exit\n")
        self.assertEqual((found.faults, found.blocks), ([], 0))
        self.assertEqual(found.marked, [("page.md:2", "it asks", 2)])

    def test_what_is_needed(self) -> None:
        page = "<!-- needs: sh, the library -->\n    $ ./detio run 2\n    launched: run 2\n"
        found = self.counts(page)
        self.assertEqual((found.faults, found.blocks), ([], 0))
        self.assertEqual(found.left_out, [("page.md:2", "no library is given", 1)])
        self.write("built/detio-launch", LAUNCHER)
        self.write("bindings/c/detio.h", "")
        found = self.counts(page, str(self.folder / "built"))
        self.assertEqual((found.faults, found.blocks, found.left_out), ([], 1, []))
        self.assertEqual(len(self.counts(page.replace("run 2", "run 3", 1), str(self.folder / "built")).faults), 1)

    def test_versions(self) -> None:
        self.write("bin/tool", "#!/bin/sh\necho tool 2.6.1\n")
        page = "<!-- needs: {} -->\n    $ ./detio 2\n    2\n"
        with mock.patch.dict("os.environ", {"PATH": f"{self.folder}/bin:/usr/bin:/bin"}):
            for need, there in (("tool", True), ("tool 2.6.1", True), ("tool 2.6", False), ("a-tool", False)):
                with self.subTest(need):
                    found = self.counts(page.format(need))
                    self.assertEqual((found.faults, found.blocks), ([], int(there)))
                    reasons = [] if there else [("page.md:2", f"there is no {need} here", 1)]
                    self.assertEqual(found.left_out, reasons)

    def test_numbers_differ(self) -> None:
        page = "<!-- numbers differ: of the process -->\n    $ ./detio 'for 17 ms'\n    for {} ms\n"
        self.assertEqual(self.counts(page.format(2000)).faults, [])
        self.assertEqual(len(self.counts(page.format("some")).faults), 1)
        self.assertEqual(len(self.counts(page.format("1 or 2")).faults), 1)

    def test_a_command_without_an_end(self) -> None:
        found = self.counts("    $ sleep 60 & ./detio 1\n    1\n    $ wait\n    $ ./detio 2\n    2\n", seconds=2)
        self.assertEqual([it.split(": ")[0] for it in found.faults], ["page.md:3", "page.md:4"])
        self.assertIn("has no end", found.faults[0])

    def test_nothing_of_a_page_is_left_to_another(self) -> None:
        page = "    $ ls\n    detio\n    examples\n    $ rm -r examples; touch made\n"
        self.assertEqual(self.counts(page).faults, [])
        self.assertEqual(self.counts(page).faults, [])
        self.assertTrue((self.folder / "examples/a.script").exists())

    def test_the_environment_is_plain(self) -> None:
        page = "    $ echo \"$CI,$COLUMNS,$DETIO_BUILT,$DETIO_WRONG,$OTHER\"\n    ,,,kept,kept\n"
        ours = {"CI": "true", "COLUMNS": "9", "DETIO_BUILT": "here", "DETIO_WRONG": "kept", "OTHER": "kept"}
        with mock.patch.dict("os.environ", ours):
            self.assertEqual(self.counts(page).faults, [])

    def test_a_mark_needs_no_other_line(self) -> None:
        block, = blocks_of("Text\n<!-- not run: why -->\n    $ a\n    b\n    \n\n    c\n\nText\n")
        self.assertEqual(block.commands[0].wanted, ("b", "", "", "c"))
        self.assertEqual(block.mark, ("not run", "why"))
        with self.assertRaises(PageFault):
            blocks_of("Text\n<!-- not run: why -->\n   $ a\n")


def load_tool() -> ModuleType:
    loader = SourceFileLoader("doc_runs", f"{repository.TOP}/tools/doc-runs")
    spec = spec_from_loader("doc_runs", loader)
    assert spec
    module = module_from_spec(spec)
    loader.exec_module(module)
    return module


class Tool(unittest.TestCase):
    def said(self, *words: str) -> tuple[int, str]:
        """The status of the tool with these words, and what it prints."""
        out = io.StringIO()
        with mock.patch("sys.argv", ["doc-runs", *words]), contextlib.redirect_stdout(out):
            status = load_tool().main()
        return status, out.getvalue()

    def test_sums_and_statuses(self) -> None:
        with tempfile.TemporaryDirectory() as room:
            page, other = pathlib.Path(room, "a.md"), pathlib.Path(room, "b.md")
            page.write_text("<!-- not run: it waits -->\n    $ cat\n\nText.\n\n    $ echo 1\n    1\n", encoding="utf-8")
            other.write_text("    $ echo 1\n    2\n", encoding="utf-8")
            status, said = self.said("--program", "/bin/true", str(page))
            self.assertEqual(status, 0)
            self.assertIn("a.md:2: not run (1 of its commands): it waits", said)
            sums = "1 blocks with 1 commands run, 1 with 1 marked as not run, 0 with 0 left out, 0 faults"
            self.assertIn(f"doc-runs: {sums}\n", said)
            status, said = self.said("--program", "/bin/true", str(page), str(other))
            self.assertEqual(status, 1)
            self.assertIn("b.md:1: echo 1\nprinted, with status 0,\n    1\nand the page has\n    2\n", said)

    def test_each_page_of_the_repository_is_well_formed(self) -> None:
        top = pathlib.Path(repository.TOP)
        for path in top / "README.md", *top.glob("docs/*.md"):
            with self.subTest(path.name):
                blocks_of(path.read_text(encoding="utf-8"))


COMMENTS = """//! Says something.
//!
//! ```rust
//! use low::Low;
//!
//! // A number.
//! const ONE: u8 = 1;
//!
//! let low = Low {
//!     one: ONE,
//! };
//! // It is so.
//! assert!(rt; is_one(low));
//!
//! // Whether it is one.
//! fn is_one(low: Low) -> bool {
//!     low.one == 1
//! }
//! ```
//!
//! ```
//! not an example
//! ```
#![tactic(auto)]

/// Does it:
///
/// ```rust
/// fn main(rt: HostRuntime) {
///     drop(rt);
/// }
/// ```
pub fn it() {}

/// ```rust
/// fn alone() {}
/// ```
"""
FIRST = """use low::Low;

// A number.
const ONE: u8 = 1;

// Whether it is one.
fn is_one(low: Low) -> bool {
    low.one == 1
}
#[test]
fn runs(rt: HostRuntime) -> Result<(), std::test::Fail> {
    let alloc = rt.alloc();

    let low = Low {
        one: ONE,
    };
    // It is so.
    assert!(rt; is_one(low));
    Ok(())
}"""


class Libraries(unittest.TestCase):
    def examples(self) -> list[Example]:
        return list(library_examples.in_text("low", "crates/low/src/lib.rt", COMMENTS))

    def test_examples(self) -> None:
        found = self.examples()
        self.assertEqual([it.line for it in found], [4, 29, 36])
        self.assertEqual([it.is_run for it in found], [True, True, False])

    def test_modules(self) -> None:
        first, second, third = ("\n".join(line for line, _ in library_examples.module(it)) for it in self.examples())
        self.assertEqual(first, FIRST)
        self.assertEqual(second, "#[test]\nfn runs(rt: HostRuntime) {\n    drop(rt);\n}")
        self.assertEqual(third, "fn alone() {}")

    def test_places(self) -> None:
        found = self.examples()
        said = "src/example_0_of_low.rt:18:9: error[type]\ntest example_1_of_low::runs ... FAILED\nexample_7_of_low"
        wanted = "crates/low/src/lib.rt:13:9: error[type]\ntest crates/low/src/lib.rt:29 ... FAILED\nexample_7_of_low"
        self.assertEqual(library_examples.in_the_repository(said, found), wanted)

    def test_the_crate(self) -> None:
        with tempfile.TemporaryDirectory() as room:
            top, made = pathlib.Path(room, "top"), pathlib.Path(room, "made")
            (top / "crates/low/src").mkdir(parents=True)
            (top / "crates/low/src/lib.rt").write_text(COMMENTS, encoding="utf-8")
            (top / "crates.txt").write_text("low: clap\nother: low\n", encoding="utf-8")
            (top / "HANDLES").write_text("none\n", encoding="utf-8")
            made.mkdir()
            examples = library_examples.of_repository(str(top))
            self.assertEqual(examples, self.examples())
            folder = library_examples.write_crate(examples, str(top), made)
            crates = (made / "crates.txt").read_text(encoding="utf-8").split("\n")
            self.assertEqual(crates[2], "library_examples: low anyhow")
            self.assertIn("mod example_2_of_low;", (folder / "src/lib.rt").read_text(encoding="utf-8"))
            self.assertTrue((made / "crates/low/src/lib.rt").exists())

    def fault(self, status: int, said: str) -> str | None:
        """The fault where `rt` has this status and says this."""
        ran = mock.Mock(returncode=status, stdout=said)
        with mock.patch("subprocess.run", return_value=ran), mock.patch.object(library_examples, "write_crate"):
            return library_examples.fault_of(self.examples(), "/", pathlib.Path("/"))

    def test_faults(self) -> None:
        passed = "tests: 2\ntest result: ok. {} passed; 0 failed; 0 ignored; 0 filtered out\n"
        self.assertIsNone(self.fault(0, passed.format(2)))
        self.assertIsNotNone(self.fault(0, passed.format(1)))
        self.assertIsNotNone(self.fault(1, passed.format(2)))
        self.assertIsNotNone(self.fault(0, ""))


if __name__ == "__main__":
    unittest.main()
