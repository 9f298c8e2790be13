"""The tables of the C library's functions: tables that are wrong, each in one place."""
import pathlib
import tempfile
import unittest

from detio_tools import interposed, repository

HEADER = """
# 1 "/usr/include/some.h" 1 3 4
typedef int (*takes)(int __fd);
struct pair { int one; void (*two)(int); };
extern int open (const char *__file, int __oflag, ...) __attribute__ ((__nonnull__ (1)));
extern ssize_t read (int __fd, void *__buf,
   size_t __nbytes) __attribute__ ((__access__ (__write_only__, 2, 3)));
extern FILE *fdopen (int __fd, const char *__modes) __attribute__ ((__nothrow__));
extern int fscanf (FILE *__restrict __stream, ...) __asm__ ("" "__isoc99_fscanf");
extern __inline int feof_unlocked (FILE *__stream) { if (__stream) { return 1; } return 0; }
extern void (*signal (int __sig, void (*__handler)(int)))(int);
extern int pause (void);
"""
LISTED = """
0000000000000010 T open@@GLIBC_2.2.5
0000000000000010 W __open@@GLIBC_2.2.5
0000000000000020 T read@@GLIBC_2.2.5
0000000000000021 T __read_chk@@GLIBC_2.4
0000000000000022 T __read_nocancel@@GLIBC_PRIVATE
0000000000000030 T pause@@GLIBC_2.2.5
0000000000000040 i flock@@GLIBC_2.2.5
0000000000000050 T strlen@@GLIBC_2.2.5
0000000000000060 D environ@@GLIBC_2.2.5
"""
COVERED = ("open call bank", "__open alias bank", "read call bank", "__read_chk call bank", "flock asked bank")
PASSED = ("pause signals",)
OURS = {"open", "__open", "read", "__read_chk", "flock"}
DECLARED = {"open": "const char *, int, ...", "read": "int __fd", "pause": "void", "none": "void"}
OTHERS = {"flock": "int __fd, int __operation", "strlen": "const char *"}
# What is wrong: rows of the first table, of the second, what the library exports, and the fault.
WRONG = [
    ("a function without a row", COVERED, (), OURS, "pause: a function without a row"),
    ("an alias without a row", (COVERED[0], *COVERED[2:]), PASSED, OURS, "__open: a function without a row"),
    ("a checked name without a row", (*COVERED[:3], COVERED[4]), PASSED, OURS, "__read_chk: a function without a row"),
    ("a descriptor without a row", COVERED[:4], PASSED, OURS - {"flock"},
     "flock: it takes a descriptor, and has no row"),
    ("a row without a function", COVERED, (*PASSED, "gone own"), OURS,
     "gone: a row without a function of the C library"),
    ("a row that is not exported", COVERED, PASSED, OURS - {"read"},
     "read: call by its row, and the library does not export it"),
    ("an export that is passed on", COVERED, PASSED, OURS | {"pause"},
     "pause: passed on by its row, and the library exports it"),
    ("an export without a row", COVERED, PASSED, OURS | {"strlen"},
     "strlen: the library exports it, and it has no row"),
    ("two rows", COVERED, (*PASSED, "open own"), OURS, "open: two rows"),
    ("another word", (*COVERED[:4], "flock somehow bank"), PASSED, OURS, "flock: there is no somehow"),
    ("another reason", COVERED, ("pause somehow",), OURS, "pause: there is no somehow"),
]


class Interposed(unittest.TestCase):
    def setUp(self) -> None:
        room = tempfile.TemporaryDirectory()
        self.addCleanup(room.cleanup)
        self.room = pathlib.Path(room.name)
        self.library = interposed.Library()
        self.library.add("libc.so.6", LISTED)

    def faults(self, covered: tuple[str, ...], passed: tuple[str, ...], exported: set[str]) -> tuple[list[str], int]:
        """What is wrong with these tables, and how many functions were looked at."""
        (self.room / "interposed.txt").write_text("# head\n\n" + "\n".join(covered) + "\n", encoding="ascii")
        (self.room / "passed.txt").write_text("# head\n" + "\n".join(passed) + "\n", encoding="ascii")
        return interposed.compare(interposed.read_tables(self.room), self.library, DECLARED, OTHERS, exported)

    def test_right_tables_have_no_fault(self) -> None:
        self.assertEqual(self.faults(COVERED, PASSED, OURS), ([], 6))

    def test_wrong_tables_are_refused(self) -> None:
        for what, covered, passed, exported, fault in WRONG:
            self.assertIn(fault, self.faults(covered, passed, exported)[0], what)

    def test_a_row_of_other_words_is_refused(self) -> None:
        for covered, passed in (((*COVERED, "more call"), PASSED), (COVERED, ("pause signals bank",))):
            with self.assertRaises(ValueError):
                self.faults(covered, passed, OURS)

    def test_declarations_are_read(self) -> None:
        found = interposed.declarations(HEADER)
        wanted = {"open", "read", "fdopen", "fscanf", "__isoc99_fscanf", "feof_unlocked", "signal", "pause"}
        self.assertEqual(set(found), wanted)
        takes = {name for name, given in found.items() if interposed.takes_descriptor(given)}
        self.assertEqual(takes, {"read", "fdopen", "fscanf", "feof_unlocked"})

    def test_what_takes_a_descriptor(self) -> None:
        for given in "int __fd", "char *a, int fildes", "int __fds[2]", "__FILE *f", "DIR *__dirp", "mqd_t __mqdes":
            self.assertTrue(interposed.takes_descriptor(given), given)
        for given in "void", "int __sig", "const char *__fdname", "int __n, size_t fd":
            self.assertFalse(interposed.takes_descriptor(given), given)

    def test_the_tables_here_are_read(self) -> None:
        tables = interposed.read_tables(pathlib.Path(repository.TOP) / "bindings/preload")
        self.assertEqual(tables.faults, [])
        self.assertGreater(len(tables.hows), 600)
        self.assertGreater(len(tables.whys), 290)


if __name__ == "__main__":
    unittest.main()
