"""The header for C and the modules of Python and Rust: copies that are wrong, each in one place."""
import pathlib
import tempfile
import unittest

from detio_tools import header, repository

C, THREADS, DRIVER = "bindings/c/detio.h", "bindings/c/detio_threads.h", "bindings/c/detio_threads.c"
RAW, RUST, PYTHON = "bindings/rust/src/raw.rs", "bindings/rust/src/lib.rs", "bindings/python/detio.py"
CALLS = "bindings/rust/src/calls.rs"
EVENTS, WORDS = "crates/detio_c/src/events.rt", "crates/c_words/src/words.rt"
REQUESTS, REPLIES = "crates/c_words/specs/Requests.antt", "crates/c_words/specs/Words.antt"
ENDS = "crates/detio_c/specs/Ends.antt"
# What tools/header reads.
FILES = [
    C, THREADS, DRIVER, RAW, RUST, CALLS, PYTHON, EVENTS, WORDS, REQUESTS, REPLIES, ENDS,
    "crates/detio_c/src/life.rt", "crates/detio_c/src/handle.rt", "crates/detio_c/specs/Reads.antt",
    "crates/c_words/specs/Calls.antt", "crates/c_words/specs/Faults.antt", "crates/posix_terms/specs/Errors.antt",
]
# What is wrong, in which file, what stands there in place of what, and how the fault begins.
WRONG = [
    ("a number of 32 bits for one of 64", C, "uint64_t units);", "uint32_t units);", "detio.h: detio_work: "),
    ("a function missing", C, "uint32_t detio_again(detio *, size_t thread);\n", "", "detio.h: detio_again: None"),
    ("an argument that is written to", C, "detio_new(detio *, const ", "detio_new(detio *, ", "detio.h: detio_new: "),
    ("two arguments in the other order", C,
     "bool *goes, uint64_t *door", "uint64_t *door, bool *goes", "detio.h: detio_begin_outside: "),
    ("two fields in the other order", C,
     "descriptor, number, position;", "descriptor, position, number;", "detio.h: detio_call: "),
    ("a field missing", C, "  uint64_t opened;\n", "", "detio.h: detio_outcome: "),
    ("a code of another number", C, "DETIO_DIVERGED = 16", "DETIO_DIVERGED = 18", "detio.h: detio_code: "),
    ("two calls in the other order", C,
     "  DETIO_MKDIR,\n  DETIO_RMDIR,", "  DETIO_RMDIR,\n  DETIO_MKDIR,", "detio.h: detio_call_kind: "),
    ("two errors in the other order", C,
     "DETIO_EMFILE,\n  DETIO_ENFILE", "DETIO_ENFILE,\n  DETIO_EMFILE", "detio.h: detio_error: "),
    ("two requests in the other order", C,
     "_ASKS_READ,\n  DETIO_ASKS_WRITE", "_ASKS_WRITE,\n  DETIO_ASKS_READ", "detio.h: detio_request_kind: "),
    ("two phases in the other order", C,
     "_TO_OUTSIDE,\n  DETIO_OUTSIDE", "_OUTSIDE,\n  DETIO_TO_OUTSIDE", "detio.h: detio_phase: "),
    ("two ways to open in the other order", C,
     "READ_ONLY, DETIO_WRITE_ONLY", "WRITE_ONLY, DETIO_READ_ONLY", "detio.h: detio_access: "),
    ("two causes in the other order", C,
     "_END_OF_LOG,\n  DETIO_STOP_DIVERGED", "_DIVERGED,\n  DETIO_STOP_END_OF_LOG", "detio.h: detio_cause: "),
    ("a kind of reply missing", C, "  DETIO_NUMBER, ", "  ", "detio.h: detio_reply_kind: "),
    ("a flag of another bit", C, "DETIO_APPEND = 8", "DETIO_APPEND = 32", "detio.h: detio_flags: "),
    ("an end of another number", C, "DETIO_SOME_RUN = 1", "DETIO_SOME_RUN = 2", "detio.h: detio_how_ended: "),
    ("an export of another name", EVENTS, "fn detio_settle(", "fn detio_settled(", "detio.h: detio_settle: "),
    ("a field of the crate of another type", WORDS, "pub value: u64", "pub value: u32", "detio.h: detio_outcome: "),
    ("a request of the crate of another number", REQUESTS,
     "kind.Seek = 4", "kind.Seek = 5", "detio.h: detio_request_kind: "),
    ("a reply of the crate of another number", REPLIES,
     "blank_reply 6", "blank_reply 8", "detio.h: detio_reply_kind: "),
    ("an end of the crate of another number", ENDS,
     "stop.Memory) have_ended = 2", "stop.Memory) have_ended = 7", "detio.h: detio_how_ended: "),
    ("a definition of another name", ENDS,
     "abbrev pub stop_of :", "abbrev pub stops_of :", "detio_c/specs/Ends.antt: stop_of "),
    ("the driver's header alone changed", THREADS,
     "uint8_t *log, size_t length", "uint8_t *log, uint32_t length", f"{RAW}: detio_run_replay: "),
    ("an argument of Rust of another type", RAW, "units: u64", "units: u32", f"{RAW}: detio_thread_work: "),
    ("a function of Rust that is not there", RAW,
     "fn detio_run_size", "fn detio_run_bytes", f"{RAW}: detio_run_bytes: "),
    ("a field of Rust missing", RAW, "    pub links: u64,\n", "", f"{RAW}: Reply: "),
    ("a constant of Rust of another bit", CALLS, "const TRUNCATE: u32 = 4", "const TRUNCATE: u32 = 8",
     f"{CALLS}: constants: "),
    ("a place to seek from missing in Rust", CALLS, "pub const END: u32 = 2;\n", "", f"{CALLS}: constants: "),
    ("a kind of call of another number in Rust", CALLS, "const PIPE: u32 = 20", "const PIPE: u32 = 21",
     f"{CALLS}: kinds: "),
    ("a code of another number in Rust", RUST, "const STOPPED: u32 = 5", "const STOPPED: u32 = 6",
     f"{RUST}: STOPPED: "),
    ("two calls of Python in the other order", PYTHON, "pread pwrite", "pwrite pread", f"{PYTHON}: CALLS: "),
    ("a field of Python of another type", PYTHON,
     "('room', ctypes.c_size_t)", "('room', ctypes.c_uint32)", f"{PYTHON}: Settings: "),
    ("a struct of Python that is not found", PYTHON,
     "class Reply(ctypes.Structure)", "class Reply(ctypes.Union)", f"{PYTHON}: structs: "),
    ("an argument of Python of another type", PYTHON, "[pointer, size, u64]", "[pointer, size, u32]",
     f"{PYTHON}: detio_thread_work: "),
    ("two ways to open exchanged in Python", PYTHON, "'r': 0, 'w': 1", "'r': 1, 'w': 0", f"{PYTHON}: ACCESS: "),
    ("two places to seek from exchanged in Python", PYTHON, "'current': 1, 'end': 2", "'end': 1, 'current': 2",
     f"{PYTHON}: WHENCE: "),
    ("two ways to shut exchanged in Python", PYTHON, "'read': 0, 'write': 1", "'read': 1, 'write': 0",
     f"{PYTHON}: SHUT: "),
    ("a flag of another bit in Python", PYTHON, "'exclusive': 2", "'exclusive': 32", f"{PYTHON}: FLAGS: "),
    ("a code without a text in Python", PYTHON, "12: 'there is no such call', ", "", f"{PYTHON}: CODES: "),
    ("a constant of Python of another number", PYTHON, "DIVERGED = 16", "DIVERGED = 15", f"{PYTHON}: DIVERGED: "),
    ("a code of the driver of another number in Python", PYTHON, "MOVED = 32", "MOVED = 33", f"{PYTHON}: MOVED: "),
    ("two ends in the other order in Python", PYTHON,
     "'stopped: no memory', 'stopped: the log has no room'", "'stopped: the log has no room', 'stopped: no memory'",
     f"{PYTHON}: ENDED: "),
    ("two names of errors in the other order", DRIVER, '"EMFILE",     "ENFILE"', '"ENFILE",     "EMFILE"',
     "detio_threads.c: detio_error_name: "),
    ("a name of a code missing", DRIVER, '"DETIO_DIVERGED",    "DETIO_OVER"', '"DETIO_OVER"',
     "detio_threads.c: detio_code_name: "),
    ("an end missing", DRIVER, ', "stopped: the log diverged"', "", "detio_threads.c: detio_end_name: "),
    ("a function of Python without its arguments", PYTHON,
     "            ('detio_thread_end', u32, [pointer, size]),\n", "", f"{PYTHON}: functions: "),
]


class Header(unittest.TestCase):
    def setUp(self) -> None:
        room = tempfile.TemporaryDirectory()
        self.addCleanup(room.cleanup)
        self.room = pathlib.Path(room.name)
        for path in FILES:
            (self.room / path).parent.mkdir(parents=True, exist_ok=True)
            (self.room / path).write_text(repository.read(path), encoding="utf-8")

    def test_a_right_copy_has_no_fault(self) -> None:
        self.assertEqual(header.Comparison(str(self.room)).all(), [])

    def test_each_wrong_copy_is_caught(self) -> None:
        for wrong, path, old, new, said in WRONG:
            with self.subTest(wrong):
                text = repository.read(path)
                self.assertEqual(text.count(old), 1, "how often it stands there")
                (self.room / path).write_text(text.replace(old, new), encoding="utf-8")
                faults = header.Comparison(str(self.room)).all()
                self.assertTrue(any(it.startswith(said) for it in faults), faults)
                (self.room / path).write_text(text, encoding="utf-8")


if __name__ == "__main__":
    unittest.main()
