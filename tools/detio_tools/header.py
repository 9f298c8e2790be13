"""The header for C, and the modules of Python and Rust, by the exports of crates/detio_c and the structs of
crates/c_words: what tools/header compares."""
import re

# What each type of an argument is in C; a slice is two arguments there, and the allocator none.
TYPES: dict[str, list[str]] = {
    "&mut Handle": ["detio *"],
    "alloc: Global": [],
    "&[u8]": ["const uint8_t *", "size_t"],
    "&mut [u8]": ["uint8_t *", "size_t"],
    "usize": ["size_t"],
    "u64": ["uint64_t"],
    "u32": ["uint32_t"],
    "i64": ["int64_t"],
    "bool": ["bool"],
    "": ["void"],
}
STRUCTS = {
    "CallWords": "detio_call",
    "ReplyWords": "detio_reply",
    "OutsideWords": "detio_outside",
    "OutcomeWords": "detio_outcome",
    "RunWords": "detio_settings",
    "RunEnd": "detio_run_end",
}
# The names of bindings/rust and of bindings/python for the same.
RUST = {"Call": "detio_call", "Reply": "detio_reply", "Settings": "detio_settings", "RunEnd": "detio_run_end"}
PYTHON = {"Machine": "detio", **{name: RUST[name] for name in ("Settings", "Call", "Reply", "RunEnd")}}
CTYPES = {
    "c_size_t": "size_t", "c_uint32": "uint32_t", "c_uint64": "uint64_t", "c_int64": "int64_t", "c_bool": "bool",
    "c_void_p": "void *",
}
# The words of bindings/python for the names of an enum, each with how the names begin; None: as they are there.
WORDS = {
    "ACCESS": ("detio_access", "DETIO_", {"r": "READ_ONLY", "w": "WRITE_ONLY", "r+": "READ_WRITE"}),
    "WHENCE": ("detio_whence", "DETIO_", None),
    "SHUT": ("detio_how", "DETIO_SHUT_", None),
    "FLAGS": ("detio_flags", "DETIO_", None),
}
# What bindings/c/detio_threads.c has names for, and the enum of each.
NAMES = {"detio_error_name": ("detio_error", "DETIO_"), "detio_code_name": ("detio_code", "")}
# How bindings/python has the types of arguments and results.
IN_PYTHON = {
    "void": "None", "size_t": "size", "uint32_t": "u32", "uint64_t": "u64", "unsigned": "ctypes.c_uint",
    "detio_run *": "pointer", "void *": "pointer", "uint8_t *": "pointer", "const void *": "ctypes.c_char_p",
    "const uint8_t *": "ctypes.c_char_p", "const char *": "ctypes.c_char_p", "size_t *": "ctypes.POINTER(size)",
    "char *": "pointer", "uint64_t *": "ctypes.POINTER(u64)",
    **{f"{mode}{of} *": f"ctypes.POINTER({name})" for name, of in RUST.items() for mode in ("", "const ")},
}
# Definitions whose equations give numbers, each with its file, the enum of the header, and how a name begins there.
NUMBERED = [
    ("c_words/specs/Calls", "kind_of", "detio_call_kind", "DETIO_"),
    ("c_words/specs/Calls", "access_of", "detio_access", "DETIO_"),
    ("c_words/specs/Calls", "whence_of", "detio_whence", "DETIO_"),
    ("c_words/specs/Calls", "how_of", "detio_how", "DETIO_SHUT_"),
    ("c_words/specs/Requests", "flags_code", "detio_flags", "DETIO_"),
    ("c_words/specs/Requests", "asked_code", "detio_request_kind", "DETIO_ASKS_"),
    ("c_words/specs/Words", "reply_words", "detio_reply_kind", "DETIO_"),
    ("detio_c/specs/Reads", "phase_code", "detio_phase", "DETIO_"),
    ("detio_c/specs/Ends", "stop_of", "detio_cause", "DETIO_STOP_"),
    ("detio_c/specs/Ends", "how_ended", "detio_how_ended", "DETIO_FOR_"),
]
# What the header calls otherwise than the definitions, and what it has besides them: no stop, and codes of success.
RENAMED = {"DETIO_DONE": "DETIO_PLAIN", "DETIO_FAIL": "DETIO_FAILURE", "DETIO_FOR_SINK": "DETIO_FOR_LOG_FULL"}
BESIDES = {"detio_how_ended": [("DETIO_ALL_ENDED", 0), ("DETIO_SOME_RUN", 1)]}
SUCCESS = [("DETIO_DONE", 0), ("DETIO_MORE", 1), ("DETIO_AGAIN", 2)]
# Stops that have no number of their own.
NONE = ["DETIO_FOR_STRAYED"]
# An equation that gives a number, or one case of such an equation.
CASE = re.compile(
    r"== (\d+) then Some \(?\w+\.(\w+)|^\w+ \(?(?:Some \(?)?\w+\.(\w+)[^\n=]*=\s*(?:record \()?(?:blank_reply )?(\d+)\b"
    r"|if f\.(\w+) then (\d+)", re.M,
)
FIELD = re.compile(r"(?P<of>.*?[\w*])\s*\b(?P<names>(?:\*?\w+(?:\[\w+\])?)(?:\s*,\s*\w+)*)", re.S)
PROTOTYPE = re.compile(r"^(?!\s*#)([\w ]+[ *])(detio_\w+)\(([^)]*)\);", re.M | re.S)

Functions = dict[str, tuple[str, list[str]]]
Fields = dict[str, list[tuple[str, str]]]
Numbers = list[tuple[str, int]]


def read(path: str) -> str:
    """The text of a file."""
    with open(path, encoding="utf-8") as file:
        return file.read()


def without_comments(text: str) -> str:
    """A source in C or Rust without its comments."""
    return re.sub(r"/\*.*?\*/|//[^\n]*", "", text, flags=re.S)


def parts(text: str, mark: str) -> list[str]:
    """What stands between these marks, without what is blank."""
    return [it.strip() for it in text.split(mark) if it.strip()]


def in_c(of: str) -> list[str]:
    """What a Rattle type is in C."""
    if of in TYPES:
        return TYPES[of]
    if of in STRUCTS:
        return [STRUCTS[of]]
    is_lent = re.fullmatch(r"&(mut )?(\w+)", of)
    if is_lent:
        return [("" if is_lent[1] else "const ") + in_c(is_lent[2])[0] + " *"]
    return [f"? {of}"]


def exports(text: str) -> Functions:
    """The functions that the crate exports, in the types of C."""
    found: Functions = {}
    head = r'#\[unsafe\(no_mangle\)\]\s*pub extern "C" fn (\w+)\((.*?)\)\s*(?:->\s*(\w+))?\s*(?=ensures|requires|\{)'
    for name, arguments, result in re.findall(head, text, flags=re.S):
        types = list[str]()
        for it in parts(arguments, ","):
            types += TYPES[it] if it in TYPES else in_c(it.split(":", 1)[1].strip())
        found[name] = in_c(result)[0], types
    return found


def c_type(text: str) -> str:
    """The type of an argument or a field, without its name."""
    words = re.findall(r"\w+|\*", text)
    if len(words) > 1 and words[-1] != "*" and (words[-2] == "*" or len(words) > (2 if words[0] == "const" else 1)):
        words.pop()
    return " ".join(words)


def prototypes(text: str) -> Functions:
    """The functions of a header, with the types of their arguments and results."""
    found: Functions = {}
    text = re.sub(r"(typedef )?(struct|enum)\b[^;{]*\{.*?\}[^;]*;", "", text, flags=re.S)
    for result, name, arguments in PROTOTYPE.findall(text):
        types = [] if arguments.strip() == "void" else [c_type(it) for it in arguments.split(",")]
        found[name] = " ".join(re.findall(r"\w+|\*", result)), types
    return found


def c_structs(text: str) -> Fields:
    """The structs of a header, each with its fields and their types."""
    found: Fields = {}
    for body, name in re.findall(r"typedef struct \{(.*?)\} (\w+);", text, flags=re.S):
        found[name] = []
        for line in parts(body, ";"):
            field = FIELD.fullmatch(line)
            if not field:
                found[name].append((line, "?"))
                continue
            for it in (it.strip() for it in field["names"].split(",")):
                found[name].append((it.lstrip("*"), field["of"] + (" *" if it.startswith("*") else "")))
    return found


def rust_structs(text: str) -> Fields:
    """The structs of a source in Rattle or Rust, each with its fields and their types."""
    found: Fields = {}
    for name, body in re.findall(r"pub struct (\w+) \{(.*?)\n\}", text, flags=re.S):
        fields = re.findall(r"^\s*(?:pub )?(\w+): ([^,\n{]+),", body, flags=re.M)
        found[name] = [(it, of.strip()) for it, of in fields]
    return found


def enums(text: str) -> dict[str, Numbers]:
    """The enums of a header, each with its names and their numbers."""
    found: dict[str, Numbers] = {}
    for name, body in re.findall(r"enum (\w+) \{(.*?)\};", text, flags=re.S):
        found[name], number = [], -1
        for it in parts(body, ","):
            word, _, value = it.partition("=")
            number = int(value) if value.strip() else number + 1
            found[name].append((word.strip(), number))
    return found


def snake(name: str) -> str:
    """The name of a constructor as a name of an enum."""
    return re.sub(r"(?<!^)([A-Z])", r"_\1", name).upper()


def numbers(text: str, name: str, front: str) -> Numbers:
    """The numbers that the equations of a definition give, each with the name that the header has for it."""
    body = re.search(rf"^abbrev pub {name} :.*?(?=\n\n|\Z)", text, flags=re.M | re.S)
    found = []
    for number, word, other, value, flag, bit in CASE.findall(body[0] if body else ""):
        named = front + snake(word or other or flag)
        found.append((RENAMED.get(named, named), int(number or value or bit)))
    return [it for it in found if it[0] not in NONE]


class Comparison:
    """What differs in a checkout."""

    def __init__(self, folder: str) -> None:
        self.folder = folder
        self.faults: list[str] = []

    def read(self, path: str) -> str:
        """The text of a file of the checkout."""
        return read(f"{self.folder}/{path}")

    def text(self, path: str) -> str:
        """The text of a source of the checkout, without comments."""
        return without_comments(self.read(path))

    def same(self, what: str, there: object, wanted: object) -> None:
        """Notes a fault where something is not what is wanted."""
        if there != wanted:
            self.faults.append(f"{what}: {there}, and not {wanted}")

    def all(self) -> list[str]:
        """Compares all, and returns what differs."""
        header, threads = self.text("bindings/c/detio.h"), self.text("bindings/c/detio_threads.h")
        self.functions(header)
        self.structs(header)
        self.numbers(header)
        self.rust(header + threads)
        self.rust_numbers(header)
        self.python(header + threads)
        self.python_functions(header + threads)
        self.python_numbers(header + threads)
        self.names(header)
        return self.faults

    def functions(self, header: str) -> None:
        """The functions of detio.h are the exports."""
        wanted: Functions = {}
        for name in ("events", "life"):
            wanted |= exports(self.text(f"crates/detio_c/src/{name}.rt"))
        there = prototypes(header)
        for name in sorted(wanted | there):
            self.same(f"detio.h: {name}", there.get(name), wanted.get(name))

    def structs(self, header: str) -> None:
        """The structs of detio.h are those of the crates."""
        there = c_structs(header)
        for name, fields in rust_structs(self.text("crates/c_words/src/words.rt")).items():
            wanted = [(it, in_c(of)[0]) for it, of in fields]
            self.same(f"detio.h: {STRUCTS.get(name, name)}", there.get(STRUCTS.get(name, name)), wanted)
        handle = rust_structs(self.text("crates/detio_c/src/handle.rt"))["Handle"]
        wanted = [(it, "void *" if of == "*mut u8" else of) for it, of in handle if of != "Global" and "{" not in of]
        self.same("detio.h: detio", there.get("detio"), wanted)

    def numbers(self, header: str) -> None:
        """The enums of detio.h have the names and the numbers of the definitions."""
        there = enums(header)
        faults = self.read("crates/c_words/specs/Faults.antt")
        codes = re.findall(r"^code_of fault\.(\w+) = (\d+)", faults, flags=re.M)
        wanted = SUCCESS + [("DETIO_" + snake(it), int(number)) for it, number in codes]
        self.same("detio.h: detio_code", there.get("detio_code"), wanted)
        for file, name, enum, front in NUMBERED:
            found = numbers(self.read(f"crates/{file}.antt"), name, front)
            if not found:
                self.faults.append(f"{file}.antt: {name} has no numbers")
            self.same(f"detio.h: {enum}", there.get(enum), BESIDES.get(enum, []) + found)
        errors = re.findall(r"^code_of (\w+) = (\d+)", self.read("crates/posix_terms/specs/Errors.antt"), flags=re.M)
        wanted = [(f"DETIO_{it}", int(number)) for it, number in errors]
        self.same("detio.h: detio_error", there.get("detio_error"), wanted)

    def rust(self, header: str) -> None:
        """The structs and the functions of bindings/rust are those of the headers."""
        path = "bindings/rust/src/raw.rs"
        text = self.text(path)
        structs, wanted = rust_structs(text), c_structs(header)
        for name, of in RUST.items():
            fields = [(it, in_c(kind)[0]) for it, kind in structs.get(name, [])]
            self.same(f"{path}: {name}", fields, wanted.get(of))
        there = prototypes(header)
        for name, arguments, result in re.findall(r"fn (detio_\w+)\((.*?)\)\s*(?:->\s*([^;]+))?;", text, flags=re.S):
            types = [self.raw(it.split(":", 1)[1].strip()) for it in arguments.split(",") if ":" in it]
            found = self.raw(result.strip()) if result else "void", types
            known = there.get(name)
            # (a buffer of bytes may be any pointer in the header)
            plain = known and (known[0], [re.sub(r"\bvoid \*", "uint8_t *", it) for it in known[1]])
            self.same(f"{path}: {name}", found, plain)

    @staticmethod
    def raw(of: str) -> str:
        """What a type of bindings/rust is in C."""
        lent = re.fullmatch(r"\*(const|mut) (.+)", of)
        if not lent:
            return "unsigned" if of == "c_uint" else in_c(of)[0]
        inner = {"Place": "detio_run", "u8": "uint8_t", "c_char": "char", **RUST}.get(lent[2]) or in_c(lent[2])[0]
        return ("const " if lent[1] == "const" else "") + inner + " *"

    def rust_numbers(self, header: str) -> None:
        """The constants of bindings/rust are those of detio.h with the same name: the words and the kinds of calls."""
        path, known = "bindings/rust/src/calls.rs", enums(header)
        found = re.findall(r"^pub const (\w+): u32 = (\d+);", self.text(path), flags=re.M)
        words = ("detio_access", "detio_flags", "detio_whence", "detio_how")
        wanted = [it for name in words for it in known.get(name, [])]
        self.same(f"{path}: constants", [("DETIO_" + name, int(number)) for name, number in found], wanted)
        kinds = re.findall(r"^    pub const (\w+): u32 = (\d+);", self.text(path), flags=re.M)
        there = [("DETIO_" + name, int(number)) for name, number in kinds]
        self.same(f"{path}: kinds", there, known.get("detio_call_kind"))
        path = "bindings/rust/src/lib.rs"
        numbered = {name: value for listed in known.values() for name, value in listed}
        for name, value in re.findall(r"^const (\w+): u32 = (\d+);", self.text(path), flags=re.M):
            self.same(f"{path}: {name}", int(value), numbered.get(f"DETIO_{name}"))

    def python(self, header: str) -> None:
        """The structs and the calls of bindings/python are those of the headers."""
        path = "bindings/python/detio.py"
        text, wanted = self.read(path), c_structs(header)
        classes = re.findall(r"class (\w+)\(ctypes\.Structure\):\s*_fields_ = \[(.*?)\]\n", text, flags=re.S)
        self.same(f"{path}: structs", sorted(name for name, _ in classes), sorted(PYTHON))
        for name, body in classes:
            fields = [(it, CTYPES.get(of, of)) for it, of in re.findall(r"\('(\w+)', ctypes\.(\w+)\)", body)]
            self.same(f"{path}: {name}", fields, wanted.get(PYTHON.get(name, "")))
        calls = re.search(r"CALLS = \((.*?)\)\.split", text, flags=re.S)
        found = calls[1].replace("'", "").split() if calls else None
        known = [it.removeprefix("DETIO_").lower() for it, _ in enums(header)["detio_call_kind"]]
        self.same(f"{path}: CALLS", found, known)

    def python_functions(self, header: str) -> None:
        """The functions that bindings/python calls have the arguments and results of the headers."""
        path, there = "bindings/python/detio.py", prototypes(header)
        text = self.read(path)
        shared = re.search(r"\n    call = (\[.*?\])\n", text, flags=re.S)
        found = re.findall(r"\('(detio_\w+)', ([\w.]+), (call|\[.*?\])\)", text, flags=re.S)
        used = set(re.findall(r"library\.(detio_\w+)", text))
        self.same(f"{path}: functions", sorted(used), sorted(name for name, _, _ in found))
        for name, result, listed in found:
            types = shared[1] if listed == "call" and shared else listed
            known = there.get(name)
            wanted = known and (IN_PYTHON.get(known[0], "?"), [IN_PYTHON.get(it, "?") for it in known[1]])
            self.same(f"{path}: {name}", (result, re.findall(r"[\w.]+(?:\(\w+\))?", types)), wanted)

    def python_numbers(self, header: str) -> None:
        """The words, the codes and the constants of bindings/python are those of the enums, and its ends those of C."""
        path, known = "bindings/python/detio.py", enums(header)
        text = self.read(path)
        for name, (enum, front, renamed) in WORDS.items():
            body = re.search(rf"^{name} = {{(.*?)}}", text, flags=re.M | re.S)
            pairs = re.findall(r"'([^']+)': (\d+)", body[1] if body else "")
            found = [(front + (renamed or {}).get(it, it.upper()), int(value)) for it, value in pairs]
            self.same(f"{path}: {name}", found, known.get(enum))
        codes = re.search(r"^CODES = {(.*?)}", text, flags=re.M | re.S)
        refused = [value for _, value in known.get("detio_code", []) if value not in [it for _, it in SUCCESS]]
        self.same(f"{path}: CODES", [int(it) for it in re.findall(r"(\d+): '", codes[1] if codes else "")], refused)
        numbered = {name: value for listed in known.values() for name, value in listed}
        for name, value in re.findall(r"^([A-Z_]+) = (\d+)$", text, flags=re.M):
            if f"DETIO_{name}" in numbered:
                self.same(f"{path}: {name}", int(value), numbered[f"DETIO_{name}"])
        ended = re.search(r"^ENDED = \[(.*?)\]", text, flags=re.M | re.S)
        there = self.listed("detio_end_name")
        self.same(f"{path}: ENDED", re.findall(r"'([^']+)'", ended[1] if ended else ""), there)
        self.same("detio_threads.c: detio_end_name", len(there), len(known.get("detio_how_ended", [])))

    def listed(self, name: str) -> list[str]:
        """The texts that a function of the driver has."""
        source = self.read("bindings/c/detio_threads.c")
        body = re.search(rf"^const char \*{name}\(.*?\n}}", source, flags=re.M | re.S)
        table = re.search(r"names\[\] = {(.*?)};", body[0] if body else "", flags=re.S)
        return re.findall(r'"([^"]+)"', table[1] if table else "")

    def names(self, header: str) -> None:
        """The names that the driver has for errors and codes are those of the enums."""
        for name, (enum, front) in NAMES.items():
            wanted = [it for it, _ in enums(header).get(enum, [])]
            self.same(f"detio_threads.c: {name}", [front + it for it in self.listed(name)], wanted)
