"""The must-fail edits of a crate: which function each changes, which go together, and what the prover says."""
import os
import re
from collections.abc import Iterator
from dataclasses import dataclass, replace

HEAD = re.compile(
    r'(?P<indent> *)(?:pub(?:\([^)]*\))? )?(?:const )?(?:unsafe )?(?:extern "C" )?fn (?P<name>\w+)'
)
OWNER = re.compile(r"(?:pub )?(?:impl|trait)\b")
REFUSED = re.compile(r"^fn (?P<name>\S+): (?:not proved|no proof: (?!it (?:calls|passes) )(?P<why>.*))", re.M)
GOAL = re.compile(r"`search` did not prove ([^;]*)")
ERROR = re.compile(r"^(?:\./)?(?P<file>\S+?):\d+:\d+: error: (?:(?P<named>`[^`]*`): )?(?P<what>.*)", re.M)
# A proof file names what an edit took away, or cites what is not proved since another edit is in the same batch.
LACKS = re.compile(r"has no field|is not in scope|has no `|was not admitted")
# A text that cannot be read, so that no contract was tried.
UNREAD = re.compile(r"is not in scope|has no field|is no name|operand is missing|expected the end|cannot continue")

# What is said of a function whose proof file does not fit it any more.
NO_FIT = "its proof file does not fit"

# The texts of changed files, by their paths.
Texts = dict[str, str]


@dataclass(frozen=True)
class Function:
    """A function of a crate: its module, its name, and the names in the head of the `impl` or trait around it."""

    module: str
    name: str
    owner: tuple[str, ...]

    def __str__(self) -> str:
        return "::".join([self.module, *self.owner[-1:], self.name])


@dataclass(frozen=True)
class Found:
    """A function in a text: where it starts and ends, its name, and the line of the `impl` or trait around it."""

    first: int
    last: int
    name: str
    owner: str


def functions(text: str) -> list[Found]:
    """The functions of a source file that is laid out by `rt fmt`."""
    found: list[Found] = []
    at, owner, begun, has_body, depth = 0, "", None, False, 0
    for line in text.split("\n"):
        # (the head of an `impl` may take several lines)
        begins = bool(OWNER.match(line))
        is_rest = not begins and OWNER.match(owner) and not re.search(r"[{}]", owner)
        owner = line if begins else f"{owner} {line.strip()}" if is_rest else "" if line.startswith("}") else owner
        head = HEAD.match(line)
        if head and begun is None:
            begun, has_body, depth = (at, head["indent"], head["name"], owner), line.endswith("{"), 0
        if begun:
            start, indent, name, around = begun
            depth += line.count("{") - line.count("}")
            is_last_of_head = line == indent + "{" or line.startswith(indent + ")") and line.endswith("{")
            has_body = has_body or is_last_of_head
            is_whole = head and re.search(r"[;}]$", line) and depth == 0
            # (a `;` within the braces of a clause ends nothing)
            if is_whole or line == indent + "}" or line.endswith(";") and not has_body and depth == 0:
                found.append(Found(start, at + len(line), name, around))
                begun = None
        at += len(line) + 1
    return found


def without_parameters(owner: str) -> str:
    """The head of an `impl` or a trait without what stands in angle brackets."""
    bare = re.sub(r"<[^<>]*>", "", owner)
    return bare if bare == owner else without_parameters(bare)


def place(path: str, text: str, old: str) -> Function | None:
    """The function that holds this text, or None where no function does."""
    at = text.find(old)
    module = re.sub(r"^src/|\.rt$|/mod(?=\.rt)", "", path).replace("/", "::")
    for it in functions(text) if path.endswith(".rt") else []:
        if it.first <= at <= it.last:
            return Function(module, it.name, owner_of(it.owner.split("{")[0].split(" where ")[0]))
    return None


def owner_of(head: str) -> tuple[str, ...]:
    """The trait of the head of an `impl`, with the types that it is given, and the type; or the one that is there."""
    trait, _, type_of = without_own_parameters(head).rpartition(" for ")
    given = re.search(r"<(.*)>", trait)
    types = [it for it in re.findall(r"[A-Z]\w+", given[1] if given else "") if f"{it}:" not in head]
    words = re.findall(r"[A-Z]\w+", without_parameters(trait))[:1]
    named = re.findall(r"[A-Z]\w+", without_parameters(type_of))
    return (*("".join([it, *types]) for it in words), *named)


def without_own_parameters(head: str) -> str:
    """The head of an `impl` without the parameters that it declares."""
    depth, at = 0, head.find("<")
    if not re.match(r"(pub )?impl<", head):
        return head
    for place in range(at, len(head)):
        depth += {"<": 1, ">": -1}.get(head[place], 0)
        if depth == 0:
            return head[:at] + head[place + 1 :]
    return head


def pairs_of(text: str) -> list[tuple[str, str, str]]:
    """The pairs of old and new text of an edit, each with its file."""
    pairs, path, old = [], "", ""
    for line in text.split("\n"):
        if line.startswith("file: "):
            path = line[len("file: ") :].strip()
        elif line.startswith("old: "):
            old = line[len("old: ") :]
        elif line.startswith("new:") and old:
            pairs.append((path, old, line[len("new:") :].removeprefix(" ")))
            old = ""
    return pairs


class Edit:
    """An edit: its name, its pairs of old and new text, the functions that they change, and those that refuse it."""

    def __init__(self, name: str, folder: str) -> None:
        self.name = name
        text = read(folder, f"must-fail/{name}.edit")
        self.pairs = pairs_of(text)
        texts: Texts = {}
        places: list[Function | None] = []
        for path, old, new in self.pairs:
            now = texts[path] if path in texts else read(folder, path)
            places.append(place(path, now, old))
            texts[path] = now.replace(old, new)
        self.places = list(dict.fromkeys(places))
        self.refused_by = re.findall(r"^refused by: (\S+)$", text, re.M)

    def functions(self) -> list[Function]:
        """The functions that it changes, or none where it changes something else too, and so goes alone."""
        return [] if None in self.places else [it for it in self.places if it]

    def where(self) -> str:
        found = [str(it) for it in self.places if it]
        return " and ".join(found + ["what is no function"] * (None in self.places))

    def apply(self, texts: Texts, folder: str) -> bool:
        """Adds this edit to the texts of changed files, or returns False where another edit is in its way."""
        made = dict(texts)
        for path, old, new in self.pairs:
            text = made[path] if path in made else read(folder, path)
            if text.count(old) != 1:
                return False
            made[path] = text.replace(old, new)
        texts.update(made)
        return True

    def alone(self) -> "Edit":
        """The edit as it goes into a copy of the crate by itself."""
        return self


class Twin(Edit):
    """An edit of a function that another edit of its batch changes already: it changes a copy of that function, which
    stands after it, has a name of its own, and is called by nobody."""

    def __init__(self, edit: Edit, number: int, folder: str) -> None:
        function = edit.functions()[0]
        self.edit, self.folder, self.function = edit, folder, function
        self.name, self.pairs, self.refused_by = edit.name, edit.pairs, edit.refused_by
        self.twin = replace(function, name=f"{function.name}_twin{number}")
        self.places = [self.twin]

    def alone(self) -> Edit:
        return self.edit

    def apply(self, texts: Texts, folder: str) -> bool:
        path = self.pairs[0][0]
        source = read(folder, path)
        copy = self.copy(source)
        text = texts.get(path, source)
        found = self.found(text)
        if copy is None or found is None:
            return False
        texts[path] = f"{text[:found.last]}\n\n{copy}{text[found.last:]}"
        texts.update(self.proof())
        return True

    def proof(self) -> Texts:
        """The files of the function's own proof, for the copy: they name the function in the path of their imports."""
        at, to = proof_of(self.function), proof_of(self.twin)
        found: Texts = {}
        for name in os.listdir(f"{self.folder}/{at}") if os.path.isdir(f"{self.folder}/{at}") else []:
            text = read(self.folder, f"{at}/{name}")
            found[f"{to}/{name}"] = text.replace(f".{dotted(at)}.", f".{dotted(to)}.")
        return found

    def found(self, text: str) -> Found | None:
        """The function in this text of its file."""
        for it in functions(text):
            if place(self.pairs[0][0], text, text[it.first : it.last]) == self.function:
                return it
        return None

    def copy(self, source: str) -> str | None:
        """The copy of the function with the edit in it, or None where there can be none: of a method of a trait, of a
        function whose proof is written whole, and of one that stands in a cycle of calls."""
        found = self.found(source)
        is_whole = os.path.exists(f"{self.folder}/{proof_of(self.function)}/Proof.antt")
        if not found or len(self.function.owner) > 1 or is_whole:
            return None
        text = source[start_of(source, found.first) : found.last]
        if re.match(r"(pub )?trait\b", found.owner) or "#[cycle" in text:
            return None
        for path, old, new in self.pairs:
            if path != self.pairs[0][0] or text.count(old) != 1:
                return None
            text = text.replace(old, new)
        return re.sub(rf"\bfn {self.function.name}\b", f"fn {self.twin.name}", text, count=1)


def start_of(text: str, first: int) -> int:
    """Where the comment and the attributes begin that stand above the function that starts here."""
    while True:
        before = text.rfind("\n", 0, max(first - 1, 0)) + 1
        if before >= first or re.search(r"(^|[{};])\s*$", text[before:first]):
            return first
        first = before


def proof_of(function: Function) -> str:
    """The folder of the files that a function's proof may have."""
    return "/".join(["proofs", *function.module.split("::"), *function.owner[-1:], function.name])


def dotted(folder: str) -> str:
    """A folder of proofs as imports name it."""
    return folder.replace("/", ".")


def read(folder: str, path: str) -> str:
    with open(f"{folder}/{path}", encoding="utf-8") as file:
        return file.read()


def write(folder: str, texts: Texts) -> None:
    for path, text in texts.items():
        os.makedirs(os.path.dirname(f"{folder}/{path}"), exist_ok=True)
        with open(f"{folder}/{path}", "w", encoding="utf-8") as file:
            file.write(text)


def names_of(folder: str) -> list[str]:
    """The names of a crate's edits."""
    if not os.path.isdir(f"{folder}/must-fail"):
        return []
    return sorted(it.removesuffix(".edit") for it in os.listdir(f"{folder}/must-fail") if it.endswith(".edit"))


def batches(edits: list[Edit], folder: str) -> Iterator[tuple[list[Edit], Texts]]:
    """Groups edits of different functions, and yields them with the texts that they make. A second edit of a function
    changes a copy of it, where there can be one."""
    left = list(edits)
    while left:
        texts: Texts = {}
        taken: list[Edit] = []
        places: set[Function] = set()
        for it in left:
            if not places & set(it.functions()) and it.apply(texts, folder):
                taken.append(it)
                places |= set(it.functions())
        if not taken:
            return  # what is left cannot be applied
        left = [it for it in left if it not in taken]
        # (after the others, whose old texts may stand in a copy too)
        lone = [it for it in left if len(it.functions()) == 1 and it.apply({}, folder)]
        taken += [it for at, one in enumerate(lone) if (it := Twin(one, at, folder)).apply(texts, folder)]
        made = [it.alone() for it in taken]
        left = [it for it in left if it not in made]
        yield taken, texts


def path_of(function: Function) -> str:
    """What `rattle check --only` takes for a function: its path, or of a method the end of its name."""
    if function.owner:
        return "::".join(["".join(reversed(function.owner)), function.name])
    return function.name if function.module in ("lib", "main") else f"{function.module}::{function.name}"


def own_line(crate: str, function: Function, said: str) -> str | None:
    """Why a check refuses the edited function itself, if it does. A method is named by its type's module."""
    is_inside = function.owner or function.module in ("lib", "main")
    inside = [crate] if is_inside else [crate, *function.module.split("::")]
    for it in REFUSED.finditer(said):
        words = it["name"].split("::")
        is_owned = not function.owner or any(word.startswith(function.owner[-1]) for word in words[:-1])
        if words[: len(inside)] == inside and function.name in words and is_owned:
            return it["why"] or NO_FIT
    return None


def goal_of(line: str) -> str:
    """The goal that was not proved, of why a function is refused."""
    goal = GOAL.search(line)
    return goal[1] if goal else line


def is_its_own(function: Function, line: str, said: str) -> bool:
    """Whether a function is refused for a goal of its own, and not since its proof cites what another edit broke."""
    if line != NO_FIT:
        return bool(GOAL.search(line))
    inside = [*function.owner[-1:], function.name]
    for it in ERROR.finditer(said):
        words = it["file"].split("/")
        if words[0] == "proofs" and set(inside) <= set(words) and not LACKS.search(it["what"]):
            return True
    return False


def line_by(crate: str, path: str, said: str) -> str | None:
    """Why a check refuses the function with this path below the crate, if it does."""
    found = next((it for it in REFUSED.finditer(said) if it["name"] == f"{crate}::{path}"), None)
    return (found["why"] or NO_FIT) if found else None


def unread(said: str, changed: Texts) -> str | None:
    """The first text of the crate that the prover could not read, if there is one."""
    for it in ERROR.finditer(said):
        if it["file"] in changed or it["file"].startswith(("src/", "specs/")):
            if not it["named"] or UNREAD.search(re.sub("`[^`]*`", "", it["what"])):
                return it[0]
    return None
