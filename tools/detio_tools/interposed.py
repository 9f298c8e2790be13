"""The functions of the C library, and what the preload library does with each: what tools/interposed compares."""
import os
import pathlib
import re
import subprocess
import tempfile
from collections.abc import Iterable
from dataclasses import dataclass, field

from detio_tools import repository

# Each function that one of these declares has a row.
HEADERS = (
    "pthread.h", "semaphore.h", "threads.h", "unistd.h", "fcntl.h", "sys/stat.h", "sys/socket.h", "sys/epoll.h",
    "sys/eventfd.h", "sys/timerfd.h", "poll.h", "sys/select.h", "time.h", "stdio.h", "dirent.h", "sys/mman.h",
    "signal.h", "spawn.h")
# Of these, each that takes a descriptor, a FILE or a DIR.
OTHERS = (
    "aio.h", "execinfo.h", "fts.h", "ftw.h", "glob.h", "grp.h", "ifaddrs.h", "mntent.h", "mqueue.h", "net/if.h",
    "netdb.h", "printf.h", "pty.h", "pwd.h", "shadow.h", "stdio_ext.h", "stdlib.h", "sys/fanotify.h", "sys/file.h",
    "sys/inotify.h", "sys/ioctl.h", "sys/mount.h", "sys/pidfd.h", "sys/quota.h", "sys/random.h", "sys/resource.h",
    "sys/sendfile.h", "sys/signalfd.h", "sys/statfs.h", "sys/statvfs.h", "sys/time.h", "sys/uio.h", "sys/vfs.h",
    "sys/wait.h", "sys/xattr.h", "termios.h", "utime.h", "utmp.h", "utmpx.h", "wchar.h")
# How a header is read: what is declared depends on it.
WAYS = (("-D_GNU_SOURCE",), ("-D_GNU_SOURCE", "-O2", "-D_FORTIFY_SOURCE=2"), ("-std=c99", "-D_POSIX_C_SOURCE=200809L"))
LIBRARIES = ("libc.so.6", "libpthread.so.0", "librt.so.1")
HOWS = {"turn", "call", "asked", "waits", "copied", "held", "ours", "ends", "alias", "refused"}
WHYS = {"own", "stream", "process", "signals", "itself", "stub"}
TAKES = re.compile(r"\bint\s+\w*(?:fd|fp|fildes)\w*(?:\s*\[\s*\d*\s*\])?\s*(?:,|$)"
                   r"|\b(?:FILE|__FILE|DIR)\s*\*|\bmqd_t\b|\bstruct\s+aiocb")


@dataclass
class Library:
    """What the C library exports, without what only its own parts may use."""

    at: dict[str, set[tuple[str, str]]] = field(default_factory=dict)  # of a name, the places in its libraries
    there: dict[tuple[str, str], set[str]] = field(default_factory=dict)  # the names of a place

    def add(self, library: str, listed: str) -> None:
        """What nm -D prints of a library."""
        for line in listed.splitlines():
            words = line.split()
            if len(words) != 3 or words[1] not in "TWi" or words[2].endswith("@GLIBC_PRIVATE"):
                continue
            name, place = words[2].split("@")[0], (library, words[0])
            self.at.setdefault(name, set()).add(place)
            self.there.setdefault(place, set()).add(name)

    def aliases(self, name: str) -> set[str]:
        """All names of what this name is of."""
        return set().union(*(self.there[it] for it in self.at.get(name, ())))

    def spelt_as(self, names: set[str]) -> set[str]:
        """What has a name of these with marks of the C library's own: `__read_chk`, `__open64_2`, `_IO_getline`."""
        return {it for it in self.at if any(plain in names for plain in plain_names(it))}


def plain_names(name: str) -> Iterable[str]:
    """What a name is without the marks of the C library."""
    for before in "__", "_IO_":
        for after in "", "_chk", "_2", "64", "64_2":
            if name.startswith(before) and name.endswith(after):
                yield name[len(before):len(name) - len(after)]


def declarations(text: str) -> dict[str, str]:
    """The functions that a preprocessed header declares, each with its parameters; and the symbols that it gives other
    names."""
    found = {it: "" for it in re.findall(r'\b__asm__\s*\((?:\s*"")*\s*"(\w+)"', text)}
    text = re.sub(r"^#.*$", "", text, flags=re.M)
    for word in "__attribute__", "__asm__", "__nonnull":
        text = without(text, word)
    while (shorter := re.sub(r"\{[^{}]*\}", ";", text)) != text:
        text = shorter
    for statement in text.split(";"):
        at = re.search(r"\(\s*\*\s*(\w+)\s*\(", statement) or re.search(r"\b(\w+)\s*\(", statement)
        if at and at[1] not in ("__typeof__", "sizeof", "_Static_assert") and "typedef" not in statement:
            found[at[1]] = " ".join(inside(statement, at.end() - 1).split())
    return found


def inside(text: str, at: int) -> str:
    """What is between the parenthesis at this place and its match."""
    depth = 0
    for end in range(at, len(text)):
        depth += {"(": 1, ")": -1}.get(text[end], 0)
        if not depth:
            return text[at + 1:end]
    return text[at + 1:]


def without(text: str, word: str) -> str:
    """A text without this word and the parentheses after it."""
    parts, at = [], 0
    for it in re.finditer(rf"\b{word}\s*\(", text):
        if it.start() >= at:
            parts.append(text[at:it.start()])
            at = it.end() + len(inside(text, it.end() - 1)) + 1
    return "".join(parts) + text[at:]


def rows(text: str, width: int) -> list[list[str]]:
    """The rows of a table, each of so many words."""
    found = [line.split() for line in text.splitlines() if line.strip() and not line.startswith("#")]
    for it in found:
        if len(it) != width:
            raise ValueError(f"a row has {width} words, and not: {' '.join(it)}")
    return found


def takes_descriptor(parameters: str) -> bool:
    """Whether a function with these parameters takes a descriptor, a FILE or a DIR."""
    return bool(TAKES.search(parameters))


@dataclass
class Machine:
    """What a compiler and nm say of this machine."""

    compiler: str

    def declared(self, headers: Iterable[str]) -> dict[str, str]:
        """The functions that these headers declare, read in each way."""
        found: dict[str, str] = {}
        for header in headers:
            for way in WAYS:
                words = [self.compiler, *way, "-E", "-x", "c", "-"]
                text = subprocess.run(words, input=f"#include <{header}>\n", capture_output=True, text=True, check=True)
                found.update(declarations(text.stdout))
        return found

    def library(self) -> Library:
        """The C library that this compiler links to."""
        found = Library()
        for name in LIBRARIES:
            words = [self.compiler, f"-print-file-name={name}"]
            path = subprocess.run(words, capture_output=True, text=True, check=True).stdout.strip()
            found.add(name, listed(path))
        return found

    def exported(self, sources: pathlib.Path, built: pathlib.Path | None) -> set[str]:
        """What the preload library exports: the one in a folder, or its sources alone, compiled."""
        if built:
            return names_of(listed(str(built / "libdetio_preload.so")))
        with tempfile.TemporaryDirectory(prefix="interposed-") as room:
            parts = [str(it) for it in sorted(sources.glob("*.c")) if it.name != "launch.c"]
            words = [self.compiler, "-std=c11", "-shared", "-fPIC", "-w", "-fvisibility=hidden", "-U_FORTIFY_SOURCE",
                     "-fno-builtin", f"-I{sources}", f"-I{repository.TOP}/bindings/c",
                     "-o", f"{room}/library.so", *parts]
            subprocess.run(words, check=True)
            return names_of(listed(f"{room}/library.so"))


def listed(path: str) -> str:
    """The names that a library defines."""
    return subprocess.run(["nm", "-D", "--defined-only", path], capture_output=True, text=True, check=True).stdout


def names_of(text: str) -> set[str]:
    """The functions among these names."""
    words = [line.split() for line in text.splitlines()]
    return {it[2] for it in words if len(it) == 3 and it[1] in "TWi"}


@dataclass
class Tables:
    """What the two tables say of each function: how it is covered, or why it is passed on."""

    hows: dict[str, str]
    whys: dict[str, str]
    faults: list[str]


def read_tables(folder: pathlib.Path) -> Tables:
    """The tables of a folder, and what is wrong with their words alone."""
    covered = rows((folder / "interposed.txt").read_text(encoding="ascii"), 3)
    passed = rows((folder / "passed.txt").read_text(encoding="ascii"), 2)
    names = [it[0] for it in covered + passed]
    faults = [f"{it}: two rows" for it in sorted({it for it in names if names.count(it) > 1})]
    faults += [f"{name}: there is no {how}" for name, how, _ in covered if how not in HOWS]
    faults += [f"{name}: there is no {why}" for name, why in passed if why not in WHYS]
    return Tables({name: how for name, how, _ in covered}, {name: why for name, why in passed}, faults)


def wanted(library: Library, declared: set[str], covered: set[str]) -> set[str]:
    """The functions that need a row: what is declared and exported, what we have, and all other names of these."""
    plain = (declared | covered) & set(library.at)
    return plain | library.spelt_as(plain) | {it for name in plain for it in library.aliases(name)}


def compare(tables: Tables, library: Library, declared: dict[str, str], others: dict[str, str],
            exported: set[str]) -> tuple[list[str], int]:
    """What is wrong, and how many functions were looked at."""
    there, has = set(library.at), set(tables.hows) | set(tables.whys)
    needs = wanted(library, set(declared), set(tables.hows))
    takes = {name for name, given in others.items() if name in there and takes_descriptor(given)}
    faults = list(tables.faults)
    faults += [f"{it}: a function without a row" for it in sorted(needs - has)]
    faults += [f"{it}: it takes a descriptor, and has no row" for it in sorted(takes - has - needs)]
    faults += [f"{it}: a row without a function of the C library" for it in sorted(has - there)]
    faults += [f"{it}: {tables.hows[it]} by its row, and the library does not export it"
               for it in sorted(set(tables.hows) - exported)]
    faults += [f"{it}: passed on by its row, and the library exports it" for it in sorted(set(tables.whys) & exported)]
    faults += [f"{it}: the library exports it, and it has no row" for it in sorted(exported - has - needs)]
    return faults, len(needs | takes | has)


def compiler() -> str | None:
    """The C compiler, where there is one."""
    name = os.environ.get("CC", "cc")
    found = subprocess.run(["sh", "-c", f"command -v {name}"], stdout=subprocess.DEVNULL)
    return name if found.returncode == 0 else None
