"""Scripts made by chance, for the tools: the same for the same seed. A line is written for each call that detio has."""
import random
from collections.abc import Callable
from typing import TypeVar

T = TypeVar("T")
PATHS = ["/a", "/b", "/c", "a", "//b", "/d", "/d/x", "/d/y", "/d/e", "/d/e/z"]
ODD_PATHS = ["/", "///", '""', "/d/", "/.", "/d/../a", "/a/x", "/no/x", "/abcdefghijklmn", "/abcdefghijklmno",
             "/" + "p" * 300, "/d/abcdefghijklmno", "/a/abcdefghijklmno", "/no/../x", "a/"]
HOST_PATHS = ["h0", "h1", "h2", "h3"]
ODD_HOST_PATHS = ["no/h", ".", '""', "p" * 256, "h0/x"]
GREATEST = 2**63 - 1


class Chance:
    """Draws the words of lines. `wide` is how many descriptors it names; `own` keeps to those of the thread."""

    def __init__(self, draw: random.Random, own: bool = False) -> None:
        self.draw, self.own, self.wide = draw, own, draw.choice([3, 6, 6, 12, 32])

    def one(self, *words: T) -> T:
        return self.draw.choice(words)

    def is_odd(self, often: float = 0.06) -> bool:
        return self.draw.random() < often

    def path(self) -> str:
        return self.draw.choice(ODD_PATHS if self.is_odd(0.08) else PATHS)

    def host_path(self) -> str:
        return self.draw.choice(ODD_HOST_PATHS if self.is_odd(0.1) else HOST_PATHS)

    def number(self) -> str:
        if self.own:
            return f"r{self.draw.randrange(4, 12)}"
        if self.is_odd():
            return self.one("-1", "31", "32", "33", str(GREATEST), str(-GREATEST - 1), "r4", "r15")
        return self.one("r0", "r1") if self.is_odd(0.1) else str(self.draw.randrange(self.wide))

    def count(self) -> str:
        if self.is_odd():
            return self.one("-1", "0", "32767", "32768", str(GREATEST), str(-GREATEST - 1))
        return self.one("1", "2", "4", "9", "32767") if self.is_odd(0.3) else str(self.draw.randrange(40))

    def octets(self) -> str:
        if self.is_odd(0.04):
            return self.one("b0", "b1", "x", "x" + "5a" * 32767, self.long_octets())
        return "x" + self.draw.randbytes(self.draw.randrange(1, 12)).hex()

    def long_octets(self) -> str:
        """More than a write of a pipe moves whole. They are numbers of two bytes, so that each byte shows its place."""
        count = self.one(513, 4096, 4097, *(self.draw.randrange(513, 9001) for _ in range(5)))
        first = self.draw.randrange(65536)
        return "x" + b"".join((at % 65536).to_bytes(2, "big") for at in range(first, first + 4501))[:count].hex()

    def place(self) -> str:
        if self.is_odd(0.1):
            return self.one("-1", "65530", "65535", "65536", "65537", "70000", str(GREATEST), str(-GREATEST - 1))
        return str(self.draw.randrange(60))

    def offset(self) -> str:
        return f"-{self.draw.randrange(70)}" if self.is_odd(0.2) else self.place()

    def flags(self, *words: str) -> str:
        return "".join(f" {it}" for it in words if self.draw.random() < 0.35)

    def access(self) -> str:
        return self.one("r", "w", "rw", "rw", "rw")

    def call(self, word: str) -> str:
        """A line of this call, without loops and jumps."""
        number = self.number()
        return LINES[word](self, number)

    def open(self) -> str:
        if self.draw.random() < 0.7:
            line = f"open {self.path()} {self.access()} create"
            return line + self.flags("excl", "trunc", "append", "nonblock")
        return f"open {self.path()} {self.access()}{self.flags('trunc', 'append', 'excl')}"


# How the line of each call is drawn, where a descriptor is drawn before.
LINES: dict[str, Callable[[Chance, str], str]] = {
    "open": lambda it, number: it.open(),
    "host_open": lambda it, number: (
        f"host_open {it.host_path()} {it.access()}{it.flags('create', 'trunc', 'append')}"
    ),
    "close": lambda it, number: f"close {number}",
    "read": lambda it, number: f"read {number} {it.count()}",
    "write": lambda it, number: f"write {number} {it.octets()}",
    "pread": lambda it, number: f"pread {number} {it.count()} {it.place()}",
    "pwrite": lambda it, number: f"pwrite {number} {it.octets()} {it.place()}",
    "lseek": lambda it, number: f"lseek {number} {it.offset()} {it.one('set', 'cur', 'end')}",
    "ftruncate": lambda it, number: f"ftruncate {number} {it.place()}",
    "fstat": lambda it, number: f"fstat {number}",
    "dup": lambda it, number: f"dup {number}",
    "dup_from": lambda it, number: f"dup_from {number} {it.one(it.number(), '4', '30', '0')}",
    "dup2": lambda it, number: f"dup2 {number} {it.number()}",
    "getfl": lambda it, number: f"getfl {number}",
    "setfl": lambda it, number: f"setfl {number}{it.flags('append', 'nonblock')}",
    "link": lambda it, number: f"link {it.path()} {it.path()}",
    "unlink": lambda it, number: f"unlink {it.path()}",
    "rename": lambda it, number: f"rename {it.path()} {it.path()}",
    "mkdir": lambda it, number: f"mkdir {it.one('/d', '/d/e', it.path())}",
    "rmdir": lambda it, number: f"rmdir {it.one('/d', '/d/e', it.path())}",
    "pipe": lambda it, number: "pipe",
    "socketpair": lambda it, number: "socketpair",
    "shutdown": lambda it, number: f"shutdown {number} {it.one('read', 'write', 'both')}",
    "tcp_listen": lambda it, number: f"tcp_listen {it.one('0', '-1', '65536')}",
    "tcp_connect": lambda it, number: f"tcp_connect {it.one('0', '-5', '65536')}",
    "tcp_accept": lambda it, number: f"tcp_accept {number}",
}
# How often each comes.
IN_MEMORY = {"open": 10, "close": 6, "read": 14, "write": 14, "pread": 4, "pwrite": 4, "lseek": 5, "ftruncate": 3,
             "fstat": 3, "dup": 3, "dup_from": 2, "dup2": 3, "getfl": 2, "setfl": 3, "link": 3, "unlink": 4,
             "rename": 4, "mkdir": 4, "rmdir": 3, "pipe": 3, "socketpair": 3, "shutdown": 2}
WITH_DOORS = {**IN_MEMORY, "host_open": 10, "tcp_listen": 1, "tcp_connect": 1, "tcp_accept": 1}


def wild_lines(chance: Chance, weights: dict[str, int]) -> list[str]:
    """A thread that names any descriptor. It makes no stream: a read there could wait for a peer for ever."""
    words = chance.draw.choices(list(weights), list(weights.values()), k=chance.draw.randrange(3, 40))
    lines: list[str] = []
    for at, word in enumerate(words):
        lines.append(chance.call(word))
        lines += decoration(chance, at) if chance.draw.random() < 0.25 else []
    if chance.is_odd(0.08):
        lines[0:0] = crowd(chance)
    return lines


def decoration(chance: Chance, at: int) -> list[str]:
    """A line that is no call, or a few with a loop or a jump."""
    draw, call = chance.draw, chance.call(chance.one("read", "write", "open", "dup", "close", "pread"))
    return draw.choice([
        [f"work {draw.choice([0, 1, 7, 60, 300])}"],
        [f"set r{draw.randrange(16)} {draw.randrange(-2, 9)}", f"add r{draw.randrange(16)} {draw.randrange(-3, 4)}"],
        [f"setb b{draw.randrange(4)} x{draw.randbytes(draw.randrange(5)).hex()}"],
        [f"jfail f{at}", call, f"label f{at}"],
        [f"set r2 -{draw.randrange(1, 8)}", f"label l{at}", call, "add r2 1", f"jzero r2 d{at}", f"jump l{at}",
         f"label d{at}"],
        ["# a line that does nothing", ""],
    ])


def crowd(chance: Chance) -> list[str]:
    """What fills a table, all names, all objects or a pipe."""
    fills = [
        ["set r2 -33", "label full", "open /a rw create", "add r2 1", "jzero r2 filled", "jump full", "label filled"],
        [f"mkdir /n{at}" for at in range(66)],
        [line for at in range(50) for line in (f"open /o{at} rw create", "close r0")],
        ["pipe", "set r9 r1", f"write r9 x{'5a' * 4095}", "write r9 x5a", "write r9 x5a"],
        [f"socketpair\nset r9 r1\nwrite r9 x{'5a' * 32767}\nwrite r9 x5a5a"],
    ]
    return chance.draw.choice(fills)


TAKES = ["close 1", "close 0", "dup2 3 1", "dup2 1 3", "dup2 4 1", "open /a rw create", "pipe", "socketpair",
         "setfl 1 nonblock", "setfl 3 nonblock", "setfl 1", "fstat 1", "getfl 3",
         "dup 1\nset r9 r0\nclose 1\ndup2 r9 1", "dup 1\ndup2 r0 1", "pipe\ndup2 r1 1",
         "close 1\nopen /b rw create", "close 1\npipe"]


def piped_lines(chance: Chance, at: int, has_doors: bool) -> list[str]:
    """A thread beside others that share a pipe or two, whose ends have few numbers. It writes much, or makes room, or
    closes these numbers and gives them to something else while a write waits there. None of them is that of a
    stream."""
    draw, lines = chance.draw, ["pipe"] if at == 0 or chance.is_odd(0.1) else [f"work {chance.one(0, 2, 9)}"]
    role = "writes" if at == 0 and draw.random() < 0.7 else chance.one("writes", "reads", "reads", "takes")
    doors = ["host_open h0 rw create\ndup2 r0 1", "close 1\nhost_open h1 rw create"]
    takes = TAKES + doors * (2 * has_doors)
    for _ in range(draw.randrange(1, 7)):
        is_long = draw.random() < 0.7
        writer, reader = chance.one("1", "1", "1", "3", "4"), chance.one("0", "0", "0", "2")
        octets = chance.long_octets() if is_long else "x" + draw.randbytes(chance.one(1, 9, 100, 511, 512)).hex()
        count = chance.one("1", "100", "504", "600", "4000", "4096", "9000", str(draw.randrange(1, 5000)))
        lines += [f"work {chance.one(1, 4, 9, 20, 60)}"] if draw.random() < (0.2 if role == "writes" else 0.5) else []
        taken = {"writes": f"write {writer} {octets}", "reads": f"read {reader} {count}", "takes": chance.one(*takes)}
        lines += taken[role].split("\n")
        lines += [chance.call(chance.one("read", "write", "dup", "close", "setfl"))] if chance.is_odd(0.1) else []
    return lines


# The calls of a thread on a descriptor of its own that make none and take none away.
OF_OWN = [it for it in IN_MEMORY if it not in ("dup", "dup2", "dup_from", "open", "close", "pipe", "socketpair")]


def own_lines(chance: Chance, tcp: bool) -> list[str]:
    """A thread that names only descriptors that it opened itself, kept in r4 to r11; so it may make streams."""
    lines, draw = [f"set r{at} -1" for at in range(4, 15)], chance.draw
    for _ in range(draw.randrange(2, 14)):
        to = draw.randrange(4, 12)
        kind = draw.choice(["file", "host", "call", "call", "call", "pipe", *["tcp"] * 2 * tcp])
        if kind == "tcp":
            lines += tcp_lines(chance)
        elif kind == "call":
            lines.append(chance.call(draw.choice(OF_OWN)))
        elif kind == "pipe":
            lines += ["set r1 -1", chance.one("pipe", "socketpair"), f"set r{to} r0", f"set r{4 + (to - 3) % 8} r1"]
        else:
            lines += [f"close r{to}", chance.call("open" if kind == "file" else "host_open"), f"set r{to} r0"]
    return lines


def tcp_lines(chance: Chance) -> list[str]:
    """A connection of a thread with itself, over loopback. It reads what was written before, or after a shutdown."""
    draw, count = chance.draw, chance.draw.randrange(1, 9)
    opened = ["tcp_listen 0", "set r12 r0", "jfail x", "fstat r12", "set r15 r0", "tcp_listen r15", "tcp_connect r15",
              "set r13 r0", "jfail x", "tcp_accept r12", "set r14 r0", "jfail x"]
    moved = [f"write r13 x{draw.randbytes(count).hex()}", "jfail x", f"read r14 {draw.randrange(1, count + 1)}",
             "shutdown r13 write", "read r14 32767", "read r14 5", "write r14 x6869", "jfail x", "read r13 1"]
    refused = ["tcp_connect 1", "close r0"] if chance.is_odd(0.2) else ["tcp_accept r12"] if chance.is_odd(0.2) else []
    closed = ["close r14", "close r13", "close r12", "set r12 -1", "set r13 -1", "set r14 -1"]
    return [*opened, *moved, *refused, "label x", *closed]


def numbered(lines: list[str]) -> list[str]:
    """Gives the labels of each repeated part names of its own."""
    found, number = [], 0
    for line in "\n".join(lines).split("\n"):
        words = line.split(" ")
        if words[0] in ("jfail", "label") and words[-1] == "x":
            found.append(f"{words[0]} x{number}")
            number += words[0] == "label"
        else:
            found.append(line)
    return found


def scripts(draw: random.Random) -> list[str]:
    """The scripts of a run, of 1 to 16 threads; some have doors, some streams, and some long writes to pipes."""
    threads, style = draw.choice([1, 2, 2, 3, 4, 8, 16, draw.randrange(1, 17)]), draw.random()
    if style < 0.2:
        own = [numbered(own_lines(Chance(draw, own=True), tcp=draw.random() < 0.7)) for _ in range(threads)]
        return list(map(text_of, own))
    if style < 0.45:
        has_doors = draw.random() < 0.4
        return [text_of(piped_lines(Chance(draw), at, has_doors)) for at in range(max(threads, 2))]
    weights = IN_MEMORY if style < 0.7 else WITH_DOORS
    return [text_of(wild_lines(Chance(draw), weights)) for _ in range(threads)]


def text_of(lines: list[str]) -> str:
    return "\n".join(lines) + "\n"
