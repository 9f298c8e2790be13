"""What wrong programs share: each runs the right program, and turns its answer wrong in one way.

DETIO names the right program. DETIO_WRONG names a file, if it is set: each mistake adds lines there, with what a tool
that catches it can say. What DETIO_PRELOAD names is preloaded into the right program, and not into the wrong one.
"""
import os
import re
import subprocess
import sys
from collections.abc import Callable
from typing import TYPE_CHECKING, NoReturn

if TYPE_CHECKING:
    from detio_tools import model as model

# How much of a line is noted: tools shorten what they say.
NOTED = 200


def environment() -> dict[str, str]:
    """That of the right program."""
    env = {name: value for name, value in os.environ.items() if not name.startswith("DETIO_") or "FAULT" in name}
    return {**env, "LD_PRELOAD": os.environ["DETIO_PRELOAD"]} if "DETIO_PRELOAD" in os.environ else env


class Answer:
    """What the right program answers: its status, standard output and standard error, to be turned wrong and given."""

    def __init__(self, *commands: str) -> None:
        """Runs the right program with the words of this one, which it replaces where the command is none of these."""
        self.words, program = sys.argv[1:], os.environ["DETIO"]
        self.command = self.words[0] if self.words else ""
        if commands and self.command not in commands:
            os.execve(program, [program, *self.words], environment())
        ran = subprocess.run([program, *self.words], env=environment(), capture_output=True)
        self.status, self.out, self.err = ran.returncode, ran.stdout.decode("latin-1"), ran.stderr.decode("latin-1")

    def option(self, name: str) -> str | None:
        """The value of an option, or None where it is not given."""
        return self.words[self.words.index(name) + 1] if name in self.words[:-1] else None

    def path(self, name: str) -> str:
        """The path that is the value of an option."""
        found = self.option(name)
        if found is None:
            sys.exit(f"{self.command} has no {name}")
        return found

    def lines(self, pattern: str) -> list[re.Match[str]]:
        """Where standard output has this pattern, in which ^ and $ are the ends of a line."""
        return list(re.finditer(pattern, self.out, re.M))

    def change(self, pattern: str, new: str | Callable[[re.Match[str]], str]) -> bool:
        """Writes something else at the last place where standard output has this pattern. Returns whether it has."""
        found = self.lines(pattern)
        if not found:
            return False
        place = found[-1]
        text = new(place) if callable(new) else place.expand(new)
        front = self.out[: place.start()]
        self.out = front + text + self.out[place.end() :]
        begun = front.rfind("\n") + 1
        self.notes(self.out[begun:].split("\n")[0] if text else place[0].rstrip("\n"))
        return True

    def drop(self, pattern: str) -> bool:
        """Leaves out the last line that has this pattern. Returns whether there is one."""
        return self.change(f"^.*(?:{pattern}).*\n", "")

    def ends(self, status: int) -> None:
        """Ends with another status."""
        if status != self.status:
            self.status = status
            self.notes(f"status {status}")

    def change_file(self, path: str, change: Callable[[bytes], bytes]) -> None:
        """Writes something else into a file that the right program left."""
        with open(path, "rb") as file:
            text = file.read()
        with open(path, "wb") as file:
            file.write(change(text))

    def change_page(self, pattern: str, new: Callable[[re.Match[str]], str]) -> None:
        """Writes something else at the last place where the page of `detio draw` has this pattern, in which . is also
        the end of a line. The page stays where it has none, or none was left."""
        page = self.option("--out")
        if self.status or page is None or not os.path.exists(page):
            return

        def changed(text: bytes) -> bytes:
            drawn = text.decode("ascii")
            found = list(re.finditer(pattern, drawn, re.S))
            if not found:
                return text
            return f"{drawn[: found[-1].start()]}{new(found[-1])}{drawn[found[-1].end() :]}".encode("ascii")
        self.change_file(page, changed)

    def change_log(self, option: str, change: "Callable[[model.Log], None]") -> None:
        """Changes the log at the path of an option, if the right program left one there that has no fault."""
        path = self.option(option)
        if self.status or path is None or not os.path.exists(path):
            return
        sys.path.append(os.path.dirname(os.path.dirname(os.path.realpath(__file__))))
        from detio_tools import model  # only here, since it takes a while

        def changed(text: bytes) -> bytes:
            log = model.Log(text)
            if log.fault is None:
                change(log)
            return text if log.fault else model.spelled(log.version, text, log.records, log.is_closed)
        self.change_file(path, changed)

    def notes(self, *words: str) -> None:
        """Notes what a tool can say of this mistake."""
        if "DETIO_WRONG" in os.environ:
            with open(os.environ["DETIO_WRONG"], "a", encoding="latin-1") as file:
                file.write("".join(f"{it.strip()[:NOTED]}\n" for it in words if it))

    def give(self) -> NoReturn:
        """Ends as the right program did, but for the mistakes."""
        sys.stdout.buffer.write(self.out.encode("latin-1"))
        sys.stderr.buffer.write(self.err.encode("latin-1"))
        sys.stdout.flush()
        sys.stderr.flush()
        sys.exit(self.status if self.status >= 0 else 128 - self.status)
