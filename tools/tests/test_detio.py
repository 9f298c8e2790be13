"""Where ./detio hands on to: stand-ins in a small tree say what they were called with."""
import os
import pathlib
import shutil
import subprocess
import tempfile
import unittest

from detio_tools import repository

SAYS = '#!/bin/sh\necho "{name}" "$@"\n'
LIBRARY = "libdetio.so", "libdetio_preload.so", "detio-launch"


class Detio(unittest.TestCase):
    """A tree in which all that could be called says so, and what builds makes what it builds."""

    def setUp(self) -> None:
        room = tempfile.TemporaryDirectory()
        self.addCleanup(room.cleanup)
        self.top = pathlib.Path(room.name) / "a tree"
        for folder in "tools", "crates/detio_cmd/out", "bindings/c", "bindings/python", "bindings/preload":
            (self.top / folder).mkdir(parents=True)
        shutil.copy(f"{repository.TOP}/detio", self.top)
        self.source("crates.txt", 1000)
        self.stand_in("tools/build", self.building("bindings/out", "build"))
        self.stand_in("tools/build-unproved", self.building("bindings/out/unproved", "build-unproved"))

    def building(self, folder: str, name: str) -> str:
        """The text of a stand-in that builds the library, and says so on standard error."""
        lines = [SAYS.format(name=name).rstrip() + " >&2", f"mkdir -p '{self.top}/{folder}'"]
        for file in LIBRARY:
            path = f"{self.top}/{folder}/{file}"
            lines.append(f"""printf '#!/bin/sh\\necho made by {name}: "$@"\\n' > '{path}'; chmod 755 '{path}'""")
        return "\n".join(lines) + "\n"

    def stand_in(self, path: str, text: str | None = None, time: int = 2000) -> None:
        file = self.top / path
        file.parent.mkdir(parents=True, exist_ok=True)
        file.write_text(text or SAYS.format(name=path), encoding="ascii")
        file.chmod(0o755)
        os.utime(file, (time, time))

    def library(self, folder: str, time: int = 2000) -> None:
        for name in LIBRARY:
            self.stand_in(f"{folder}/{name}", time=time)

    def source(self, path: str, time: int) -> None:
        (self.top / path).write_text("\n", encoding="ascii")
        os.utime(self.top / path, (time, time))

    def ran(self, *words: str, **given: str) -> tuple[int, str, list[str]]:
        """The status of ./detio, what it printed, and the lines on standard error."""
        env = {"PATH": os.environ["PATH"], **given}
        ran = subprocess.run([self.top / "detio", *words], env=env, capture_output=True, text=True)
        return ran.returncode, ran.stdout, ran.stderr.splitlines()

    def test_the_proved_library_is_used_as_it_is(self) -> None:
        self.library("bindings/out")
        for proved in "", "0", "1":
            for word in "run", "rerun":
                answer = self.ran(word, "--log", "a b", "--", "ls", DETIO_PROVED=proved)
                self.assertEqual(answer, (0, f"bindings/out/detio-launch {word} --log a b -- ls\n", []))

    def test_one_without_proofs_is_used_and_said_to_be_so(self) -> None:
        self.library("bindings/out", time=500)
        self.library("bindings/out/unproved")
        status, out, said = self.ran("run", "ls")
        self.assertEqual((status, out), (0, "bindings/out/unproved/detio-launch run ls\n"))
        self.assertEqual([line.split(";")[0] for line in said], ["detio: this library is not proved"])

    def test_what_is_missing_or_old_is_made(self) -> None:
        made = 0, "made by build-unproved: run ls\n", ["build-unproved --library"]
        self.assertEqual(self.ran("run", "ls"), made)
        for path in "crates/a.rt", "bindings/c/a.c", "bindings/python/a.py", "bindings/preload/a.c":
            self.library("bindings/out")
            self.library("bindings/out/unproved")
            self.source(path, 3000)
            self.assertEqual(self.ran("run", "ls"), made, path)
            (self.top / path).unlink()
        self.library("bindings/out")
        self.stand_in("bindings/out/libdetio.so", time=2001)
        self.library("bindings/out/unproved")
        (self.top / "bindings/out/unproved/libdetio_preload.so").unlink()
        self.assertEqual(self.ran("run", "ls"), made)
        (self.top / "bindings/out/detio-launch").unlink()
        self.library("bindings/out/unproved", time=500)
        self.assertEqual(self.ran("run", "ls"), made)

    def test_the_proved_one_is_made_where_it_is_asked_for(self) -> None:
        self.library("bindings/out/unproved")
        answer = self.ran("rerun", "ls", DETIO_PROVED="1")
        self.assertEqual(answer, (0, "made by build: rerun ls\n", ["build --library"]))

    def test_where_nothing_can_be_made(self) -> None:
        for name in "build", "build-unproved":
            self.stand_in(f"tools/{name}", "#!/bin/sh\nexit 4\n")
        self.assertEqual(self.ran("run", "ls"), (125, "", []))
        self.assertEqual(self.ran("run", "ls", DETIO_PROVED="1"), (125, "", []))
        self.assertEqual(self.ran("plain", "run")[:2], (4, ""))
        self.assertEqual(self.ran("plain", DETIO_PROVED="1"), (4, "", []))

    def test_all_else_goes_to_the_program(self) -> None:
        self.library("bindings/out")
        self.stand_in("crates/detio_cmd/out/detio_cmd")
        for words in "", "plain run", "--help", "help run", "runs":
            printed = f"crates/detio_cmd/out/detio_cmd {words}".rstrip() + "\n"
            self.assertEqual(self.ran(*words.split()), (0, printed, []))


if __name__ == "__main__":
    unittest.main()
