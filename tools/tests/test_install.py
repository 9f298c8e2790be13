"""What tools/install puts where, what it refuses, and what the installed `detio` calls."""
import os
import pathlib
import shutil
import subprocess
import tempfile
import unittest

from detio_tools import repository

PLACES = {
    "libexec/detio/detio": 0o755,
    "bin/detio": 0o755,
    "share/man/man1/detio.1": 0o644,
    "share/bash-completion/completions/detio": 0o644,
    "share/zsh/site-functions/_detio": 0o644,
    "share/fish/vendor_completions.d/detio.fish": 0o644,
}
LIBRARY = {
    "lib/libdetio.a": 0o644,
    "lib/libdetio.so.1": 0o755,
    "lib/libdetio.so": 0o755,
    "lib/pkgconfig/detio.pc": 0o644,
    "include/detio.h": 0o644,
    "include/detio_threads.h": 0o644,
    "include/detio.hpp": 0o644,
    "share/detio/detio.py": 0o644,
    "share/detio/detio_pytest.py": 0o644,
    "libexec/detio/libdetio_preload.so": 0o755,
    "libexec/detio/detio-launch": 0o755,
}
# A program that says by which name it was called, and with which words.
SAYS = '#!/bin/sh\necho "$(basename "$0")" "$@"\n'


class Install(unittest.TestCase):
    """A small tree with a program and a library that were built without proofs, and folders to install them in."""

    def setUp(self) -> None:
        room = tempfile.TemporaryDirectory()
        self.addCleanup(room.cleanup)
        self.room = pathlib.Path(room.name)
        self.top = self.room / "tree"
        for folder in "man", "completions", "bindings/c", "bindings/python":
            shutil.copytree(f"{repository.TOP}/{folder}", self.top / folder)
        (self.top / "bindings/preload").mkdir()
        (self.top / "tools").mkdir()
        for name in "install", "installed-detio":
            shutil.copy(f"{repository.TOP}/tools/{name}", self.top / "tools")
        (self.top / "crates.txt").write_text("detio_cmd:\n", encoding="ascii")
        os.utime(self.top / "crates.txt", (1, 1))
        self.program = self.top / "crates/detio_cmd/out/unproved"
        self.library = self.top / "bindings/out/unproved"
        for path in self.program, *(self.library / os.path.basename(it) for it in LIBRARY):
            path.parent.mkdir(parents=True, exist_ok=True)
            path.write_text(SAYS, encoding="ascii")
            path.chmod(0o700)
        self.package = self.room / "a package"
        self.given = {"DESTDIR": str(self.package), "PREFIX": "/opt/detio"}

    def install(self, *words: str, **given: str) -> tuple[int, list[str]]:
        """The status of tools/install, and the lines that it printed."""
        ran = subprocess.run(
            [self.top / "tools/install", *words], env={"PATH": os.environ["PATH"], **given}, umask=0o077,
            capture_output=True, text=True,
        )
        return ran.returncode, ran.stdout.splitlines()

    def assert_installed(self, places: dict[str, int], *words: str) -> None:
        answer = self.install(*words, **self.given)
        self.assertEqual(answer, (0, [f"{self.package}/opt/detio/{place}" for place in places]))
        for place, mode in places.items():
            self.assertEqual((self.package / "opt/detio" / place).stat().st_mode & 0o777, mode, place)

    def test_all_is_put_below_the_prefix(self) -> None:
        self.assert_installed(PLACES, "--unproved")
        self.assertEqual((self.package / "opt/detio/bin").stat().st_mode & 0o777, 0o755)
        self.assertEqual((self.package / "opt/detio/libexec/detio/detio").read_bytes(), self.program.read_bytes())

    def test_the_library_is_put_below_the_prefix(self) -> None:
        self.assert_installed(LIBRARY, "--unproved", "--library")
        self.assertEqual(os.readlink(self.package / "opt/detio/lib/libdetio.so"), "libdetio.so.1")
        self.assertIn("prefix=/opt/detio\n", (self.package / "opt/detio/lib/pkgconfig/detio.pc").read_text())

    def test_the_proved_library_is_put_there(self) -> None:
        self.assertEqual(self.install("--library", **self.given), (1, []))
        for path in list(self.library.iterdir()):
            path.rename(self.top / "bindings/out" / path.name)
        self.assert_installed(LIBRARY, "--library")

    def test_what_is_refused_installs_nothing(self) -> None:
        given = {"DESTDIR": str(self.package), "PREFIX": "/usr"}
        self.assertEqual(self.install(**given), (1, []))
        self.assertEqual(self.install("--unproved", **{**given, "PREFIX": "usr"}), (2, []))
        self.assertEqual(self.install("--other", **given), (2, []))
        os.utime(self.program, (2, 2))
        os.utime(self.library / "libdetio_preload.so", (2, 2))
        (self.top / "crates/detio_cmd/new.rt").write_text("\n", encoding="ascii")
        self.assertEqual(self.install("--unproved", **given), (1, []))
        self.assertEqual(self.install("--library", "--unproved", **given), (1, []))
        (self.library / "detio-launch").unlink()
        self.assertEqual(self.install("--library", "--unproved", **given), (1, []))
        self.assertFalse(self.package.exists())

    def ran(self, path: pathlib.Path, *words: str) -> tuple[int, str, str]:
        ran = subprocess.run([path, *words], capture_output=True, text=True)
        return ran.returncode, ran.stdout, ran.stderr

    def test_what_the_installed_one_calls(self) -> None:
        self.assert_installed(PLACES, "--unproved")
        moved = self.room / "moved here"
        shutil.move(self.package / "opt/detio", moved)
        (self.room / "links").mkdir()
        (self.room / "links/first").symlink_to("../moved here/bin/detio")
        (self.room / "detio").symlink_to(self.room / "links/first")
        for path in moved / "bin/detio", self.room / "links/first", self.room / "detio":
            self.assertEqual(self.ran(path, "plain", "a b", "run"), (0, "detio plain a b run\n", ""))
            self.assertEqual(self.ran(path), (0, "detio\n", ""))
            status, out, said = self.ran(path, "run", "--", "ls")
            self.assertEqual((status, out), (125, ""))
            self.assertRegex(said, r"\Adetio: .*tools/install --library.*\n\Z")
        self.assert_installed(LIBRARY, "--library", "--unproved")
        (self.package / "opt/detio/libexec/detio/detio-launch").rename(moved / "libexec/detio/detio-launch")
        for word in "run", "rerun":
            answer = self.ran(self.room / "detio", word, "--", "a b")
            self.assertEqual(answer, (0, f"detio-launch {word} -- a b\n", ""))


if __name__ == "__main__":
    unittest.main()
