"""The examples of docs/embedding.md: they are files in bindings/python, and one prints what the page shows."""
import os
import re
import subprocess
import sys
import tempfile
import unittest

from detio_tools import repository

PAGE = repository.read("docs/embedding.md")
EXAMPLE, ROLES = "bindings/python/race.py", "bindings/python/roles.py"
LIBRARY = f"{repository.TOP}/bindings/out/libdetio.so"
# Each block of Python, and the lines that are indented below a call of the example.
BLOCK = re.compile(r"^```python\n(.*?)^```$", re.DOTALL | re.MULTILINE)
PRINTED = re.compile(r"^    \$ python3 race\.py\n((?:    [^$\n].*\n)+)", re.MULTILINE)


def printed() -> list[str]:
    return [line.removeprefix("    ") for found in PRINTED.findall(PAGE) for line in found.splitlines()]


class Example(unittest.TestCase):
    def test_the_page_has_the_file(self) -> None:
        blocks = [it for it in BLOCK.findall(PAGE) if it.startswith('"""')]
        self.assertEqual(blocks, [repository.read(EXAMPLE), repository.read(ROLES)])

    def test_the_page_has_a_line_for_each_that_is_printed(self) -> None:
        called = re.findall(r"^ *print\('([^']*)'", repository.read(EXAMPLE), re.MULTILINE)
        self.assertEqual([line.split(" [")[0] for line in printed()], called)

    @unittest.skipUnless(os.path.exists(LIBRARY), "tools/build --library makes the library")
    def test_the_file_prints_what_the_page_shows(self) -> None:
        environment = dict(os.environ, PYTHONPATH=f"{repository.TOP}/bindings/python", DETIO_LIBRARY=LIBRARY)
        with tempfile.TemporaryDirectory() as folder:
            ran = subprocess.run(
                [sys.executable, "-B", f"{repository.TOP}/{EXAMPLE}"],
                cwd=folder, env=environment, capture_output=True, text=True,
            )
        self.assertEqual((ran.returncode, ran.stderr), (0, ""))
        self.assertEqual(ran.stdout.splitlines(), printed())


if __name__ == "__main__":
    unittest.main()
