"""The preload library and the launcher that tools/link-preload makes, of small stand-ins for bindings/preload and for
the library's code."""
import os
import pathlib
import shutil
import subprocess
import tempfile
import unittest

from detio_tools import repository

COMPILER = os.environ.get("CC", "cc")
# The library's code: it takes memory, and a name of it is seen outside.
LIBRARY = """#include <stdlib.h>
int library_answer(void) { int *it = malloc(4); if (!it) return 0; *it = 42; int was = *it; free(it); return was; }
"""
SOURCES = {
    "about.c": "int about(void);\nint about(void) { return 5; }\n",
    "runs.c": "int runs(void);\nint runs(void) { return 7; }\n",
    "sha256.c": "int sha256(void);\nint sha256(void) { return 6; }\n",
    "launch.c": "int about(void), runs(void), sha256(void);\nint main(void) { return about() + runs() + sha256(); }\n",
    "heap.c": """#include <stdio.h>
#include <stdlib.h>
void *detio_heap_malloc(size_t), *detio_heap_realloc(void *, size_t), *detio_heap_calloc(size_t, size_t);
void detio_heap_free(void *);
void *detio_heap_malloc(size_t size) { puts("malloc"); return malloc(size); }
void *detio_heap_realloc(void *old, size_t size) { return realloc(old, size); }
void *detio_heap_calloc(size_t count, size_t size) { return calloc(count, size); }
void detio_heap_free(void *old) { puts("free"); free(old); }
""",
    "preload.c": """#include "detio.h"
#include <stdio.h>
int library_answer(void);
__attribute__((visibility("default"))) int seen(void);
int seen(void) { return DETIO_DONE; }
__attribute__((constructor)) static void begins(void) { printf("%d\\n", library_answer()); fflush(stdout); }
""",
}


@unittest.skipUnless(shutil.which(COMPILER) and shutil.which("objcopy"), "there is no compiler of C here")
class LinkPreload(unittest.TestCase):
    def setUp(self) -> None:
        room = tempfile.TemporaryDirectory()
        self.addCleanup(room.cleanup)
        self.top = pathlib.Path(room.name) / "a tree"
        shutil.copytree(f"{repository.TOP}/bindings/c", self.top / "bindings/c")
        (self.top / "tools").mkdir()
        shutil.copy(f"{repository.TOP}/tools/link-preload", self.top / "tools")
        self.sources = self.top / "bindings/preload"
        self.sources.mkdir()
        for name, text in SOURCES.items():
            (self.sources / name).write_text(text, encoding="ascii")
        self.folder = self.top / "bindings/out/unproved"
        (self.folder / "objects").mkdir(parents=True)
        for name, text in ("unproved-detio_c", LIBRARY), ("heap-heap", "int heap_part;\n"):
            words = [COMPILER, "-x", "c", "-fPIC", "-c", "-", "-o", f"{self.folder}/objects/{name}.o"]
            subprocess.run(words, input=text, text=True, check=True)

    def ran(self, *words: str) -> tuple[int, str]:
        """The status of tools/link-preload, and what it said."""
        ran = subprocess.run([self.top / "tools/link-preload", *words], capture_output=True, text=True)
        self.assertEqual(ran.stdout, "")
        return ran.returncode, ran.stderr

    def test_what_is_made(self) -> None:
        before = sorted(os.listdir(self.folder / "objects"))
        self.assertEqual(self.ran(str(self.folder)), (0, ""))
        self.assertEqual(sorted(os.listdir(self.folder)), ["detio-launch", "libdetio_preload.so", "objects"])
        self.assertEqual(sorted(os.listdir(self.folder / "objects")), before)
        self.assertEqual(subprocess.run([self.folder / "detio-launch"]).returncode, 18)
        library, link = self.folder / "libdetio_preload.so", self.top.parent / "preload.so"
        link.symlink_to(library)  # no blank may be in LD_PRELOAD
        env = {**os.environ, "LD_PRELOAD": str(link)}
        said = subprocess.run(["true"], env=env, stdout=subprocess.PIPE, text=True).stdout
        self.assertEqual(said, "malloc\nfree\n42\n")
        listed = subprocess.run(["nm", "-D", "--defined-only", library], stdout=subprocess.PIPE, text=True, check=True)
        self.assertEqual([line.split()[-1] for line in listed.stdout.splitlines()], ["seen"])

    def test_what_is_not_compiled_leaves_what_was_there(self) -> None:
        self.assertEqual(self.ran(str(self.folder)), (0, ""))
        old = (self.folder / "libdetio_preload.so").read_bytes()
        (self.sources / "preload.c").write_text("int unused(int it) { return 0; }\n", encoding="ascii")
        self.assertEqual(self.ran(str(self.folder))[0], 4)
        (self.sources / "preload.c").write_text("int no(void);\nint is(void);\nint is(void) { return no(); }\n")
        status, said = self.ran(str(self.folder))
        self.assertEqual(status, 4)
        self.assertIn("undefined reference", said)
        self.assertEqual(sorted(os.listdir(self.folder)), ["detio-launch", "libdetio_preload.so", "objects"])
        self.assertEqual((self.folder / "libdetio_preload.so").read_bytes(), old)

    def test_what_is_missing_is_said(self) -> None:
        self.assertEqual(self.ran()[0], 2)
        status, said = self.ran(str(self.top))
        self.assertEqual(status, 4)
        self.assertRegex(said, r"\Alink-preload: there is no library in .*\n\Z")
        shutil.rmtree(self.sources)
        status, said = self.ran(str(self.folder))
        self.assertEqual(status, 4)
        self.assertRegex(said, r"\Alink-preload: this tree has no bindings/preload.*\n\Z")


if __name__ == "__main__":
    unittest.main()
