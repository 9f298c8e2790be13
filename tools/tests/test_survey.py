"""What tools/survey has that needs no library."""
import pathlib
import socket
import sys
import tempfile
import threading
import time
import unittest

from detio_tools import programs, survey


class Survey(unittest.TestCase):
    def setUp(self) -> None:
        room = tempfile.TemporaryDirectory()
        self.addCleanup(room.cleanup)
        self.room = pathlib.Path(room.name).resolve()

    def test_words_have_their_paths_and_ports(self) -> None:
        for name in "kept", "built":
            (self.room / name).mkdir()
        (self.room / "built/streams").touch()
        (self.room / "kept/data.gz").touch()
        (self.room / "kept/nginx.conf").touch()
        places = survey.Places(self.room / "kept", self.room / "built", self.room / "here", 4321, "http://there")
        program = survey.Program("name", "x {streams} {data.gz} {port} {url} {none} '{n += $1}' {nginx.conf}")
        self.assertEqual(survey.words_of(program, places),
                         ["x", str(self.room / "built/streams"), str(self.room / "kept/data.gz"), "4321", "http://there",
                          "{none}", "{n += $1}", str(self.room / "kept/nginx.conf")])
        written = (self.room / "kept/nginx.conf").read_text(encoding="ascii")
        self.assertIn("listen 127.0.0.1:4321; root " + str(self.room / "here"), written)
        self.assertNotIn("{here}", written)

    def test_names_are_different_and_own_files_are_there(self) -> None:
        names = [it.name for it in survey.ALL]
        self.assertEqual(len(set(names)), len(names))
        own = {it.name for it in survey.OWN.iterdir()}
        for program in survey.ALL:
            for word in [it.split("}")[0] for it in program.command.split("{")[1:]]:
                if word.startswith("own-") or word.endswith((".conf", ".cfg")):
                    self.assertIn(word, own, program.name)

    def test_what_is_compared(self) -> None:
        ran = programs.Ran(3, b"out\nanswer: hello", b"detio: a line\nerr\n")
        server = survey.Program("name", "x", asks="line x")
        self.assertEqual(survey.compared(ran, server, True), (3, b"out\nanswer: hello", b"err\n"))
        self.assertEqual(survey.compared(ran, server, False), (3, b"out\n", b"err\n"))
        self.assertEqual(survey.compared(programs.Ran(3, b"out\n", b""), server, False), (3, b"out\n", b""))
        self.assertEqual(survey.compared(ran, survey.Program("name", "x", noisy=True), False)[2], b"")

    def test_a_recording_is_as_the_program_alone(self) -> None:
        server = survey.Program("name", "x", asks="line x", chance=True)
        told, other = programs.Ran(0, b"12:01\nanswer: a", b""), programs.Ran(0, b"12:02\nanswer: a", b"")
        self.assertTrue(survey.is_native(server, told, other))
        self.assertFalse(survey.is_native(server, told, programs.Ran(0, b"12:02\nanswer: b", b"")))
        nobody = programs.Ran(0, b"answer: " + survey.NOBODY, b"")
        self.assertFalse(survey.is_native(server, nobody, nobody))
        plain = survey.Program("name", "x")
        self.assertFalse(survey.is_native(plain, told, other))
        self.assertTrue(survey.is_native(plain, told, told))
        hangs = programs.Ran(survey.NO_END, b"", b"no end")
        self.assertFalse(survey.is_native(plain, hangs, hangs))

    def test_rows_and_what_passes(self) -> None:
        good, bad = survey.Found("one", True, 3, False, ""), survey.Found("two", False, 3, True, "why")
        self.assertEqual((good.passes(), bad.passes()), (True, False))
        self.assertFalse(survey.Found("three", True, 2, False, "").passes())
        self.assertEqual(good.row(), "| one | as it is | 3/3 |  |")
        self.assertEqual(bad.row(), "| two | otherwise | 3/3 | SILENT why |")
        said = [programs.Ran(1, b"", b"x\n"), programs.Ran(2, b"", b"detio: a | line\ndetio: last | line\n")]
        self.assertEqual(survey.reason(said), "last / line")
        self.assertEqual(survey.reason(said[:1]), "status 1")
        self.assertEqual(survey.reason([programs.Ran(survey.NO_END, b"", b"no end"), said[0]]), "no end in time")

    def test_rounds_of_reruns(self) -> None:
        class Reruns(programs.Trial):
            said = 0

            def rerun(self, log: str, *words: str, folder: pathlib.Path) -> programs.Ran:
                Reruns.said += 1
                return programs.Ran(0, b"other" if Reruns.said == 4 else b"out", b"detio: why\n")

        rows: list[str] = []
        trial = Reruns(self.room, self.room)
        logs = [str(self.room / "one.log"), str(self.room / "two.log")]
        for log in logs:
            pathlib.Path(log).write_bytes(b"")
        programs_of = [survey.Program("one", "x"), survey.Program("two", "x")]
        all_of = [survey.Recording(it, log, (0, b"out", b""), frozenset({0})) for it, log in zip(programs_of, logs)]
        self.assertEqual(survey.rerun_all(all_of, 3, 1, trial, rows.append), 1)
        self.assertEqual(rows, [
            f"round 1: two: why; its log is {logs[1]}.1",
            "survey: 6 reruns of 2 programs that were recorded as they are; 1 were not the same"])
        self.assertTrue(pathlib.Path(f"{logs[1]}.1").exists())
        self.assertFalse(all_of[0].is_repeated(programs.Ran(1, b"out", b"")))

    def test_who_is_not_there_yet_is_asked_again(self) -> None:
        port = programs.free_port()

        def begins() -> None:
            time.sleep(0.2)
            with socket.create_server(("127.0.0.1", port)) as other, other.accept()[0] as stream:
                stream.recv(999)
                stream.sendall(b"HTTP/1.0 200 OK\r\n\r\nhello")

        it = threading.Thread(target=begins)
        it.start()
        self.assertEqual(survey.ask("web", port), b"hello")
        it.join()

    def test_a_server_is_asked_once_it_is_there(self) -> None:
        script = ("import socket, sys, time\ntime.sleep(.2)\ns = socket.create_server(('127.0.0.1', int(sys.argv[1])))\n"
                  "c = s.accept()[0]\nc.sendall(b'<' + c.recv(99) + b'>')\nprint('over')\nsys.exit(5)\n")
        port = programs.free_port()
        words = [sys.executable, "-c", script, str(port)]
        ran = survey.serve_and_ask(words, self.room, "hex 616263", port, {"PATH": "/usr/bin"}, (60.0, 60.0))
        self.assertEqual(ran, programs.Ran(5, b"over\nanswer: <abc>", b""))

    def test_a_server_that_stays_is_ended(self) -> None:
        with socket.create_server(("127.0.0.1", 0)) as other:
            def tell() -> None:
                with other.accept()[0] as stream:
                    while stream.recv(99):  # what is left unread would reset the connection
                        pass
                    stream.sendall(b"told")

            threading.Thread(target=tell, daemon=True).start()
            port = other.getsockname()[1]
            words = [sys.executable, "-c", "import time\ntime.sleep(60)"]
            ran = survey.serve_and_ask(words, self.room, "line a\\r\\n", port, {"PATH": "/usr/bin"}, (0.2, 60.0))
        self.assertEqual(ran, programs.Ran(128 + 15, b"answer: told", b""))


if __name__ == "__main__":
    unittest.main()
