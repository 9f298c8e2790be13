"""Programs of Debian, recorded once and rerun three times each: what tools/survey counts."""
import concurrent.futures
import os
import pathlib
import shlex
import shutil
import signal
import socket
import subprocess
import tempfile
import time
import urllib.request
from collections.abc import Callable, Iterator
from contextlib import contextmanager
from dataclasses import dataclass

from detio_tools import programs, repository

RERUNS = 3


@dataclass(frozen=True)
class Program:
    """A program: its command in words, where `{..}` is a path; and what is particular with it."""

    name: str
    command: str
    stdin: bool = False  # data.txt is its standard input
    chance: bool = False  # it prints something else each time, so it is not compared with itself alone
    noisy: bool = False  # .. and so it is with its standard error
    asks: str = ""  # it serves: what is asked of it
    web: bool = False  # it asks a server of the web, which is there


# Small programs of our own, and with what flags they are compiled.
OWN = pathlib.Path(repository.TOP) / "tools/survey_programs"
FLAGS = {"static.c": "-static", "openmp.c": "-fopenmp", "own.cc": "-pthread", "uv.c": "-luv"}

ALL = (
    Program("plzip", "plzip -n3 -c data.txt"),
    Program("plzip -d", "plzip -dc {data.lz}"),
    Program("zstd", "zstd -q -T3 -c data.txt"),
    Program("zstd -d", "zstd -qdc {data.zst}"),
    Program("pigz -d", "pigz -dc {data.gz}"),
    Program("xz -d", "xz -dc -T3 {data.xz}"),
    Program("bzip2", "bzip2 -c data.txt"),
    Program("gzip", "gzip -nc data.txt"),
    Program("gunzip", "gunzip -c {data.gz}"),
    Program("tar -t", "tar -tf {data.tar}"),
    Program("sort -n", "sort -n --parallel=4 data.txt"),
    Program("md5sum", "md5sum data.txt"),
    Program("sed", "sed -n 5,50p data.txt"),
    Program("head", "head -n 30 data.txt"),
    Program("wc", "wc", stdin=True),
    Program("awk", "awk '{n += $1} END {print n}' data.txt"),
    Program("jq", "jq -s add data.txt"),
    Program("tcc -run", "tcc -run {tcc.c}"),
    Program("date", "date +%s%N", chance=True),
    Program("lua", "lua5.4 -e 'for l in io.lines(\"data.txt\") do n = (n or 0) + l end print(n)'"),
    Program("nc -l", "nc -l -N 127.0.0.1 {port}", asks='line hello\\n'),
    Program("curl", "curl -s {url}", web=True),
    Program("axel", "axel -q -o got {url}", noisy=True, web=True),
    Program("curl --parallel", "curl -s --parallel {url} {url} --output one --output two", noisy=True, web=True),
    Program("Python queue", "/usr/bin/python3 -S {own-queue.py}"),
    Program("Python futures", "/usr/bin/python3 -S {own-futures.py}"),
    Program("Python socketserver", "/usr/bin/python3 -S {own-served.py}", asks='line hello\\n'),
    Program("Python twenty threads", "/usr/bin/python3 -S {own-twenty.py}"),
    Program("Python ssl, uuid, hashlib", "/usr/bin/python3 -S {own-ssl.py}", chance=True),
    Program("Perl threads", "/usr/bin/perl {own.pl}"),
    Program(
        "ffmpeg framemd5",
        "ffmpeg -v error -f rawvideo -s 64x64 -pix_fmt gray -i data.txt -frames:v 20 -f framemd5 -",
    ),
    Program(
        "ffmpeg mpeg4",
        "ffmpeg -v error -threads 3 -f rawvideo -s 64x64 -pix_fmt gray -i data.txt -frames:v 20 "
        "-c:v mpeg4 -f framemd5 -",
        chance=True,
    ),
    Program("lbzip2", "lbzip2 -c data.txt"),
    Program("lbzip2 -d", "lbzip2 -dc {data.bz2}"),
    Program("7z a", "/usr/bin/7z a -mmt=3 -bd new.7z data.txt", chance=True),
    Program("7z x", "/usr/bin/7z x -mmt=3 -bd -so {data.7z}"),
    Program("7z t", "/usr/bin/7z t -mmt=3 -bd {data.7z}"),
    Program("pixz", "pixz data.txt /dev/stdout"),
    Program("pixz -t", "pixz -t {data.xz}"),
    Program("C fgets", "{fgets}", stdin=True),
    Program("sort of standard input", "sort", stdin=True),
    Program("cat of standard input", "cat", stdin=True),
    Program("lrzip", "lrzip -q -f -o new.lrz data.txt", chance=True),
    Program("C mmap", "{map}"),
    Program(
        "x264",
        "x264 --quiet --threads 3 --demuxer raw --input-res 64x64 --input-csp i400 --output-csp "
        "i400 --frames 20 -o - data.txt",
        noisy=True,
    ),
    Program("git grep", "git grep --threads 3 777"),
    Program("git log", "git log --stat"),
    Program("git gc", "git gc -q"),
    Program("git fsck", "git fsck"),
    Program("sort -S", "sort -S 200K data.txt"),
    Program("ag", "ag --workers 3 77 data.txt"),
    Program("cp -v", "cp -v data.txt copy.txt"),
    Program("ls -l", "ls -l"),
    Program("rg -j1", "rg -j1 777 data.txt input.txt"),
    Program("rg -j3", "rg -j3 --sort path 777 data.txt input.txt"),
    Program("rg of a tree", "rg -j3 777 .", chance=True),
    Program("fd", "fdfind -j3 txt", chance=True),
    Program("grep -r", "grep -r 777 ."),
    Program("find", "find . -name '*.txt'"),
    Program("tar -c", "tar -cf - data.txt input.txt"),
    Program("shuf", "shuf data.txt", chance=True),
    Program("gcc -E", "gcc -E {tcc.c}"),
    Program("sqlite3 in memory", "sqlite3 :memory: 'select 1+1'"),
    Program("sqlite3", "sqlite3 new.db 'create table t(a); select 2'"),
    Program("Python sqlite3", "/usr/bin/python3 -S {own-sqlite.py}"),
    Program("C++ std::thread", "{streams}", chance=True),
    Program("C++ thread_local", "{own}", chance=True),
    Program("Rust", "{threads.rs}", chance=True),
    Program("TBB", "{blocks}", chance=True),
    Program("GLib", "{pool}", chance=True),
    Program("OpenMP", "{openmp}"),
    Program("Go, static", "{go-static}"),
    Program("Go, dynamic", "{go-dynamic}"),
    Program("static C", "{static}"),
    Program("numbers by chance", "{chance}", chance=True),
    Program("Python asyncio", "/usr/bin/python3 -S {own-asyncio.py}"),
    Program("Python asyncio server", "/usr/bin/python3 -S {own-served-asyncio.py}", asks='line hello\\n'),
    Program("mosquitto", "mosquitto -p {port}", chance=True, asks="hex 100c00044d5154540402003c0000"),
    Program("lighttpd", "lighttpd -D -f {lighttpd.conf}", chance=True, asks="web"),
    Program("libuv", "{uv}"),
    Program("node", "node -e 'console.log(1)'"),
    Program(
        "redis",
        "redis-server --port {port} --save '' --bind 127.0.0.1",
        chance=True,
        asks='line PING\\r\\nSET a 1\\r\\nGET a\\r\\nSHUTDOWN NOSAVE\\r\\n',
    ),
    Program(
        "memcached",
        "memcached -u root -l 127.0.0.1 -p {port} -t 2 -U 0",
        chance=True,
        asks='line set a 0 0 1\\r\\nb\\r\\nget a\\r\\nquit\\r\\n',
    ),
    Program("nginx", "nginx -p . -c {nginx.conf}", chance=True, asks="web"),
    Program("mini_httpd", "mini_httpd -D -p {port} -h 127.0.0.1 -l /dev/stderr", chance=True, asks="web"),
    Program("haproxy", "haproxy -db -f {haproxy.cfg}", chance=True, asks="web"),
    Program(
        "dnsmasq",
        "dnsmasq -k -p {port} -C /dev/null --no-resolv -u root --log-facility=- --bind-interfaces "
        "-a 127.0.0.1",
        chance=True,
        asks="datagram 12340100000100000000000009" + b"localhost".hex() + "0000010001",
    ),
    Program("socat", "socat TCP-LISTEN:{port},bind=127.0.0.1,reuseaddr STDOUT", asks='line hello\\n'),
    Program("iperf3", "iperf3 -s -1 -p {port} -B 127.0.0.1", chance=True, asks="iperf3"),
    Program("wget", "wget -q -O - {url}", web=True),
    Program("aria2c", "aria2c -q --allow-overwrite=true -o got {url}", web=True),
    Program("Python UDP", "/usr/bin/python3 -S {own-udp.py}"),
    Program("Python UNIX sockets", "/usr/bin/python3 -S {own-unix.py}"),
    Program("Python subprocess", "/usr/bin/python3 -S {own-subprocess.py}"),
    Program("Python multiprocessing", "/usr/bin/python3 -S {own-processes.py}"),
    Program("Python setitimer", "/usr/bin/python3 -S {own-alarm.py}"),
    Program("Python mmap", "/usr/bin/python3 -S {own-map.py}"),
    Program("Python /proc", "/usr/bin/python3 -S {own-proc.py}", chance=True),
    Program("Python tempfile", "/usr/bin/python3 -S {own-temporary.py}"),
    Program("Ruby threads", "ruby {own.rb}"),
    Program("java", "java -version", chance=True),
    Program("stress-ng", "stress-ng --pthread 2 --pthread-ops 5 -q", chance=True),
    Program("sysbench", "sysbench threads --threads=3 --events=20 run", chance=True),
    Program("fio", "fio --name=a --thread --rw=read --size=64k --numjobs=2 --ioengine=sync", chance=True),
    Program("convert", "convert -size 20x20 xc:red txt:-"),
    Program("identify", "identify {picture.png}", chance=True),
    Program("tcc -c", "tcc -c -o new.o {tcc.c}"),
    Program("rsync", "rsync -a {tree}/ copy/"),
    Program("webfsd", "webfsd -F -p {port} -i 127.0.0.1", chance=True, asks="web"),
)


def quiet(words: list[str], folder: pathlib.Path) -> None:
    """Runs a command, which may fail; its times are the same in each run."""
    then = "@1700000000 +0000"
    subprocess.run(words, cwd=folder, stdout=subprocess.DEVNULL, stderr=subprocess.DEVNULL, check=False,
                   env={**os.environ, "GIT_AUTHOR_DATE": then, "GIT_COMMITTER_DATE": then})


def make_kept(folder: pathlib.Path) -> None:
    """What programs read and reruns do not need, in a folder of its own."""
    programs.make_inputs(folder)
    (folder / "tree").mkdir()
    (folder / "tree/one").write_text("one\n", encoding="ascii")
    for path in OWN.iterdir():
        shutil.copy(path, folder)
        if path.suffix in (".c", ".cc") and path.name != "tcc.c":
            compiler = "c++" if path.suffix == ".cc" else os.environ.get("CC", "cc")
            words = [compiler, "-O1", "-o", path.stem, path.name, *FLAGS.get(path.name, "").split()]
            quiet(words, folder)
    for command in ("plzip -kf data.txt", "zstd -qkf data.txt", "gzip -nkf data.txt", "bzip2 -kf data.txt",
                    "xz -kf -T2 --block-size=64KiB data.txt", "tar -cf data.tar data.txt", "7z a data.7z data.txt",
                    "convert -size 20x20 xc:red picture.png"):
        if shutil.which(command.split()[0]):
            quiet(shlex.split(command), folder)


def make_here(folder: pathlib.Path) -> None:
    """What is in the folder of a program as it begins: its input, in git too."""
    shutil.rmtree(folder, ignore_errors=True)
    programs.make_inputs(folder)
    if shutil.which("git"):
        for words in (("init", "-q"), ("add", "input.txt", "data.txt"),
                      ("-c", "user.name=a", "-c", "user.email=a@b", "commit", "-q", "-m", "first")):
            quiet(["git", *words], folder)


@dataclass(frozen=True)
class Places:
    """Where programs are, run and serve."""

    kept: pathlib.Path  # what they read
    built: pathlib.Path  # our tests
    here: pathlib.Path  # where they run
    port: int
    url: str  # of a file of the web

    def path_of(self, name: str) -> str | None:
        """What a name in braces stands for."""
        found = [str(it / name) for it in (self.built, self.kept) if (it / name).exists()]
        return {"port": str(self.port), "url": self.url}.get(name) or (found[-1] if found else None)


def words_of(program: Program, places: Places) -> list[str]:
    """The words of a program, with its paths, its port and the address of the web; its own files have them too."""
    words = []
    for word in shlex.split(program.command):
        for name in [it.split("}")[0] for it in word.split("{")[1:]]:
            value = places.path_of(name)
            word = word.replace(f"{{{name}}}", value) if value else word
        words.append(word)
    for path in OWN.iterdir():
        if f"{{{path.name}}}" in program.command:
            text = path.read_text(encoding="ascii")
            text = text.replace("{port}", str(places.port)).replace("{here}", str(places.here))
            (places.kept / path.name).write_text(text, encoding="ascii")
    return words


def ask(what: str, port: int) -> bytes:
    """Asks a server, once it is there: its answer."""
    until = time.monotonic() + 60
    while time.monotonic() < until:
        try:
            return ask_now(what, port)
        except OSError as error:
            refused = getattr(error, "reason", error)  # the library for the web has it in an error of its own
            if not isinstance(refused, ConnectionRefusedError):
                return b""
            time.sleep(0.05)
    return NOBODY


def ask_now(what: str, port: int) -> bytes:
    """Asks a server that is there."""
    if what == "web":
        with urllib.request.urlopen(f"http://127.0.0.1:{port}/input.txt", timeout=10) as got:
            return bytes(got.read())
    if what == "iperf3":
        with socket.create_connection(("127.0.0.1", port), timeout=10):
            pass
        words = ["iperf3", "-c", "127.0.0.1", "-p", str(port), "-n", "100K"]
        return b"status %d" % subprocess.run(words, capture_output=True, timeout=20).returncode
    said = what.partition(" ")[2]
    if what.startswith("datagram "):
        with socket.socket(socket.AF_INET, socket.SOCK_DGRAM) as one:
            one.settimeout(10)
            one.connect(("127.0.0.1", port))
            one.send(bytes.fromhex(said))
            return one.recv(4096)
    with socket.create_connection(("127.0.0.1", port), timeout=10) as stream:
        numbers = what.startswith("hex ")
        stream.sendall(bytes.fromhex(said) if numbers else said.encode().decode("unicode_escape").encode())
        if not numbers:
            stream.shutdown(socket.SHUT_WR)
        stream.settimeout(10)
        return stream.recv(4096)


def serve_and_ask(words: list[str], folder: pathlib.Path, asks: str, port: int, variables: dict[str, str],
                  waits: tuple[float, float] = (3.0, 5.0)) -> programs.Ran:
    """A server, what one that asks had of it, and how it ended: by itself, or by a signal. It has so many seconds for
    each."""
    with tempfile.TemporaryFile() as out, tempfile.TemporaryFile() as err:
        process = subprocess.Popen(words, cwd=folder, stdin=subprocess.DEVNULL, stdout=out, stderr=err, env=variables)
        try:
            said = ask(asks, port)
            for number, patience in ((0, waits[0]), (signal.SIGTERM, waits[1]), (signal.SIGKILL, 5.0)):
                if number:
                    process.send_signal(number)
                try:
                    process.wait(patience)
                    break
                except subprocess.TimeoutExpired:
                    continue
        finally:
            process.kill()
            process.wait()
        out.seek(0)
        err.seek(0)
        status = process.returncode if process.returncode >= 0 else 128 - process.returncode
        return programs.Ran(status, out.read() + b"answer: " + said, err.read())


@contextmanager
def a_web() -> Iterator[str]:
    """A server of the web, with one file: its address."""
    with tempfile.TemporaryDirectory() as room:
        programs.make_inputs(pathlib.Path(room))
        port = programs.free_port()
        process = subprocess.Popen(["python3", "-m", "http.server", "--bind", "127.0.0.1", str(port)], cwd=room,
                                   stdout=subprocess.DEVNULL, stderr=subprocess.DEVNULL)
        try:
            ask("line GET / HTTP/1.0\\r\\n\\r\\n", port)
            yield f"http://127.0.0.1:{port}/input.txt"
        finally:
            process.kill()
            process.wait()


@dataclass(frozen=True)
class Found:
    """What came of a program."""

    name: str
    native: bool  # it was recorded as it is alone
    same: int  # reruns
    silent: bool  # it went wrong without a line of ours
    why: str

    def passes(self) -> bool:
        """Whether it counts."""
        return self.native and self.same == RERUNS

    def row(self) -> str:
        """As a row of a table."""
        recorded = "as it is" if self.native else "otherwise"
        return f"| {self.name} | {recorded} | {self.same}/{RERUNS} | {'SILENT ' if self.silent else ''}{self.why} |"


def compared(ran: programs.Ran, program: Program, answers: bool) -> tuple[int, bytes, bytes]:
    """What must be the same: of a rerun nobody asks."""
    status, out, err = ran.alone()
    if program.asks and not answers:
        out = out.rpartition(b"answer: ")[0] if b"answer: " in out else out
    return status, out, b"" if program.noisy else err


NOBODY, NO_END = b"nobody is there", -9


def is_native(program: Program, alone: programs.Ran, recorded: programs.Ran) -> bool:
    """Whether a recording is as the program alone: who asks it had the same answer, also where the rest has chance."""
    answers = [it.out.rpartition(b"answer: ")[2] if program.asks else b"" for it in (alone, recorded)]
    if alone.status == NO_END or NOBODY in answers or answers[0] != answers[1]:
        return False
    if program.chance:
        return recorded.status == alone.status
    return compared(recorded, program, True) == compared(alone, program, True)


def reason(ran: list[programs.Ran]) -> str:
    """The first of our lines that says why, or how it ended."""
    for it in ran:
        if it.ours():
            return it.ours().split("; ")[-1].removeprefix("detio: ")[:150].replace("|", "/")
    return "no end in time" if ran[0].status == NO_END else f"status {ran[0].status}"


@dataclass(frozen=True)
class Recording:
    """A log, and what each rerun of it must print and how it must end."""

    program: Program
    log: str
    wanted: tuple[int, bytes, bytes]
    ends: frozenset[int]

    def is_repeated(self, ran: programs.Ran) -> bool:
        """Whether a rerun was the same."""
        return compared(ran, self.program, False)[1:] == self.wanted[1:] and ran.status in self.ends


def look(program: Program, trial: programs.Trial, kept: pathlib.Path, url: str) -> tuple[Found, Recording] | None:
    """Runs a program alone, records it and reruns it; None where it is not on the machine."""
    here, port, log = trial.room / "here" / "it", programs.free_port(), str(trial.room / f"{ALL.index(program)}.log")
    make_here(here)
    words = words_of(program, Places(kept, trial.room / "programs", here, port, url))
    if not (shutil.which(words[0]) or os.path.exists(words[0])):
        return None
    given = (here / "data.txt").read_bytes() if program.stdin else None
    launcher = [str(trial.library / "detio-launch"), "run", "--log", log, "--force", "--"]

    def run(given_words: list[str]) -> programs.Ran:
        if program.asks:
            return serve_and_ask(given_words, here, program.asks, port, trial.environment())
        return trial.launch(*given_words, folder=here, given=given)

    alone = run(words)
    make_here(here)
    recorded = run([*launcher, *words])
    native = is_native(program, alone, recorded)
    shutil.rmtree(here)
    here.mkdir()
    killed = recorded.status in (128 + signal.SIGKILL, 128 + signal.SIGTERM)
    ends = {recorded.status, programs.LOG_ENDS} if killed else {recorded.status}
    recording = Recording(program, log, compared(recorded, program, False), frozenset(ends))
    reruns = [trial.rerun(log, folder=here) for _ in range(RERUNS)]
    bad = [it for it in reruns if not recording.is_repeated(it)]
    same = RERUNS - len(bad)
    silent = not (native and same == RERUNS) and not any(it.ours() for it in [recorded, *bad])
    why = "" if native and same == RERUNS else reason([*bad, recorded] if native else [recorded, *bad])
    return Found(program.name, native, same, silent, why), recording


def rerun_all(recordings: list[Recording], rounds: int, jobs: int, trial: programs.Trial,
              show: Callable[[str], None]) -> int:
    """Reruns each so many times, one round after another, and shows each rerun that was not the same: how many."""
    here = trial.room / "here" / "it"
    shutil.rmtree(here, ignore_errors=True)
    here.mkdir(parents=True)
    made = bad = 0
    try:
        with concurrent.futures.ThreadPoolExecutor(jobs) as workers:
            for number in range(rounds):
                for it, ran in zip(recordings, workers.map(lambda it: trial.rerun(it.log, folder=here), recordings)):
                    made += 1
                    if not it.is_repeated(ran):
                        bad += 1
                        shutil.copy(it.log, f"{it.log}.{number}")
                        show(f"round {number}: {it.program.name}: {reason([ran])}; its log is {it.log}.{number}")
    except KeyboardInterrupt:
        show("survey: stopped")
    show(f"survey: {made} reruns of {len(recordings)} programs that were recorded as they are; {bad} were not the same")
    return bad


def survey(names: list[str], trial: programs.Trial, show: Callable[[str], None], rounds: int = 0,
           jobs: int = 1) -> list[Found]:
    """Looks at all programs, or at these, and shows a row of each; reruns those that pass so many times more."""
    kept = trial.room / "kept"
    make_kept(kept)
    programs.compile_tests(trial.room / "programs")
    found, missing, recordings = [], [], []
    with a_web() as url:
        for program in ALL:
            if names and program.name not in names:
                continue
            seen = look(program, trial, kept, url)
            if seen:
                found.append(seen[0])
                show(seen[0].row())
                recordings += [seen[1]] if seen[0].passes() else []
            else:
                missing.append(program.name)
    show(f"left out: {', '.join(missing) or 'nothing'}")
    passes, silent = sum(it.passes() for it in found), sum(it.silent for it in found)
    show(f"survey: {passes} of {len(found)} programs are recorded as they are and rerun {RERUNS} of {RERUNS}; "
         f"{silent} go wrong without a line")
    if rounds:
        rerun_all(recordings, rounds, jobs, trial, show)
    return found
