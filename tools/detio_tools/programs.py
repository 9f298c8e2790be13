"""Programs as they are, recorded and rerun: what tools/try-programs does with each."""
import os
import pathlib
import re
import shutil
import signal
import socket
import subprocess
import tempfile
import threading
import time
import urllib.request
from collections.abc import Callable, Iterator
from dataclasses import dataclass, field, replace

from detio_tools import repository

TESTS = pathlib.Path(repository.TOP) / "bindings/preload/tests"
PRELOAD = pathlib.Path(repository.TOP) / "bindings/preload"
SECONDS = 120
DIVERGED, DEADLOCK, STRICT, LOG_ENDS, DIFFERS, OURS = 120, 121, 122, 123, 124, 125
EIO = 9  # in a log


@dataclass(frozen=True)
class Case:
    """A program with its words. A word that begins with `@` is one of our own tests, compiled."""

    name: str
    words: tuple[str, ...]
    options: tuple[str, ...] = ()
    needs: tuple[str, ...] = ()  # commands and files
    input: str = "data.txt"  # is taken away before reruns, and in others changed in its place
    stdin: bool = False  # the input is standard input too
    native: bool = True  # it prints the same as without us
    reruns: int = 5
    status: int = 0


@dataclass(frozen=True)
class Ran:
    """What a program printed, and its status."""

    status: int
    out: bytes
    err: bytes

    def alone(self) -> tuple[int, bytes, bytes]:
        """Without our own lines."""
        lines = [it for it in self.err.splitlines(keepends=True) if not it.startswith(b"detio: ")]
        return self.status, self.out, b"".join(lines)

    def ours(self) -> str:
        """Our own lines."""
        lines = [it for it in self.err.splitlines() if it.startswith(b"detio: ")]
        return b"; ".join(lines).decode(errors="replace")


DATA = "data.txt"
CASES = (
    Case("descriptors", ("@descriptors",), input="input.txt"),
    Case("names", ("@names",), input="input.txt"),
    Case("files", ("@files",), input="input.txt"),
    Case("wide", ("@wide",), input="input.txt"),
    Case("identity", ("@identity",), input="input.txt"),
    Case("others", ("@others",), input="input.txt", stdin=True),
    Case("aliases", ("@aliases",), input="input.txt", stdin=True),
    Case("polls", ("@polls",), reruns=10),
    Case("polls in parallel", ("@polls",), ("--parallel",), reruns=10),
    Case("events", ("@events",), input="input.txt", reruns=10),
    Case("events in parallel", ("@events",), ("--parallel",), input="input.txt", reruns=10),
    Case("timers", ("@timers",), reruns=10),
    Case("uncovered", ("@uncovered",), native=False),
    Case("partly", ("@partly",), ("--mem", "/run"), native=False, reruns=2),
    Case("locks", ("@locks",)),
    Case("records", ("@records",), input="input.txt", reruns=3),
    Case("threads", ("@threads",)),
    Case("lookups", ("@lookups",), native=False),
    Case("shared", ("@shared",), input="input.txt"),
    Case("sockets", ("@sockets",)),
    Case("nets", ("@nets",)),
    Case("nets in parallel", ("@nets",), ("--parallel",)),
    Case("process", ("@process",), status=7),
    Case("execs", ("@execs", "0", "{tests}"), input="input.txt"),
    Case("execs with a seed", ("@execs", "0", "{tests}"), ("--seed", "3"), input="input.txt", reruns=2),
    Case("a shell that goes on", ("/bin/sh", "-c", "read a < input.txt; exec env A=$a sort -n --parallel=2 data.txt"),
         input="input.txt"),
    Case("handlers", ("@handlers",), reruns=10),
    Case("handlers in parallel", ("@handlers",), ("--parallel",)),
    Case("ended by a signal", ("@moments", "default"), status=128 + signal.SIGTERM),
    Case("ended by a late signal", ("@moments", "late"), status=128 + signal.SIGTERM),
    Case("moments", ("@moments",), native=False),
    Case("moments that are sent", ("@moments", "send"), native=False),
    Case("moments in parallel", ("@moments", "send"), ("--parallel", "--overlap"), native=False, reruns=20),
    Case("counts", ("@counts",), native=False, reruns=10),
    Case("a fault", ("@counts", "f"), native=False, status=128 + signal.SIGSEGV),
    Case("clocks", ("@clocks",), native=False),
    Case("checked", ("@checked",), input="input.txt"),
    Case("lines", ("@lines",), input="input.txt", stdin=True),
    Case("effects", ("@effects",), input="input.txt"),
    Case("order", ("@order",), native=False),
    Case("edges", ("@edges",), input="input.txt"),
    Case("inside", ("@inside",), ("--mem", "/run"), native=False),
    Case("inside half a name", ("@inside", "half"), ("--mem", "/dev/nul"), native=False),
    Case("refused", ("@refused",), native=False),
    Case("prints", ("@prints",), native=False, reruns=10),
    Case("prints in parallel", ("@prints",), ("--parallel",), native=False, reruns=10),
    Case("bank", ("@bank",), native=False, input="account.txt"),
    Case("bank in the run", ("@bank", "/run/account"), ("--mem", "/run"), native=False),
    Case("race", ("@race",), native=False, reruns=20),
    Case("race with a seed", ("@race",), ("--seed", "5"), native=False),
    Case("streams in parallel", ("@streams",), ("--parallel", "--overlap"), ("c++",), "input.txt", native=False),
    Case("streams", ("@streams",), (), ("c++",), "input.txt", native=False),
    Case("Rust", ("@threads.rs",), (), ("rustc",), native=False, reruns=20),
    Case("TBB", ("@blocks",), (), ("c++", "/usr/include/tbb/parallel_for.h"), native=False, reruns=20),
    Case("bash that goes on", ("bash", "-c", "exec 3<input.txt 4>&1; read -u 3 a; exec bash -c 'read -u 3 b; cat() { "
                               "while read c; do echo $a $b $c; done; }; export a=1; cat >&4; exec env' <<E\none\ntwo\nE\n"),
         (), ("bash",), "input.txt"),
    Case("pigz", ("pigz", "-p", "4", "-c", DATA), (), ("pigz",)),
    Case("pigz of standard input", ("pigz", "-m", "-p", "3"), (), ("pigz",), stdin=True),
    Case("pbzip2", ("pbzip2", "-p4", "-c", DATA), (), ("pbzip2",)),
    Case("xz", ("xz", "-T", "4", "-0", "-c", DATA), (), ("xz",)),
    Case("sort", ("sort", "--parallel=4", "-S", "20M", DATA), (), ("sort",)),
    Case("sort of small memory", ("sort", "-S", "200K", "--parallel=3", DATA), (), ("sort",)),
    Case("plzip", ("plzip", "-n3", "-c", DATA), (), ("plzip",)),
    Case("pixz", ("pixz", "-t"), (), ("pixz",), "data.tpxz", stdin=True),
    Case("ag", ("ag", "--workers", "3", "9999", DATA), (), ("ag",)),
    Case("zstd", ("zstd", "-q", "-T3", "-c", DATA), (), ("zstd",)),
    Case("lbzip2", ("lbzip2", "-c", DATA), (), ("lbzip2",)),
    Case("ffmpeg", ("ffmpeg", "-v", "error", "-threads", "3", "-f", "rawvideo", "-s", "64x64", "-pix_fmt", "gray", "-i",
                    DATA, "-frames:v", "20", "-c:v", "mpeg4", "-f", "framemd5", "-"), (), ("ffmpeg",), native=False),
    Case("sqlite3", ("sqlite3", "new.db", "create table t(a); insert into t values(1),(2); select sum(a) from t;"), (),
         ("sqlite3",)),
    Case("git", ("git", "diff", "--no-index", "--stat", "input.txt", DATA), (), ("git",), status=1),
    Case("GLib", ("@pool",), (), ("pkg-config", "/usr/include/glib-2.0/glib.h"), native=False, reruns=20),
    Case("Perl", ("/usr/bin/perl", "{tests}/threads.pl"), (), ("/usr/bin/perl",), native=False),
    Case("Python", ("/usr/bin/python3", "-S", "{tests}/threads.py"), (), ("/usr/bin/python3",), native=False),
    Case("asyncio", ("/usr/bin/python3", "-S", "{tests}/asyncs.py"), (), ("/usr/bin/python3",)),
)


@dataclass
class Trial:
    """Folders for what is tried, and what came of it."""

    library: pathlib.Path
    room: pathlib.Path
    sources: pathlib.Path = PRELOAD  # of the library
    seconds: int = SECONDS  # for one run of a program
    more: dict[str, str] = field(default_factory=dict)  # variables of the environment
    checks: int = 0
    faults: list[str] = field(default_factory=list)
    left_out: dict[str, int] = field(default_factory=dict)

    def check(self, holds: bool, fault: str) -> bool:
        """Counts a check, and keeps the fault where it does not hold."""
        self.checks += 1
        if not holds:
            self.faults.append(fault)
            print(f"try-programs: {fault}", flush=True)
        return holds

    def leaves_out(self, what: str, checks: int) -> None:
        """These checks were not made, for want of something."""
        self.left_out[what] = self.left_out.get(what, 0) + checks

    def launch(self, *words: str, folder: pathlib.Path, given: bytes | None = None,
               variables: dict[str, str] | None = None) -> Ran:
        """Runs the launcher, or with a path as first word that program."""
        try:
            done = subprocess.run(words, cwd=folder, capture_output=True, timeout=self.seconds, input=given,
                                  stdin=subprocess.DEVNULL if given is None else None,
                                  env=variables or self.environment())
        except subprocess.TimeoutExpired:
            return Ran(-9, b"", b"no end")
        status = done.returncode if done.returncode >= 0 else 128 - done.returncode
        return Ran(status, done.stdout, done.stderr)

    def environment(self) -> dict[str, str]:
        """The same for each program."""
        return {"PATH": os.environ["PATH"], "HOME": str(self.room), "LC_ALL": "C", "PYTHONHASHSEED": "0", **self.more}

    def run(self, log: str, *words: str, folder: pathlib.Path, options: tuple[str, ...] = (),
            given: bytes | None = None) -> Ran:
        """Records a program."""
        launcher = str(self.library / "detio-launch")
        return self.launch(launcher, "run", "--log", log, "--force", *options, "--", *words, folder=folder, given=given)

    def rerun(self, log: str, *words: str, folder: pathlib.Path) -> Ran:
        """Reruns a log."""
        return self.launch(str(self.library / "detio-launch"), "rerun", "--log", log, *words, folder=folder)


def make_inputs(folder: pathlib.Path) -> None:
    """The files that programs read."""
    folder.mkdir(parents=True, exist_ok=True)
    numbers = (f"{number * 7919 % 100003}\n" for number in range(60000))
    (folder / "data.txt").write_text("".join(numbers), encoding="ascii")
    (folder / "input.txt").write_text("".join(f"{number}\n" for number in range(1, 41)), encoding="ascii")
    (folder / "account.txt").write_text("5\n", encoding="ascii")
    if shutil.which("pixz"):
        subprocess.run(["pixz", "data.txt", "data.tpxz"], cwd=folder, check=True)
    for path in folder.iterdir():
        os.utime(path, (1_700_000_000, 1_700_000_000))


def compile_tests(to: pathlib.Path, *more_flags: str) -> None:
    """Our own programs; those in C by these flags too."""
    to.mkdir(parents=True, exist_ok=True)
    for source in sorted(TESTS.glob("*.c")):
        subprocess.run([os.environ.get("CC", "cc"), "-std=gnu11", "-O1", "-Wall", "-Wextra", "-Werror", "-o",
                        str(to / source.stem), str(source), "-lpthread", *more_flags], check=True)
    for name, more in ("streams", "-lpthread"), ("blocks", "-ltbb"):
        if shutil.which("c++"):
            subprocess.run(["c++", "-O1", "-o", str(to / name), str(TESTS / f"{name}.cc"), "-lpthread", more],
                           stderr=subprocess.DEVNULL, check=False)
    if shutil.which("pkg-config") and os.path.exists("/usr/include/glib-2.0/glib.h"):
        flags = subprocess.run(["pkg-config", "--cflags", "--libs", "glib-2.0"], capture_output=True, text=True).stdout
        subprocess.run(["cc", "-O1", "-x", "c", "-o", str(to / "pool"), str(TESTS / "glib/pool.c"), "-x", "none",
                        *flags.split()], stderr=subprocess.DEVNULL, check=False)
    if shutil.which("rustc"):
        subprocess.run(["rustc", "-O", "-o", str(to / "threads.rs"), str(TESTS / "threads.rs")], stderr=subprocess.DEVNULL,
                       check=False)


def seen(folder: pathlib.Path) -> list[tuple[str, int, int, bytes]]:
    """The files of a folder, with their times and bytes."""
    found = []
    for path in sorted(folder.rglob("*")):
        status = path.lstat()
        found.append((str(path), status.st_mtime_ns, status.st_ctime_ns, path.read_bytes() if path.is_file() else b""))
    return [(str(folder), folder.stat().st_mtime_ns, 0, b""), *found]


def processes_in(folder: pathlib.Path) -> list[str]:
    """The processes whose directory is this one."""
    found = []
    for process in pathlib.Path("/proc").glob("[0-9]*"):
        try:
            if os.readlink(process / "cwd") == str(folder):
                found.append(process.name)
        except OSError:
            continue
    return found


def words_of(case: Case, trial: Trial) -> list[str]:
    """The words of a case, with paths."""
    words = [str(trial.room / "programs" / it[1:]) if it.startswith("@") else it for it in case.words]
    return [it.replace("{tests}", str(TESTS)) for it in words]


def missing(case: Case, trial: Trial) -> str | None:
    """What the machine lacks for a case."""
    for need in case.needs:
        if not (os.path.exists(need) if need.startswith("/") else shutil.which(need)):
            return need
    return None if os.path.exists(words_of(case, trial)[0]) or shutil.which(case.words[0]) else case.name


def changed(path: pathlib.Path) -> None:
    """Other bytes in place of those of a file, as many, with the same times."""
    status = path.stat()
    path.write_bytes(bytes(it ^ 1 for it in path.read_bytes()))
    os.utime(path, ns=(status.st_atime_ns, status.st_mtime_ns))


def try_case(case: Case, trial: Trial) -> None:
    """Records a program, and reruns it with its input gone, and with other input."""
    lacks = missing(case, trial)
    if lacks:
        trial.leaves_out(lacks, case.reruns + 4)
        return
    folder = trial.room / "here" / case.name.replace(" ", "-")
    make_inputs(folder)
    given = (folder / case.input).read_bytes() if case.stdin else None
    words = words_of(case, trial)
    alone = trial.launch(*words, folder=folder, given=given) if case.native else None
    shutil.rmtree(folder)
    make_inputs(folder)
    log = str(trial.room / f"{case.name.replace(' ', '-')}.log")
    run = trial.run(log, *words, folder=folder, options=case.options, given=given)
    trial.check(run.status == case.status, f"{case.name}: status {run.status}: {run.ours()}")
    if alone:
        trial.check(run.alone() == alone.alone(), f"{case.name}: the recording differs from the program alone")
    kept = (folder / case.input).read_bytes() if (folder / case.input).exists() else b"kept\n"
    (folder / case.input).unlink(missing_ok=True)
    for number in range(case.reruns + 2):
        if number == case.reruns:
            (folder / case.input).write_bytes(kept)
            changed(folder / case.input)
        before = seen(folder)
        again = trial.rerun(log, folder=folder)
        same = again.alone() == run.alone()
        if not trial.check(same, f"{case.name}: rerun {number} differs, status {again.status}: {again.ours()}"):
            break
        trial.check(seen(folder) == before, f"{case.name}: rerun {number} changed the folder")
        trial.check(not processes_in(folder), f"{case.name}: rerun {number} left a process")


def closed_program(trial: Trial) -> None:
    """A program that nothing comes to has one log."""
    folder = trial.room / "closed"
    make_inputs(folder)
    logs = set()
    for _ in range(30):
        run = trial.run("closed.log", str(trial.room / "programs/closed"), folder=folder, options=("--mem", "/run"))
        if not trial.check(run.status == 0, f"closed: status {run.status}: {run.ours()}"):
            return
        logs.add((folder / "closed.log").read_bytes())
    trial.check(len(logs) == 1, f"closed: 30 recordings have {len(logs)} logs")


def killed(trial: Trial) -> None:
    """A recording that is killed reruns to the tear, and prints there what it had printed at least."""
    folder = trial.room / "killed"
    make_inputs(folder)
    words = [str(trial.library / "detio-launch"), "run", "--log", "killed.log", "--force", "--",
             str(trial.room / "programs/ticks")]
    for number in range(10):
        (folder / "input.txt").write_text("x" * 20000, encoding="ascii")
        with open(folder / "printed", "wb") as out:
            process = subprocess.Popen(words, cwd=folder, stdout=out, stderr=subprocess.DEVNULL, stdin=subprocess.DEVNULL,
                                       env=trial.environment())
            time.sleep(0.03 + 0.02 * number)
            process.send_signal(signal.SIGKILL)
            process.wait()
        (folder / "input.txt").unlink()
        again = trial.rerun("killed.log", folder=folder)
        printed = (folder / "printed").read_bytes()
        whole = process.returncode == 0 and again.status == 0
        trial.check(whole or again.status == LOG_ENDS or not printed and again.status == DIFFERS,
                    f"killed {number}: status {again.status}: {again.ours()}")
        trial.check(again.out.startswith(printed), f"killed {number}: the rerun lacks what was printed")


def cut(trial: Trial) -> None:
    """A log that ends after any of its records is rerun to there, and no rerun waits for ever."""
    folder = trial.room / "cut"
    make_inputs(folder)
    run = trial.run("whole.log", str(trial.room / "programs/ticks"), folder=folder)
    log = (folder / "whole.log").read_bytes()
    for end in records_end(log)[-100:]:
        (folder / "cut.log").write_bytes(log[:end])
        again = trial.rerun("cut.log", folder=folder)
        known = again.status in (0, LOG_ENDS) or again.status == DIFFERS and not again.out
        trial.check(known and run.out.startswith(again.out),
                    f"cut: at {end} of {len(log)}: status {again.status}: {again.ours()}")


def differing(trial: Trial) -> None:
    """Another environment, directory, argument or binary is told; and a log is not written over."""
    folder = trial.room / "differing"
    make_inputs(folder)
    (folder / "below").mkdir()
    program = folder / "program"
    shutil.copy(trial.room / "programs/race", program)
    launcher = str(trial.library / "detio-launch")
    trial.run(str(folder / "log"), str(program), folder=folder)
    trial.check(oct((folder / "log").stat().st_mode & 0o777) == "0o600", "differing: others may read the log")
    rerun = (launcher, "rerun", "--log", str(folder / "log"), "--")
    changes: dict[str, Callable[[], Ran]] = {
        "FOO=1": lambda: trial.launch(*rerun, str(program), folder=folder, variables={**trial.environment(), "FOO": "1"}),
        "directory=": lambda: trial.launch(*rerun, str(program), folder=folder / "below"),
        "argument=more": lambda: trial.launch(*rerun, str(program), "more", folder=folder)}
    for said, act in changes.items():
        ran = act()
        trial.check(ran.status == DIFFERS and said in ran.ours(), f"differing: {said} is not told: {ran.status} {ran.ours()}")
    same = trial.launch(*rerun, str(program), folder=folder)
    trial.check(same.status == 0, f"differing: the same program differs: {same.ours()}")
    over = trial.launch(launcher, "run", "--log", str(folder / "log"), "--", str(program), folder=folder)
    trial.check(over.status == OURS and "--force" in over.ours(), f"differing: a log is written over: {over.status}")
    shutil.copy(trial.room / "programs/closed", program)
    other = trial.launch(launcher, "rerun", "--log", str(folder / "log"), folder=folder)
    trial.check(other.status == DIFFERS and "file=" in other.ours(), f"differing: another binary: {other.status} {other.ours()}")
    trial.run(str(folder / "log"), "/bin/sh", "-c", "echo one", folder=folder)
    forced = trial.launch(launcher, "rerun", "--log", str(folder / "log"), "--force", "--", "/bin/sh", "-c", "echo two",
                          folder=folder)
    trial.check(forced.status == DIVERGED, f"differing: other words are printed: {forced.status} {forced.ours()}")
    own_environment(trial, folder)


def own_environment(trial: Trial, folder: pathlib.Path) -> None:
    """A program has its own environment, and nothing of ours in it; and in a rerun that of its recording."""
    launcher, script = str(trial.library / "detio-launch"), 'echo "$FOO[$LD_PRELOAD$DETIO_RUN$DETIO_PAD]"'
    for number, words in enumerate((("run", "--force", "--log", "own.log", "--", "/bin/sh", "-c", script),
                                    ("rerun", "--log", "own.log"))):
        ran = trial.launch(launcher, *words, folder=folder, variables={**trial.environment(), "FOO": str(number)})
        trial.check((ran.status, ran.out) == (0, b"0[]\n"), f"differing: environment: {ran.status} {ran.out!r} {ran.ours()}")


def compile_static(folder: pathlib.Path) -> bool:
    """A program `static` that is linked statically: whether it could be made."""
    (folder / "static.c").write_text("int main(void) { return 0; }\n", encoding="ascii")
    words = [os.environ.get("CC", "cc"), "-static", "-o", "static", "static.c"]
    return subprocess.run(words, cwd=folder, stderr=subprocess.DEVNULL).returncode == 0


def statuses(trial: Trial) -> None:
    """What is wrong has its status, and one line."""
    folder = trial.room / "statuses"
    make_inputs(folder)
    launcher = str(trial.library / "detio-launch")
    (folder / "no-program").write_text("no program\n", encoding="ascii")
    (folder / "no-program").chmod(0o755)
    (folder / "torn").write_bytes(b"DIOL\0\2\0")
    wanted: list[tuple[int, tuple[str, ...]]] = [
        (127, ("run", "--", "no-such-program")), (126, ("run", "--", "./no-program")), (OURS, ("run",)),
        (OURS, ("run", "--threads", "17", "--", "true")), (OURS, ("run", "--log", "none/log", "--", "true")),
        (OURS, ("rerun", "--", "true")), (OURS, ("rerun", "--log", "none")), (DIFFERS, ("rerun", "--log", "torn")),
        (OURS, ("run", "--mem", "relative", "--", "true")), (OURS, ("run", "--unknown", "--", "true"))]
    if compile_static(folder):
        (folder / "script").write_text(f"#!{folder}/static -x\n", encoding="ascii")
        (folder / "script").chmod(0o755)
        wanted += [(126, ("run", "--", "./static")), (126, ("run", "--", "./script"))]
    else:
        trial.leaves_out("a static C library", 2)
    for status, words in wanted:
        ran = trial.launch(launcher, *words, folder=folder)
        trial.check(ran.status == status and ran.err.startswith(b"detio: "), f"{' '.join(words)}: {ran.status} {ran.ours()}")


def addresses(trial: Trial) -> None:
    """Where the kernel does not fix addresses, the run says so and goes on, and its log says it."""
    folder = trial.room / "addresses"
    make_inputs(folder)
    program, launcher = str(trial.room / "programs/race"), str(trial.library / "detio-launch")
    trial.run("fixed.log", program, folder=folder)
    trial.check(b"fixed=yes" in (folder / "fixed.log").read_bytes(), "addresses: they are not fixed")
    ran = trial.launch(str(trial.room / "programs/blocked"), launcher, "run", "--log", "other.log", "--", program, folder=folder)
    trial.check(ran.status == 0 and "addresses" in ran.ours(), f"addresses: status {ran.status}: {ran.ours()}")
    trial.check(b"fixed=yes" not in (folder / "other.log").read_bytes(), "addresses: the log says that they are fixed")


def few_addresses(trial: Trial) -> None:
    """A run needs no more addresses than there are."""
    folder = trial.room / "few"
    make_inputs(folder)
    launcher, program = str(trial.library / "detio-launch"), str(trial.room / "programs/race")
    for words in f"run --log few.log --force -- {program}", "rerun --log few.log":
        ran = trial.launch("/bin/sh", "-c", f"ulimit -v 1500000; exec {launcher} {words}", folder=folder)
        trial.check(ran.status == 0, f"few addresses: {words}: {ran.status} {ran.ours()}")


def growing(trial: Trial) -> None:
    """A run with a long history says so once, and which threads make it."""
    folder = trial.room / "growing"
    make_inputs(folder)
    launcher, program = str(trial.library / "detio-launch"), str(trial.room / "programs/grows")
    script = f"ulimit -v 1500000; exec {launcher} run --log grows.log --force -- {program} 2000000"
    ran = trial.launch("/bin/sh", "-c", script, folder=folder)
    trial.check(ran.status == 0 and ran.ours().count("of history in memory") == 1,
                f"growing: {ran.status} {ran.ours()}")
    said = re.search(r"most calls: (\d+) of thread 2, ", ran.ours())
    trial.check(said is not None and int(said[1]) > 10000, f"growing: it is not said who: {ran.ours()}")


def long_log(trial: Trial) -> None:
    """A log that is longer than the commands for scripts read is rerun."""
    folder = trial.room / "long"
    make_inputs(folder)
    (folder / "data.txt").write_bytes(os.urandom(18_000_000))
    run = trial.run("long.log", "md5sum", "data.txt", folder=folder)
    (folder / "data.txt").unlink()
    again = trial.rerun("long.log", folder=folder)
    trial.check((folder / "long.log").stat().st_size > 16_777_216, "long: the log is short")
    trial.check(run.status == 0 and again.alone() == run.alone(), f"long: rerun {again.status}: {again.ours()}")


def in_turn(trial: Trial) -> None:
    """Effects on the host come in the order of turns: recordings leave the same file, serial or not."""
    folder = trial.room / "in-turn"
    make_inputs(folder)
    for options in (), ("--parallel",):
        left = set()
        for _ in range(5):
            (folder / "appended.txt").unlink(missing_ok=True)
            run = trial.run("turn.log", str(trial.room / "programs/appends"), folder=folder, options=options)
            trial.check(run.status == 0, f"in turn: status {run.status}: {run.ours()}")
            left.add((folder / "appended.txt").read_bytes())
        trial.check(len(left) == 1, f"in turn: five recordings {' '.join(options)} left {len(left)} files")


def closed_numbers(trial: Trial) -> None:
    """Standard numbers that are closed at the start are closed in the run, and the next openings have them."""
    folder = trial.room / "numbers"
    make_inputs(folder)
    program, launcher = str(trial.room / "programs/opens"), str(trial.library / "detio-launch")
    for closed in "<&-", "<&- >&-", "<&- 2>&-":
        alone = trial.launch("/bin/sh", "-c", f"exec {program} alone.txt {closed}", folder=folder)
        ran = trial.launch("/bin/sh", "-c", f"exec {launcher} run --log numbers.log --force -- {program} run.txt {closed}",
                           folder=folder)
        said = [(folder / it).read_bytes() for it in ("alone.txt", "run.txt")]
        trial.check(ran.status == alone.status == 0 and said[0] == said[1], f"numbers: {closed}: {ran.status} {said}")
        again = trial.rerun("numbers.log", folder=folder)
        trial.check(again.status == 0, f"numbers: {closed}: rerun {again.status}: {again.ours()}")


def hang_of_pigz(trial: Trial) -> None:
    """One failing read has pigz 2.6 wait for ever, which its log repeats."""
    version = subprocess.run(["pigz", "--version"], capture_output=True, text=True).stdout if shutil.which("pigz") else ""
    if version.strip() != "pigz 2.6":
        trial.leaves_out("pigz 2.6", 21)
        return
    folder = trial.room / "hang"
    make_inputs(folder)
    for fault in range(4, 40):
        run = trial.run("hang.log", "pigz", "-p", "4", "-c", "data.txt", folder=folder, options=("--fault", str(fault)))
        if run.status == DEADLOCK:
            break
    trial.check(run.status == DEADLOCK and "deadlock" in run.ours(), f"pigz: no fault hangs it: {run.status}")
    (folder / "data.txt").unlink()
    for number in range(20):
        again = trial.rerun("hang.log", folder=folder)
        trial.check((again.status, again.out) == (run.status, run.out), f"pigz: rerun {number} of the hang: {again.status}")


def stuck(trial: Trial) -> None:
    """Threads that wait for one another end with a status of their own, and so do reruns."""
    folder = trial.room / "stuck"
    make_inputs(folder)
    for number in range(6):
        ran = (trial.rerun("stuck.log", folder=folder) if number else
               trial.run("stuck.log", str(trial.room / "programs/stuck"), folder=folder))
        trial.check((ran.status, ran.out) == (DEADLOCK, b"2 threads\n") and "deadlock" in ran.ours(),
                    f"stuck: status {ran.status}: {ran.ours()}")
        where = callers_in(ran, str(trial.room / "programs/stuck"))
        told = "the end of thread 1" in ran.ours() and all(f"mutex of thread {it}" in ran.ours() for it in (1, 2))
        trial.check(told and sorted(where) == ["locks", "locks", "main", "one", "other"],
                    f"stuck: {where}: {ran.ours()}")
    stuck_in_all_ways(trial)
    stuck_for_ever(trial)


def stuck_in_all_ways(trial: Trial) -> None:
    """What each thread waits for is said, with where it is and who waits."""
    folder, program = trial.room / "stuck", str(trial.room / "programs/stuck")
    ran = trial.run("stuck.log", program, "all", folder=folder)
    trial.check(ran.status == DEADLOCK, f"stuck: status {ran.status}: {ran.ours()}")
    trial.check(trial.rerun("stuck.log", folder=folder).alone() == ran.alone(), "stuck: all: the rerun differs")
    for thing, word in (("condition", "condition"), ("semaphore", "semaphore"), ("barrier", "barrier"),
                        ("rwlock", "lock of readers and writers")):
        lines = [it for it in ran.err.decode().splitlines() if f"waits for the {word} at stuck" in it]
        where = callers_in(Ran(0, b"", lines[0].encode()), program) if lines else []
        trial.check(where == [f"waits_for_{thing}", thing], f"stuck: {thing}: {where}: {ran.ours()}")
    trial.check("waits for what comes through a pipe" in ran.ours(), f"stuck: pipe: {ran.ours()}")


def stuck_for_ever(trial: Trial) -> None:
    """With --wait-forever a deadlock is said, and the process stays."""
    folder, program = trial.room / "stuck", str(trial.room / "programs/stuck")
    words = [str(trial.library / "detio-launch"), "run", "--wait-forever", "--log", "stays.log", "--force", "--",
             program]
    with open(folder / "said", "wb") as err:
        process = subprocess.Popen(words, cwd=folder, stdout=subprocess.DEVNULL, stderr=err, stdin=subprocess.DEVNULL,
                                   env=trial.environment())
        time.sleep(2)
        stays = process.poll() is None
        process.kill()
        process.wait()
    said = (folder / "said").read_text(encoding="utf-8")
    trial.check(stays and said.count("and the run stays so") == 1, f"stuck: for ever: {process.returncode}: {said}")


# What a recording asks for, and a rerun in its place; what is said of the rerun, and of its log.
DIVERGENCES = (
    ("1", "2", "asks for stat of data.txt; ", "the answer to that of something else"),
    ("1", "3", "asks for the time; ", "the answer to stat"),
    ("3", "1", "asks for stat of input.txt; ", "the answer to the time"),
    ("1", "4", "asks for open of input.txt; ", "the answer to stat"),
    ("4", "1", "asks for stat of input.txt; ", "open"),
    ("5", "4", "asks for open of input.txt; ", "the answer to the end of a wait"))


def diverges(trial: Trial) -> None:
    """A divergence says which thread asks for what, where, and what its log has."""
    folder, program = trial.room / "diverges", str(trial.room / "programs/asks")
    make_inputs(folder)
    for was, now, asks, has in DIVERGENCES:
        trial.run("diverges.log", program, was, folder=folder, given=b"some bytes")
        launcher = str(trial.library / "detio-launch")
        again = trial.launch(launcher, "rerun", "--log", "diverges.log", "--force", "--", program, now, folder=folder)
        line = again.ours().split("; detio: ")[-1]
        trial.check(again.status == DIVERGED and asks in line and f"its log has {has}" in line and "thread 0, in its call"
                    in
                    line, f"diverges: {was} {now}: {again.status} {again.ours()}")
        where = callers_in(Ran(0, b"", f"detio: {line}".encode()), program)
        trial.check(where == ["asks"], f"diverges: {was} {now}: at {where}: {line}")


def stops(trial: Trial) -> None:
    """A rerun stops before the call that is named, where a debugger finds it, and goes on from there."""
    folder, program = trial.room / "stops", str(trial.room / "programs/asks")
    make_inputs(folder)
    run = trial.run("stops.log", program, "1", folder=folder)
    launcher = str(trial.library / "detio-launch")
    again = trial.launch(launcher, "rerun", "--log", "stops.log", "--force", "--", program, "3", folder=folder)
    call = re.search(r"in its call (\d+) ", again.ours())
    if not trial.check(call is not None, f"stops: {again.ours()}") or not call:
        return
    words = [launcher, "rerun", "--log", "stops.log", "--stop-at", f"0,{call[1]}"]
    process = subprocess.Popen(words, cwd=folder, stdout=subprocess.PIPE, stderr=subprocess.PIPE,
                               stdin=subprocess.DEVNULL,
                               env=trial.environment())
    _, status = os.waitpid(process.pid, os.WUNTRACED)
    trial.check(os.WIFSTOPPED(status) and os.WSTOPSIG(status) == signal.SIGSTOP,
                f"stops: the process did not: {status}")
    if shutil.which("gdb"):
        seen_there = subprocess.run(["gdb", "-batch", "-p", str(process.pid), "-ex", "bt"], capture_output=True,
                                    text=True)
        trial.check("asks" in seen_there.stdout, f"stops: gdb does not find it: {seen_there.stdout[-500:]}")
    else:
        trial.leaves_out("gdb", 1)
    process.send_signal(signal.SIGCONT)
    out, err = process.communicate()
    ran = Ran(process.returncode, out, err)
    trial.check(ran.alone() == run.alone(), f"stops: the rerun differs: {ran.status} {ran.ours()}")
    trial.check(callers_in(ran, program) == ["asks"], f"stops: {ran.ours()}")
    for wrong in "0", "0,", ",5", "16,1", "0,0", "0,x":
        refused = trial.launch(launcher, "rerun", "--log", "stops.log", "--stop-at", wrong, folder=folder)
        trial.check(refused.status == OURS, f"stops: {wrong}: {refused.status}")


def computing(trial: Trial) -> None:
    """A thread that makes no call for long, while another waits, is said once; and one that waits for a peer is not."""
    folder, program = trial.room / "computing", str(trial.room / "programs/computes")
    make_inputs(folder)
    run = trial.run("computes.log", program, folder=folder)
    lines = [it for it in run.ours().split("; ") if "has the turn" in it]
    trial.check(run.status == 0 and len(lines) == 1, f"computes: {run.status}: {run.ours()}")
    trial.check(run.ours().count("the handler of signal 14 runs at a moment") == 1,
                f"computes: its handler is not said: {run.ours()}")
    where = callers_in(Ran(0, b"", lines[0].encode()), program) if lines else []
    trial.check(where == ["computes"], f"computes: its last call was at {where}: {run.ours()}")


def quiet(trial: Trial) -> None:
    """A thread that sleeps, or that waits for a line, holds nobody up, and whoever waits for a mutex waits for that:
    nothing is said."""
    folder = trial.room / "quiet"
    make_inputs(folder)
    for script in "sleep", "read", "computes":
        launcher = str(trial.library / "detio-launch")
        words = [launcher, "run", "--log", "quiet.log", "--force", "--", str(trial.room / "programs/quiet"), script]
        process = subprocess.Popen(words, cwd=folder, stdout=subprocess.PIPE, stderr=subprocess.PIPE,
                                   stdin=subprocess.PIPE, env=trial.environment())
        assert process.stdin
        time.sleep(6)
        out, err = process.communicate(b"line\n")
        trial.check((process.returncode, out) == (0, b"over\n") and b"has the turn" not in err,
                    f"quiet: {script}: {out!r} {err!r}")


# What is said of calls that the run covers, made in ways that it does not.
PARTLY = (
    "to connect a TCP socket that has an address", "a server of an address other than 127.0.0.1", "how long a send waits",
    "ioctl 0x8912 of descriptor", "send with flags 1", "fcntl 9 of descriptor", "O_ASYNC", "preadv2 with flags 1",
    "pwritev2 with flags 2", "poll of more than 64", "fstatfs of what is no file", "a listing of a directory below --mem",
    "shared memory that other processes have by a key", "a sleep by the processor's time", "no room for one more FILE",
)


def in_part(trial: Trial) -> None:
    """Each way of a call that is not covered has a line, in a run and in a rerun, with who called."""
    folder = trial.room / "in-part"
    make_inputs(folder)
    run = trial.run("part.log", str(trial.room / "programs/partly"), folder=folder, options=("--mem", "/run"))
    again = trial.rerun("part.log", folder=folder)
    for way, ran in ("run", run), ("rerun", again):
        for said in PARTLY:
            lines = [it for it in ran.ours().split("; ") if said in it]
            trial.check(len(lines) == 1 and "(at partly+0x" in lines[0], f"in-part: {way}: {said}: {lines} {ran.status}")


def net(trial: Trial) -> None:
    """What goes past the library to the kernel does nothing in a rerun, and is told."""
    folder = trial.room / "net"
    make_inputs(folder)
    run = trial.run("../net.log", str(trial.room / "programs/past"), folder=folder)
    trial.check(run.status == 0 and (folder / "made-past").exists(), f"net: status {run.status}: {run.ours()}")
    shutil.rmtree(folder)
    make_inputs(folder)
    before = seen(folder)
    again = trial.rerun("../net.log", folder=folder)
    trial.check(seen(folder) == before, "net: a rerun changed the folder")
    trial.check(again.status == 0 and again.ours().count("reaches outside") == 6, f"net: {again.status} {again.ours()}")


def passed(trial: Trial) -> None:
    """Below --pass a rerun reaches the host as its recording did, and elsewhere not."""
    folder = trial.room / "passed"
    for name, wanted in (".", True), ("other", False):
        make_inputs(folder / "other")
        made = folder / "made.txt"
        options = ("--pass", str((folder / name).resolve()))
        run = trial.run("passed.log", "touch", str(made), folder=folder, options=options)
        trial.check(run.status == 0 and made.exists(), f"passed: status {run.status}: {run.ours()}")
        made.unlink(missing_ok=True)
        again = trial.rerun("passed.log", folder=folder)
        trial.check((again.status, made.exists()) == (0, wanted), f"passed: {name}: {again.status} {again.ours()}")
        shutil.rmtree(folder)


def faults(trial: Trial) -> None:
    """The call that is to fail does, and no other."""
    folder = trial.room / "faults"
    make_inputs(folder)
    program = str(trial.room / "programs/faulty")
    for number in range(1, 11):
        run = trial.run("faults.log", program, folder=folder, options=("--fault", str(number)))
        shutil.rmtree(folder / "made", ignore_errors=True)
        again = trial.rerun("faults.log", folder=folder)
        trial.check((run.status, run.out) == (0, b"%d 1\n" % number), f"faults: {number}: {run.out!r} {run.ours()}")
        trial.check((again.status, again.out) == (0, run.out), f"faults: rerun {number}: {again.status} {again.ours()}")


def each_fault(trial: Trial) -> None:
    """Whichever outcome of a program fails: it ends, by itself or by a deadlock that is said, and so does its rerun.
    Where it ends well it printed what it prints without a fault."""
    folder = trial.room / "each-fault"
    for words in (("sort", "--parallel=2", "data.txt"), ("xz", "-T", "2", "-0", "-c", "data.txt"),
                  ("md5sum", "data.txt")):
        if not shutil.which(words[0]):
            trial.leaves_out(words[0], 3)
            continue
        make_inputs(folder)
        clean = trial.run("../fault.log", *words, folder=folder)
        outcomes = (trial.room / "fault.log").read_bytes().count(b"R\0")
        bad = []
        for number in range(1, min(outcomes, 40)):
            run = trial.run("../fault.log", *words, folder=folder, options=("--fault", str(number)))
            again = trial.rerun("../fault.log", folder=folder)
            ends = 0 <= run.status < 128 and run.status not in (DIVERGED, OURS, DIFFERS, LOG_ENDS)
            if not ends or again.alone() != run.alone() or (run.status == 0 and run.out != clean.out):
                bad.append(f"{number}: {run.status}, {again.status}: {again.ours()}")
        trial.check(not bad, f"each fault: {words[0]}: {'; '.join(bad)[:400]}")


def seeds(trial: Trial) -> None:
    """Seeds have other schedules, and each has one."""
    folder = trial.room / "seeds"
    make_inputs(folder)
    printed = set()
    for seed in range(1, 7):
        pair = [trial.run("seeds.log", str(trial.room / "programs/race"), folder=folder, options=("--seed", str(seed)))
                for _ in range(2)]
        trial.check(pair[0].alone() == pair[1].alone(), f"seeds: {seed} has two schedules")
        printed.add(pair[0].out)
    trial.check(len(printed) > 1, "seeds: six seeds have one schedule")


def appears(path: pathlib.Path) -> bool:
    """Whether a file is there, soon: who makes it may outlive the run, as a daemon does."""
    until = time.monotonic() + 5
    while not path.exists() and time.monotonic() < until:
        time.sleep(0.01)
    return path.exists()


def children(trial: Trial) -> None:
    """A recording starts other processes, and a rerun none; it goes on as another program."""
    executes = (4, 5, 6, 7, 8, 11, 12, 13, 14)
    folder = trial.room / "children"
    make_inputs(folder)
    for way in range(16):
        run = trial.run("../children.log", str(trial.room / "programs/children"), str(way), folder=folder)
        there = (folder / "made.txt").exists() if way == 10 else appears(folder / "made.txt")
        wanted = (4, False) if way == 10 else (0, True)
        trial.check((run.status, there) == wanted, f"children {way}: {run.status} {run.ours()}")
        (folder / "made.txt").unlink(missing_ok=True)
        again = trial.rerun("../children.log", folder=folder)
        wants = 4 if way == 10 else 0 if way in executes else 3
        trial.check(again.status == wants, f"children {way}: rerun: {again.status} {again.ours()}")
        trial.check(not (folder / "made.txt").exists(), f"children {way}: a rerun starts a program")


def records_end(log: bytes) -> list[int]:
    """Where the header of a log ends, and each of its records."""
    ends = [16]
    while log[ends[-1]:ends[-1] + 1] == b"R":
        ends.append(ends[-1] + 27 + int.from_bytes(log[ends[-1] + 25:ends[-1] + 27], "big"))
    return ends


def numbers_of(log: bytes) -> tuple[list[int], list[int]]:
    """The numbers and the clocks of the first thread's records."""
    begins = [it for it in records_end(log)[:-1] if log[it + 1:it + 3] == b"\0\0"]
    return ([int.from_bytes(log[it + 3:it + 7], "big") for it in begins],
            [int.from_bytes(log[it + 7:it + 15], "big") for it in begins])


def goes_on(trial: Trial) -> None:
    """One log of several programs is a log, is rerun as far as it goes, and by the same programs alone; and what no run
    goes on as is refused aloud."""
    folder = trial.room / "goes-on"
    make_inputs(folder)
    shutil.copy(trial.room / "programs/asks", folder / "next")
    shell = ("/bin/sh", "-c", "read a < input.txt; exec ./next $a")
    run = trial.run("on.log", *shell, folder=folder)
    log = (folder / "on.log").read_bytes()
    numbers, clocks = numbers_of(log)
    ends = records_end(log)
    trial.check(run.status == 0 and numbers == list(range(len(numbers))) and clocks == sorted(set(clocks)),
                f"goes on: the log is none: {run.status} {run.ours()}")
    trial.check(log[ends[-1]:] == b"E" + (len(ends) - 1).to_bytes(4, "big"), "goes on: the log has another end")
    for end in ends:
        (folder / "cut.log").write_bytes(log[:end])
        again = trial.rerun("cut.log", folder=folder)
        known = again.status in (0, LOG_ENDS) or again.status == DIFFERS and not again.out
        trial.check(known and run.out.startswith(again.out), f"goes on: cut at {end}: {again.status} {again.ours()}")
    for fault in range(1, len(ends)):
        bad = trial.run("fault.log", *shell, folder=folder, options=("--fault", str(fault)))
        again = trial.rerun("fault.log", folder=folder)
        broken = (folder / "fault.log").read_bytes()
        failed = sum(broken[it + 16] == EIO for it in records_end(broken)[:-1])
        trial.check(again.alone() == bad.alone() and failed <= 1,
                    f"goes on: fault {fault}: {bad.status}, {again.status} {again.ours()}, {failed} failed")
    with open(folder / "next", "ab") as program:
        program.write(b"more")
    again = trial.rerun("on.log", folder=folder)
    trial.check(again.status == DIFFERS and "the program differs" in again.ours(), f"goes on: another program: {again}")
    for options, said in ((("--strict",), "the filter of --strict"), (("--mem", "/run"), "files below --mem")):
        run = trial.run("on.log", *shell, folder=folder, options=options)
        trial.check(run.status == (STRICT if "--strict" in options else 126) and said in run.ours(),
                    f"goes on: {options}: {run.status} {run.ours()}")
    run = trial.run("on.log", str(trial.room / "programs/execs"), "0", str(TESTS), folder=folder)
    shutil.rmtree(folder / "below")  # a name of a program that the run made is there
    again = trial.rerun("on.log", folder=folder)
    trial.check(again.alone() == run.alone(), f"goes on: by a name that is gone: {again.status} {again.ours()}")
    if compile_static(folder):
        run = trial.run("on.log", "/bin/sh", "-c", "exec ./static", folder=folder)
        again = trial.rerun("on.log", folder=folder)
        trial.check(run.status == 126 and "linked statically" in run.ours() and again.alone() == run.alone(),
                    f"goes on: a static program: {run.status} {run.ours()}: {again.status} {again.ours()}")
    else:
        trial.leaves_out("a static C library", 1)


def other_user(trial: Trial) -> None:
    """A rerun by another user has the numbers of the recording's."""
    if os.geteuid() or not shutil.which("setpriv"):
        trial.leaves_out("root with setpriv", 2)
        return
    folder = trial.room / "other-user"
    make_inputs(folder)
    words = ("run", "--log", "user.log", "--force", "--", "/usr/bin/id", "-u")
    run = trial.launch(str(trial.library / "detio-launch"), *words, folder=folder)
    trial.check((run.status, run.out) == (0, b"0\n"), f"other user: {run.status} {run.out!r} {run.ours()}")
    log = (folder / "user.log").read_bytes()
    with tempfile.TemporaryDirectory() as room:
        copy = pathlib.Path(room) / "user.log"
        os.chmod(room, 0o755)
        copy.write_bytes(log)
        for name in "detio-launch", "libdetio_preload.so":
            shutil.copy(trial.library / name, room)
        again = trial.launch("setpriv", "--reuid", "65534", f"{room}/detio-launch", "rerun", "--log", str(copy),
                             folder=pathlib.Path("/"))
    trial.check((again.status, again.out) == (0, b"0\n"),
                f"other user: rerun {again.status} {again.out!r} {again.ours()}")


def function_at(program: str, offset: int) -> str:
    """The function of a program that has an address."""
    listed = subprocess.run(["nm", "-S", program], capture_output=True, text=True, check=True).stdout
    sized = [words for words in (line.split() for line in listed.splitlines()) if len(words) == 4]
    for more in 0, 1:  # what does not return may end with a call
        for first, size, _, name in sized:
            if int(first, 16) <= offset < int(first, 16) + int(size, 16) + more:
                return name
    return "none"


def callers_in(ran: Ran, program: str) -> list[str]:
    """The functions of a program that our lines name by their places."""
    name = re.escape(os.path.basename(program))
    return [function_at(program, int(it, 16)) for it in re.findall(rf"{name}\+0x([0-9a-f]+)", ran.ours())]


# The ways of strangers, and what the line says of each.
STRANGERS = {
    "by_syscall": "system call 79 goes past the run", "by_fork": "fork: ", "by_vfork": "fork: ",
    "by_clone": "clone is not",
    "by_spawn": "posix_spawn: ", "by_system": "system: ", "by_popen": "popen: ",
    "by_words": "exec of /bin/true: other threads", "by_mapping": "a shared mapping", "by_ring": "system call 425 is not", "by_thread": "no number for one more thread",
    "by_numbers": "no number for one more file", "by_rights": "a message with descriptors",
    "by_timer": "timer_create that begins threads", "by_instruction": "system call 79 goes around"}


def strangers(trial: Trial) -> None:
    """What is refused or passed on is said once, with its caller; and a strict run ends there, and its rerun too."""
    folder = trial.room / "strangers"
    make_inputs(folder)
    program = str(trial.room / "programs/strangers")
    for way, (name, said) in enumerate(STRANGERS.items()):
        some = ("--threads", "1") if name == "by_thread" else ()
        run = trial.run("strangers.log", program, str(way), folder=folder, options=some)
        again = trial.rerun("strangers.log", folder=folder)
        quiet = name == "by_instruction"  # without --strict nobody looks at it
        trial.check(run.status == 0 and run.ours().count(said) == (not quiet),
                    f"strangers: {name}: {run.status} {run.ours()}")
        if not quiet:
            where = callers_in(run, program)
            trial.check(where == [name], f"strangers: {name}: it was called by {where}: {run.ours()}")
        if name not in ("by_fork", "by_vfork", "by_spawn"):
            trial.check(again.alone() == run.alone(), f"strangers: {name}: rerun {again.status} {again.ours()}")
        strict = trial.run("strict.log", program, str(way), folder=folder, options=("--strict", *some))
        if "no filter of system calls" in strict.ours():
            trial.leaves_out("a filter of system calls", 2)
            continue
        trial.check((strict.status, strict.out) == (STRICT, b"") and said in strict.ours(),
                    f"strangers: {name}: strict: {strict.status} {strict.ours()}")
        again = trial.rerun("strict.log", folder=folder)
        trial.check(again.status == STRICT, f"strangers: {name}: strict rerun: {again.status} {again.ours()}")
    for it in "pigz", "sort":
        if shutil.which(it):
            strict = trial.run("strict.log", it, "data.txt" if it == "sort" else "-kf",
                               *(("data.txt",) if it == "pigz" else ()),
                               folder=folder, options=("--strict",))
            trial.check((strict.status, strict.ours()) == (0, ""),
                        f"strangers: {it}: strict: {strict.status} {strict.ours()}")


def from_outside(trial: Trial) -> None:
    """Handlers of signals that another process sends at any moment come again at the same calls."""
    folder = trial.room / "from-outside"
    make_inputs(folder)
    words = [str(trial.library / "detio-launch"), "run", "--log", "outside.log", "--force", "--",
             str(trial.room / "programs/moments"), "outside"]
    with open(folder / "printed", "wb") as out:
        process = subprocess.Popen(words, cwd=folder, stdout=out, stdin=subprocess.DEVNULL, env=trial.environment())
        time.sleep(0.3)
        for _ in range(1000):
            if process.poll() is None:
                process.send_signal(signal.SIGALRM)
                time.sleep(0.01)
        process.kill()
        process.wait()
    printed = (folder / "printed").read_bytes()
    trial.check((process.returncode, printed.count(b"14 at ")) == (0, 20), f"from outside: status {process.returncode}")
    for number in range(5):
        again = trial.rerun("outside.log", folder=folder)
        trial.check((again.status, again.out) == (0, printed),
                    f"from outside: rerun {number}: {again.status} {again.ours()}")


def by_chance(trial: Trial) -> None:
    """Calls by chance do what they do without us, and again in a rerun: `tools/against-kernel` makes more of them."""
    for seed in range(1, 21):
        fault = against_kernel(trial, seed, 400)
        trial.check(fault is None, f"by chance: seed {seed}: {fault}")


def against_kernel(trial: Trial, seed: int, count: int) -> str | None:
    """The first call by chance that differs, natively, recorded or rerun; or None."""
    program, folder = str(trial.room / "programs/chance"), trial.room / f"chance-{seed}"
    seen_by: list[list[str]] = []
    for way in "alone", "run", "rerun":
        shutil.rmtree(folder, ignore_errors=True)
        folder.mkdir()
        words = (program, str(seed), str(count))
        ran = (trial.launch(*words, folder=folder) if way == "alone" else
               trial.run("../chance.log", *words, folder=folder) if way == "run" else
               trial.rerun("../chance.log", folder=folder))
        seen_by.append([*ran.out.decode().splitlines(), f"status {ran.status}"])
    shutil.rmtree(folder)
    for number, lines in enumerate(zip(*seen_by, strict=False)):
        if len(set(lines)) > 1:
            return f"call {number}: {' / '.join(lines)}"
    return None


def compiles(words: list[str]) -> bool:
    """Whether a compiler takes these words."""
    return subprocess.run(words, stdout=subprocess.DEVNULL, stderr=subprocess.DEVNULL).returncode == 0


def units(trial: Trial) -> None:
    """The parts of the library that need no program, under sanitizers where the compiler has them."""
    to = trial.room / "units"
    words = [os.environ.get("CC", "cc"), "-std=gnu11", "-g", "-Wall", "-Wextra", "-o", str(to), f"-I{trial.sources}",
             f"-I{repository.TOP}/bindings/c", str(TESTS / "units/units.c"),
             *(str(trial.sources / f"{name}.c") for name in ("about", "sha256", "heap"))]
    if not compiles([*words, "-fsanitize=address,undefined", "-fno-sanitize-recover=all"]):
        trial.leaves_out("sanitizers", 1)
        if not trial.check(compiles(words), "units: the compiler refuses them"):
            return
    ran = trial.launch(str(to), folder=trial.room)
    trial.check(ran.status == 0, f"units: status {ran.status}: {(ran.out + ran.err).decode(errors='replace')[-1000:]}")


def sanitized(trial: Trial, *, launcher: bool) -> Trial | None:
    """The launcher or the preload library under sanitizers, in a folder of its own; None where that cannot be."""
    folder = trial.room / ("launcher" if launcher else "undefined")
    folder.mkdir()
    room = trial.room / f"of-{folder.name}"
    found = Trial(folder, room, trial.sources, trial.seconds, {"ASAN_OPTIONS": "detect_leaks=0"})
    found.room.mkdir()
    os.symlink(trial.room / "programs", found.room / "programs")
    if launcher:
        shutil.copy(trial.library / "libdetio_preload.so", folder)
        sources = [str(trial.sources / f"{name}.c") for name in ("launch", "about", "runs", "sha256")]
        made = compiles([os.environ.get("CC", "cc"), "-std=c11", "-g", "-fsanitize=address,undefined",
                         "-fno-sanitize-recover=all", "-o", str(folder / "detio-launch"), *sources])
        return found if made else None
    os.symlink(trial.library / "objects", folder / "objects")
    flags = "-fsanitize=undefined -fsanitize-undefined-trap-on-error"
    made = subprocess.run([f"{repository.TOP}/tools/link-preload", str(folder)], env={**os.environ, "CFLAGS": flags},
                          stdout=subprocess.DEVNULL, stderr=subprocess.DEVNULL).returncode == 0
    return found if made else None


def sanitizers(trial: Trial) -> None:
    """The launcher and the preload library again, under sanitizers."""
    for launcher in True, False:
        other = sanitized(trial, launcher=launcher)
        if not other:
            trial.leaves_out("sanitizers", 1)
            continue
        if launcher:
            statuses(other)
            differing(other)
        else:
            for case in CASES:
                if case.words[0].startswith("@") and not case.needs:
                    try_case(replace(case, reruns=1), other)
        trial.checks += other.checks
        trial.faults += [f"sanitizers: {it}" for it in other.faults]


def ask_server(port: int, clients: int) -> None:
    """Clients that ask a server of ours, beside one another."""

    def one(number: int) -> None:
        with socket.create_connection(("127.0.0.1", port), timeout=30) as stream, stream.makefile("rwb") as lines:
            for turn in range(40):
                lines.write(b"%d %d\n" % (turn % 5, number))
                lines.flush()
                lines.readline()

    threads = [threading.Thread(target=one, args=(number,)) for number in range(clients)]
    for it in threads:
        it.start()
    for it in threads:
        it.join()


def port_said(path: pathlib.Path) -> int:
    """The port that a server prints, once it does."""
    for _ in range(500):
        words = path.read_text(encoding="ascii").split()
        if len(words) >= 2:
            return int(words[1])
        time.sleep(0.02)
    return 0


def server(trial: Trial) -> None:
    """A server with eight clients of another process, rerun with nobody at its port."""
    folder = trial.room / "server"
    make_inputs(folder)
    words = [str(trial.library / "detio-launch"), "run", "--log", "server.log", "--force", "--",
             str(trial.room / "programs/server"), "8"]
    with open(folder / "printed", "wb") as out:
        process = subprocess.Popen(words, cwd=folder, stdout=out, stdin=subprocess.DEVNULL, env=trial.environment())
        try:
            ask_server(port_said(folder / "printed"), 8)
            process.wait(SECONDS)
        finally:
            process.kill()
    trial.check(process.returncode == 0, f"server: status {process.returncode}")
    (folder / "journal.txt").unlink()
    before = (folder / "printed").read_bytes()
    for number in range(5):
        again = trial.rerun("server.log", folder=folder)
        trial.check((again.status, again.out) == (0, before), f"server: rerun {number}: {again.status} {again.ours()}")
        trial.check(not (folder / "journal.txt").exists(), f"server: rerun {number} wrote a journal")


def web_server(trial: Trial) -> None:
    """Python's web server, asked by several at once and killed, rerun to its end."""
    if not os.path.exists("/usr/bin/python3"):
        trial.leaves_out("/usr/bin/python3", 6)
        return
    folder = trial.room / "web"
    make_inputs(folder)
    script = ("import http.server, functools; h = functools.partial(http.server.SimpleHTTPRequestHandler, directory='.'); "
              "s = http.server.ThreadingHTTPServer(('127.0.0.1', 0), h); print('port', s.server_port, flush=True); "
              "s.serve_forever()")
    words = [str(trial.library / "detio-launch"), "run", "--log", "web.log", "--force", "--", "/usr/bin/python3", "-S", "-c",
             script]
    with open(folder / "printed", "wb") as out, open(folder / "said", "wb") as err:
        process = subprocess.Popen(words, cwd=folder, stdout=out, stderr=err, stdin=subprocess.DEVNULL,
                                   env=trial.environment())
        port = port_said(folder / "printed")
        asked = [threading.Thread(target=fetch, args=(port, name)) for name in ("data.txt", "input.txt", "data.txt", "")]
        for it in asked:
            it.start()
        for it in asked:
            it.join()
        time.sleep(0.2)
        process.send_signal(signal.SIGKILL)
        process.wait()
    said = Ran(0, (folder / "printed").read_bytes(), (folder / "said").read_bytes())
    trial.check(said.err.count(b"\n") >= 4, "web: not all were answered")
    (folder / "data.txt").unlink()
    for number in range(5):
        again = trial.rerun("web.log", folder=folder)
        trial.check(again.status == LOG_ENDS and again.alone()[1:] == said.alone()[1:], f"web: rerun {number}: {again.status}")


def free_port() -> int:
    """A port that nobody has."""
    with socket.socket() as it:
        it.bind(("127.0.0.1", 0))
        return int(it.getsockname()[1])


def exchanged(port: int, said: bytes, wanted: int) -> bytes:
    """What a server answers, once it listens, so many bytes at most."""
    for _ in range(200):
        try:
            with socket.create_connection(("127.0.0.1", port), timeout=20) as stream:
                stream.sendall(said)
                return stream.makefile("rb").read(wanted)
        except ConnectionRefusedError:
            time.sleep(0.05)
    return b""


# Servers of Debian: their words, what a client says, and what it is answered.
SERVICES = {
    "memcached": (("memcached", "-u", "nobody", "-U", "0", "-l", "127.0.0.1", "-t", "2", "-p"),
                  b"set a 0 0 5\r\nhello\r\nget a\r\n", b"STORED\r\nVALUE a 0 5\r\nhello\r\nEND\r\n"),
    "redis-server": (("redis-server", "--save", "", "--bind", "127.0.0.1", "--port"),
                     b"PING\r\nSET a 1\r\nGET a\r\n", b"+PONG\r\n+OK\r\n$1\r\n1\r\n"),
    "mosquitto": (("mosquitto", "-p"), b"\x10\x0c\0\x04MQTT\x04\x02\0<\0\0", b"\x20\x02\0\0")}


def services(trial: Trial) -> None:
    """Servers that end by the handler of a signal are rerun to their end, with nobody at their port."""
    folder = trial.room / "services"
    make_inputs(folder)
    for name, (words, said, answer) in SERVICES.items():
        path = shutil.which(name) or shutil.which(f"/usr/sbin/{name}")
        if not path:
            trial.leaves_out(name, 5)
            continue
        port = free_port()
        process = subprocess.Popen(
            [str(trial.library / "detio-launch"), "run", "--log", "service.log", "--force", "--", path, *words[1:],
             str(port)], cwd=folder, stdout=subprocess.PIPE, stderr=subprocess.PIPE, stdin=subprocess.DEVNULL,
            env=trial.environment())
        answers = [exchanged(port, said, len(answer)) for _ in range(3)]
        process.send_signal(signal.SIGTERM)
        try:
            out, err = process.communicate(timeout=trial.seconds)
        except subprocess.TimeoutExpired:
            process.kill()
            out, err = process.communicate()
        run = Ran(process.returncode, out, err)
        trial.check(answers == [answer] * 3 and run.status == 0,
                    f"services: {name}: {run.status} {answers} {run.ours()}")
        for number in range(3):
            again = trial.rerun("service.log", folder=folder)
            trial.check(again.alone() == run.alone(),
                        f"services: {name}: rerun {number}: {again.status} {again.ours()}")


# A library that asks for time and chance as it is loaded and as it ends, and a program that prints what it was told.
EARLY = {
    "library.c": """#include <stdio.h>
#include <stdlib.h>
#include <time.h>
#include <unistd.h>
long early[3];
__attribute__((constructor)) static void begins(void) {
  struct timespec now;
  clock_gettime(CLOCK_REALTIME, &now);
  early[0] = now.tv_nsec, early[1] = getpid(), early[2] = getentropy(&now, 8) + now.tv_nsec;
}
__attribute__((destructor)) static void ends(void) {
  struct timespec now;
  clock_gettime(CLOCK_REALTIME, &now);
  printf("%ld\\n", now.tv_nsec);
  fflush(stdout);
}
""",
    "program.c": """#include <stdio.h>
extern long early[3];
int main(void) { printf("%ld %ld %ld\\n", early[0], early[1], early[2]); return 0; }
"""}


# A library whose functions go on to those after it: it has one of its own, and looks up one that it has not.
AFTER = {
    "library.c": """#define _GNU_SOURCE
#include <dlfcn.h>
#include <pthread.h>
#include <time.h>
static int counted;
typedef int creates(pthread_t *, const pthread_attr_t *, void *(*)(void *), void *);
int pthread_create(pthread_t *thread, const pthread_attr_t *attr, void *(*begins)(void *), void *given) {
  counted++;
  return counted > 9 ? 1 : ((creates *)dlsym(RTLD_NEXT, "pthread_create"))(thread, attr, begins, given);
}
int calls_of(void) { return counted; }
long after(void) {
  struct timespec now;
  ((int (*)(clockid_t, struct timespec *))dlsym(RTLD_NEXT, "clock_gettime"))(CLOCK_REALTIME, &now);
  return now.tv_nsec;
}
""",
    "program.c": """#include <pthread.h>
#include <stdio.h>
extern long after(void);
extern int calls_of(void);
static void *works(void *given) { return given; }
int main(void) {
  pthread_t thread;
  void *result = NULL;
  int code = pthread_create(&thread, NULL, works, &thread);
  if (!code) pthread_join(thread, &result);
  printf("%ld %d %d\\n", after(), code || result != &thread, calls_of());
  return 0;
}
"""}


def after(trial: Trial) -> None:
    """What a library looks up after itself is in the run, and its own functions are called once."""
    folder = trial.room / "after"
    make_inputs(folder)
    make_with_library(folder, AFTER, "after")
    run = trial.run("after.log", "./program", folder=folder)
    trial.check(run.status == 0 and run.out.split()[1:] == [b"0", b"1"], f"after: {run.status} {run.out!r} {run.ours()}")
    for number in range(3):
        again = trial.rerun("after.log", folder=folder)
        trial.check(again.alone() == run.alone(), f"after: rerun {number}: {again.status} {again.out!r} {again.ours()}")


def make_with_library(folder: pathlib.Path, texts: dict[str, str], name: str) -> None:
    """A program with a library of its own."""
    for file, text in texts.items():
        (folder / file).write_text(text, encoding="ascii")
    compiler, library = os.environ.get("CC", "cc"), f"lib{name}.so"
    subprocess.run([compiler, "-shared", "-fPIC", "-o", library, "library.c"], cwd=folder, check=True)
    subprocess.run([compiler, "-o", "program", "program.c", f"./{library}", f"-Wl,-rpath,{folder}"], cwd=folder, check=True)


def early(trial: Trial) -> None:
    """What a library does before the program begins, and after it ends, is in the run."""
    folder = trial.room / "early"
    make_inputs(folder)
    make_with_library(folder, EARLY, "early")
    run = trial.run("early.log", "./program", folder=folder)
    trial.check(run.status == 0 and len(run.out.split()) == 4, f"early: {run.status} {run.ours()}")
    for number in range(3):
        again = trial.rerun("early.log", folder=folder)
        trial.check(again.alone() == run.alone(), f"early: rerun {number}: {again.status} {again.out!r} {again.ours()}")


def fetch(port: int, name: str) -> None:
    """Reads a page."""
    try:
        with urllib.request.urlopen(f"http://127.0.0.1:{port}/{name}", timeout=30) as page:
            page.read()
    except OSError:
        return


def table() -> Iterator[tuple[str, str, str]]:
    """The rows of the table of functions: name, how it is covered, and the test."""
    with open(PRELOAD / "interposed.txt", encoding="ascii") as file:
        for line in file:
            if line.strip() and not line.startswith("#"):
                name, how, test = line.split()
                yield name, how, test


def calls_of(test: str, trial: Trial) -> set[str]:
    """What one of our own programs has of the C library: by its linker, and by their names in quotes."""
    listed = subprocess.run(["nm", "-D", "--undefined-only", str(trial.room / "programs" / test)], capture_output=True,
                            text=True).stdout
    source = TESTS / f"{test}.c"
    quoted = re.findall(r'"(\w+)"', source.read_text(encoding="ascii")) if source.exists() else []
    return {line.split()[-1].split("@")[0] for line in listed.splitlines()} | set(quoted)


def compare_table(trial: Trial) -> None:
    """Each function that the library has in place of the C library's has its row, and each row its function and test."""
    listed = subprocess.run(["nm", "-D", "--defined-only", str(trial.library / "libdetio_preload.so")], capture_output=True,
                            text=True, check=True).stdout
    there = {line.split()[2] for line in listed.splitlines() if line.split()[1] in "TWi"}
    rows = {name: test for name, _, test in table()}
    trial.check(not there - set(rows), f"no row in interposed.txt: {' '.join(sorted(there - set(rows)))}")
    trial.check(not set(rows) - there, f"not in the library: {' '.join(sorted(set(rows) - there))}")
    tests = {it.name.split()[0] for it in CASES} | set(OTHERS)
    unknown = sorted(set(rows.values()) - tests)
    trial.check(not unknown, f"no test of this name: {' '.join(unknown)}")
    called = {it: calls_of(it, trial) for it in tests & set(rows.values())}
    lacking = sorted(f"{it} by {test}" for it, test in rows.items() if test in called and it not in called[test])
    trial.check(not lacking, f"not called by its test: {', '.join(lacking)}")


OTHERS: dict[str, Callable[[Trial], None]] = {
    "table": compare_table, "closed": closed_program, "killed": killed, "cut": cut, "differing": differing, "statuses":
    statuses, "stuck": stuck, "diverges": diverges, "stops": stops, "computes": computing, "quiet": quiet, "net":
    net, "in-part": in_part, "passed": passed, "faults": faults, "each-fault": each_fault, "services": services,
    "own-identity": other_user, "strangers": strangers,
    "from-outside": from_outside, "by-chance": by_chance, "seeds": seeds,
    "early": early, "after": after, "children": children, "goes-on": goes_on,
    "units": units, "sanitizers": sanitizers, "addresses": addresses, "few": few_addresses, "growing": growing,
    "long": long_log, "in-turn": in_turn,
    "numbers": closed_numbers, "hang": hang_of_pigz, "server": server, "web": web_server}
