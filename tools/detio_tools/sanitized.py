"""The preload library under AddressSanitizer: what tools/sanitized does."""
import os
import pathlib
import shutil
import subprocess
from collections.abc import Callable
from dataclasses import replace

from detio_tools import preload_edits, programs, repository

TOP = pathlib.Path(repository.TOP)
FLAGS = "-fsanitize=address -fno-omit-frame-pointer"
REPORT = "AddressSanitizer"
# Why a case is not run: its program would look functions up past the library, which leaves that out here.
LEFT_OUT = {"lookups": "the sanitizer looks its functions up too"}
# A program calls what the sanitizer has no function behind, and fails with it alone; or goes on without its options.
NOT_ALONE = ("aliases", "execs", "execs with a seed")

# Faults that are planted, each with the case that must find it: a sanitizer that does not find it does not look.
PLANTED = {
    "memory of ours that is used after it is free": ("nets", preload_edits.Change(
        "nets.c", "  ssize_t n = send_net(fd, room, all, flags, m->msg_name, m->msg_namelen);",
        "  give_back(room); ssize_t n = send_net(fd, room, all, flags, m->msg_name, m->msg_namelen);")),
    "a byte past memory of ours": ("nets", preload_edits.Change(
        "nets.c", "  uint8_t *room = detio_heap_malloc(*all + 1);", "  uint8_t *room = detio_heap_malloc(*all - 1);")),
    "a byte past an array on the stack": ("sockets", preload_edits.Change(
        "sockets.c", "  memcpy(to, bytes, there < *length ? there : *length);",
        "  memcpy(to, bytes, there < *length ? there : *length); ((volatile uint8_t *)bytes)[there + 112] = 0;")),
    "a byte past what the program gave": ("identity", preload_edits.Change(
        "clocks.c", "return strlen(u.nodename) < room ?",
        "((volatile char *)to)[room] = 0; return strlen(u.nodename) < room ?")),
}


def make(folder: pathlib.Path, objects: pathlib.Path, change: preload_edits.Change | None) -> str | None:
    """Makes the library with the sanitizer in a folder of its own: what the compiler said, or None."""
    for name in "preload", "c":
        shutil.copytree(TOP / "bindings" / name, folder / "bindings" / name)
    (folder / "tools").mkdir()
    shutil.copy(TOP / "tools/link-preload", folder / "tools")
    (folder / "out").mkdir()
    os.symlink(objects, folder / "out/objects")
    if change:
        preload_edits.apply(preload_edits.Wrong("planted", ("",), (change,)), folder / "bindings/preload")
    done = subprocess.run([str(folder / "tools/link-preload"), str(folder / "out")], capture_output=True, text=True,
                          env={**os.environ, "CFLAGS": f"{FLAGS} -w"})
    return done.stdout + done.stderr if done.returncode else None


def has_sanitizer(room: pathlib.Path) -> bool:
    """Whether the compiler has it."""
    (room / "empty.c").write_text("int main(void) { return 0; }\n", encoding="ascii")
    words = [os.environ.get("CC", "cc"), *FLAGS.split(), "-o", str(room / "empty"), str(room / "empty.c")]
    return programs.compiles(words) and subprocess.run([str(room / "empty")]).returncode == 0


def own_cases(names: list[str]) -> list[programs.Case]:
    """The cases of our own programs in C, one of each program."""
    return [it for it in programs.CASES if it.words[0].startswith("@") and not it.needs
            and it.name not in LEFT_OUT and (not names or it.name in names)]


def run_cases(cases: list[programs.Case], trial: programs.Trial) -> None:
    """Each is recorded and rerun, and must do as it does alone."""
    for case in cases:
        programs.try_case(replace(case, reruns=1, native=case.native and case.name not in NOT_ALONE), trial)


def plant(what: str, room: pathlib.Path, objects: pathlib.Path) -> str | None:
    """Whether a fault that is planted is found: what is wrong, or None."""
    name, change = PLANTED[what]
    folder = room / "planted" / what.replace(" ", "-")
    said = make(folder, objects, change)
    if said:
        return said
    trial = Quiet(folder / "out", folder / "room")
    trial.room.mkdir()
    os.symlink(room / "programs", trial.room / "programs")
    run_cases([it for it in programs.CASES if it.name == name], trial)
    return None if trial.reports else f"it is not found by {name}"


class Quiet(programs.Trial):
    """A trial that says nothing, and counts what a sanitizer reports."""

    reports = 0

    def check(self, holds: bool, fault: str) -> bool:
        self.checks += 1
        self.faults += [] if holds else [fault]
        return holds

    def launch(self, *words: str, folder: pathlib.Path, given: bytes | None = None,
               variables: dict[str, str] | None = None) -> programs.Ran:
        ran = super().launch(*words, folder=folder, given=given, variables=variables)
        self.reports += REPORT.encode() in ran.err
        return ran


class Seen(Quiet):
    """A trial that shows what a sanitizer reports."""

    def launch(self, *words: str, folder: pathlib.Path, given: bytes | None = None,
               variables: dict[str, str] | None = None) -> programs.Ran:
        ran = super().launch(*words, folder=folder, given=given, variables=variables)
        if REPORT.encode() in ran.err:
            print(ran.err.decode(errors="replace")[-3000:], flush=True)
        return ran

    def check(self, holds: bool, fault: str) -> bool:
        return programs.Trial.check(self, holds, fault)


def all_of(names: list[str], library: pathlib.Path, room: pathlib.Path, show: Callable[[str], None]) -> int:
    """How many faults there are."""
    objects = (library / "objects").resolve()
    if not has_sanitizer(room):
        show("sanitized: the compiler has no AddressSanitizer: nothing was looked at")
        return 1
    programs.compile_tests(room / "programs", *FLAGS.split())
    said = make(room / "made", objects, None)
    if said:
        show(said)
        return 1
    cases, faults = own_cases(names), 0
    trial = Seen(room / "made/out", room, more={"ASAN_OPTIONS": "detect_leaks=0"})
    run_cases(cases, trial)
    faults += len(trial.faults) + trial.reports
    show(f"AddressSanitizer: {len(cases)} cases, {trial.checks} checks, {len(trial.faults)} failed, "
         f"{trial.reports} reports")
    for what in [] if names else PLANTED:
        wrong = plant(what, room, objects)
        faults += wrong is not None
        show(f"planted: {what}: {wrong or 'found'}")
    show(f"left out: {', '.join(f'{it} ({why})' for it, why in LEFT_OUT.items())}")
    return faults
