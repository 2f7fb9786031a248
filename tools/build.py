"""Proves and builds programs: `tools/build` [crate ..], the crate `apei` where none is named.

A crate is proved once those are that it stands on, and crates that don't stand on one another are proved side by side, as many as there are
processors, and memory for them. One process proves a crate. Two prove the one that all else waits for, or as many as there are processors
where no other crate can begin.

The toolchain locks each folder that a proof reads, so each crate is proved in a room of its own: a folder with copies of its sources and of
those of the crates below it, and with what these were built to. What was built is put into the crates' folders `out`, so a build that was
interrupted begins with the crates that it had not ended. A crate that is built for the first time is proved by tools/first, which keeps no
proofs, and one that has changed since by `rt lib` or `rt run`. On standard error it says what it begins, what is built, and how long is left
by the minutes that it took so far. Where a crate is not proved it says which, with the last lines that were said of it, and ends with status
70 once those end that are being proved beside it.

A crate that was built of the same sources by the same toolchain is not proved again: a file `built` in its folder `out` says of what. Before
the first of several crates is begun it says how long they take, about.
"""
import fcntl
import hashlib
import math
import os
import pathlib
import shutil
import signal
import subprocess
import sys
import tempfile
import threading
import time
from collections.abc import Iterable
from types import FrameType
from typing import Optional

import streams
from apei import TOP, machine, turns
from apei.crates import Depends, below, depends
from apei.pace import Pace, beside_others, in_minutes
from streams import Failed

# What a proof may take at its most, in bytes.
ROOM = 4 << 30
# How much of what was said of a crate that is not proved is shown, in lines.
SHOWN = 40
# How many lines are proved in a minute, on a slow machine and on a quick one with four processors, and what a crate takes at least, in
# minutes. Lines of code count, and an eighth of those in specs and proofs: this fits the times best.
LINES_A_MINUTE = 1_400, 3_200
LEAST = 0.2
# How often a build says how far it is where it has said nothing else, in seconds.
SAYS_EVERY = 60.0
# The parts of a crate that its proof reads.
PARTS = "src", "specs", "proofs"
ENDING = signal.SIGINT, signal.SIGTERM, signal.SIGHUP
# The status where a crate is not proved, or there is no toolchain.
NOT_BUILT = 70


def say(text: str) -> None:
    streams.say("apei", text)


def sources(crate: str) -> list[pathlib.Path]:
    """The files that the proof of a crate reads of it, in order."""
    return sorted(it for kind in ("*.rt", "*.antt") for part in PARTS for it in (TOP / "crates" / crate / part).rglob(kind))


def line_count(crate: str) -> float:
    """The lines of a crate by which the time for its proof is told."""
    code = TOP / "crates" / crate / "src"
    return sum(len(it.read_bytes().splitlines()) * (1 if it.is_relative_to(code) else 1 / 8) for it in sources(crate))


def built_of(crate: str, of: Depends, toolchain: str) -> str:
    """What a crate is built of: the toolchain, its sources and those of the crates below it, and what was made of them."""
    said = hashlib.sha256(toolchain.encode())
    for name in sorted(below(crate, of)):
        said.update(f"{name}: {' '.join(of[name])}\n".encode())
        for it in sources(name):
            said.update(f"{it.relative_to(TOP)} {it.stat().st_size}\n".encode() + it.read_bytes())
    made = TOP / "crates" / crate / "out"
    for it in sorted((made / "rlib").rglob("*")) if (made / "rlib").exists() else [made / crate]:
        if it.is_file() and it != mark(crate):
            said.update(f"{it.relative_to(TOP)} {it.stat().st_size} {it.stat().st_mtime_ns}\n".encode())
    return said.hexdigest()


def mark(crate: str) -> pathlib.Path:
    """The file that says of what a crate was built, beside what was built: `rt ci` puts both back."""
    made = TOP / "crates" / crate / "out"
    return (made / "rlib" if (made / "rlib").exists() else made) / "built"


def is_built(crate: str, of: Depends, toolchain: str) -> bool:
    return mark(crate).exists() and mark(crate).read_text() == built_of(crate, of, toolchain)


def pace_of(names: set[str], of: Depends) -> Pace:
    """How long a proof of these crates takes, about."""
    lines = sum(map(line_count, names))
    chain = max((sum(it in names for it in below(name, of)) for name in names), default=0)
    several = 4 / side_by_side()
    slow, quick = LINES_A_MINUTE
    least, most = (max(lines / rate * several, LEAST * chain) for rate in (quick, slow))
    return Pace(least, most, beside_others())


def chains(names: Iterable[str], of: Depends) -> dict[str, float]:
    """For each crate the lines of the longest chain of crates that begins with it and ends at the last one."""
    lines = {it: line_count(it) for it in names}
    above = {it: [other for other in names if it in of[other]] for it in names}
    longest: dict[str, float] = {}

    def chain(name: str) -> float:
        if name not in longest:
            longest[name] = lines[name] + max((chain(it) for it in above[name]), default=0)
        return longest[name]

    return {it: chain(it) for it in names}


def side_by_side() -> int:
    """How many proofs may run at once: as many as there are processors, and memory that the system can give."""
    return max(1, min(len(os.sched_getaffinity(0)), machine.free_memory() // ROOM))


def link(old: str, new: str) -> None:
    """A file under a second name, or a copy of it where the two folders lie on different disks."""
    try:
        os.link(old, new)
    except OSError:
        shutil.copy2(old, new)


def furnish(room: pathlib.Path, name: str, of: Depends) -> None:
    """Puts into the room what a proof of the crate reads, and what an earlier one left of its work."""
    under = below(name, of)
    (room / ".git").mkdir(parents=True)
    lines = (TOP / "crates.txt").read_text().splitlines(True)
    (room / "crates.txt").write_text("".join(it for it in lines if it.partition(":")[0].split()[:1] in [[one] for one in under]))
    for crate in under:
        for part in PARTS:
            if (TOP / "crates" / crate / part).exists():
                shutil.copytree(TOP / "crates" / crate / part, room / "crates" / crate / part)
        kept = TOP / "crates" / crate / "out"
        for part in ("rlib", "incremental") if crate == name else ("rlib",):
            if (kept / part).exists():
                shutil.copytree(kept / part, room / "crates" / crate / "out" / part, copy_function=link)


def put_back(room: pathlib.Path, name: str) -> None:
    """Puts what the proof left into the crate's own folder; whoever proves it there meanwhile is waited for."""
    made, crate = room / "crates" / name / "out", TOP / "crates" / name
    if not made.exists():
        return
    folder = os.open(crate, os.O_RDONLY)
    try:
        if not turns.is_taken(folder):
            say(f"waiting for the proof of {name} in its own folder")
            fcntl.flock(folder, fcntl.LOCK_EX)
        shutil.rmtree(crate / "out", ignore_errors=True)
        shutil.move(made, crate / "out")
    finally:
        os.close(folder)


class Build:
    def __init__(self, names: list[str], rooms: str) -> None:
        self.of = depends()
        for name in names:
            if name not in self.of:
                raise Failed(1, f"there is no crate {name}")
        self.rooms = pathlib.Path(rooms)
        self.toolchain = subprocess.run(["rt", "version"], capture_output=True, text=True, check=False).stdout
        self.names = names
        wanted: set[str] = set().union(*(below(name, self.of) for name in names))
        built = {it for it in wanted if is_built(it, self.of, self.toolchain)}
        self.waiting = wanted - built
        self.count = len(self.waiting)
        self.lines = {it: line_count(it) for it in self.waiting}
        self.lines_done, self.crates_done, self.started = 0.0, 0, time.monotonic()
        self.pace = pace_of(self.waiting, self.of)
        self.told, self.is_late = self.started, False
        self.chain = chains(self.waiting, self.of)
        self.workers = side_by_side()
        self.begun, self.done = 0, built
        self.running: dict[str, Optional[subprocess.Popen[str]]] = {}
        # By how many processes each crate is proved that runs.
        self.jobs: dict[str, int] = {}
        # The crate that was not proved, and what was said of it.
        self.failed: Optional[tuple[str, str]] = None
        self.turn = threading.Condition()

    def ready(self) -> list[str]:
        return [it for it in self.waiting if all(under in self.done for under in self.of[it])]

    def choose(self) -> Optional[tuple[str, int]]:
        """The crate whose turn it is, and by how many processes it is proved: of those that can begin the one with most above it.

        None where none can begin. None also where all processors are taken, unless all else waits for the crate."""
        ready = self.ready()
        if not ready:
            return None
        name = max(ready, key=lambda it: (self.chain[it], it))
        if self.chain[name] == max(self.chain[it] for it in (*self.running, *self.waiting)):
            return name, min(self.workers, 2) if len(ready) > 1 else self.workers
        return (name, 1) if sum(self.jobs.values()) < self.workers else None

    def next(self) -> Optional[tuple[str, int]]:
        """Takes the crate whose turn it is, and says by how many processes it is proved; None where all is begun or one failed."""
        with self.turn:
            while self.waiting and not self.failed:
                if taken := self.choose():
                    name, jobs = taken
                    self.waiting.remove(name)
                    self.running[name], self.jobs[name] = None, jobs
                    self.begun += 1
                    say(f"proving {name} ({self.begun} of {self.count})")
                    return name, jobs
                self.turn.wait()
            return None

    def prove(self, name: str, jobs: int) -> tuple[bool, str]:
        folder = TOP / "crates" / name
        is_program = (folder / "src" / "main.rt").exists()
        is_first = not any((folder / "out" / part).exists() for part in ("rlib", "incremental", name))
        # `rt run` also runs the program, here on an empty script.
        again = ["rt", "run", "--jobs", str(jobs), "--", "sim"] if is_program else ["rt", "lib", "--jobs", str(jobs)]
        words = [str(TOP / "tools" / "first"), str(jobs)] if is_first else again
        # No crate stands on a program, so it is proved in its own folder.
        if is_program:
            program = folder / "out" / name
            program.unlink(missing_ok=True)
            _, said = self.call(name, words, folder)
            return program.exists(), said
        room = self.rooms / name
        furnish(room, name, self.of)
        try:
            status, said = self.call(name, words, room / "crates" / name)
        finally:
            put_back(room, name)
            shutil.rmtree(room, ignore_errors=True)
        return status == 0, said

    def call(self, name: str, words: list[str], folder: pathlib.Path) -> tuple[int, str]:
        with self.turn:
            if self.failed:
                return 1, ""
            made = self.running[name] = subprocess.Popen(words, cwd=folder, stdin=subprocess.DEVNULL, stdout=subprocess.PIPE,
                                                         stderr=subprocess.STDOUT, text=True, errors="replace")
        said, _ = made.communicate()
        return made.returncode, said

    def stop(self) -> None:
        """Ends what is being proved; its workers put back what is done."""
        with self.turn:
            self.failed = self.failed or ("", "")
            for made in self.running.values():
                if made:
                    made.terminate()
            self.turn.notify_all()

    def work(self) -> None:
        while taken := self.next():
            name, jobs = taken
            try:
                well, said = self.prove(name, jobs)
                if well:
                    self.keep(name)
            except OSError as error:
                well, said = False, f"apei: {error}"
            with self.turn:
                del self.running[name], self.jobs[name]
                if well:
                    self.done.add(name)
                    self.tell(name)
                elif not self.failed:
                    self.failed = name, said
                self.turn.notify_all()

    def keep(self, name: str) -> None:
        """Notes of what a crate was built."""
        if mark(name).parent.exists():
            mark(name).write_text(built_of(name, self.of, self.toolchain))

    @property
    def part(self) -> float:
        """What part of the lines is proved."""
        return self.lines_done / sum(self.lines.values())

    @property
    def passed(self) -> float:
        """How many minutes have passed."""
        return (time.monotonic() - self.started) / 60

    def left(self) -> str:
        """How long is left, as the end of a sentence; those that wait for this build are told the same."""
        left = self.pace.left(self.part, self.passed)
        turns.Builder(os.getpid(), " and ".join(self.names), self.crates_done, self.count, left, time.time()).note()
        self.told = time.monotonic()
        return f", about {in_minutes(left)} left" if left is not None else ""

    def tell(self, name: str) -> None:
        """Says that a crate is built."""
        self.lines_done += self.lines[name]
        self.crates_done += 1
        say(f"built {name} ({self.crates_done} of {self.count}){self.left()}")

    def tell_time(self) -> None:
        """Says how far the build is, where it has said nothing for long."""
        with self.turn:
            if time.monotonic() < self.told + SAYS_EVERY or not self.waiting and not self.running:
                return
            late = ", which is more than was told" if self.pace.is_late(self.passed) and not self.is_late else ""
            self.is_late = self.is_late or bool(late)
            say(f"{in_minutes(math.ceil(self.passed))} passed{late}: {self.crates_done} of {self.count} crates are built{self.left()}")

    def announce(self) -> None:
        """Says how long the build takes, about, and what the machine has too little of."""
        if self.waiting:
            crates = "1 crate is" if self.count == 1 else f"{self.count} crates are"
            are = "is" if len(self.names) == 1 else "are"
            names, told = " and ".join(self.names), self.pace.told()
            for it in machine.wants():
                say(it)
            say(f"{names} {are} not built yet: {crates} proved first, {self.workers} side by side, in {told}")
            self.left()

    def run(self) -> int:
        self.announce()
        workers = [threading.Thread(target=self.work, daemon=True) for _ in range(self.workers)]
        try:
            for it in workers:
                it.start()
            while any(it.is_alive() for it in workers):
                for it in workers:
                    it.join(SAYS_EVERY / 10)
                self.tell_time()
        except KeyboardInterrupt:
            self.stop()
            for it in workers:
                if it.is_alive():
                    it.join()
            raise
        if not self.failed:
            return 0
        name, said = self.failed
        streams.write_all(2, "".join(f"{it}\n" for it in said.splitlines()[-SHOWN:]).encode())
        raise Failed(NOT_BUILT, f"not built: {name} is not proved; {where_it_is(said)}")


def where_it_is(said: str) -> str:
    """Leaves what was said in a file, where one can be made."""
    try:
        with tempfile.NamedTemporaryFile("w", prefix="apei-", suffix=".log", delete=False) as log:
            log.write(said)
        return f"all that was said of it is in {log.name}"
    except OSError as error:
        return f"all that was said of it is in no file: {error.strerror}"


def interrupt(_number: int, _frame: Optional[FrameType]) -> None:
    """A signal that ends the build ends what is being proved first; more of them say the same."""
    for number in ENDING:
        signal.signal(number, signal.SIG_IGN)
    raise KeyboardInterrupt


def main() -> int:
    for number in ENDING:
        if signal.getsignal(number) != signal.SIG_IGN:
            signal.signal(number, interrupt)
    if not shutil.which("rt"):
        raise Failed(NOT_BUILT, "the program is not built yet, and the command rt of the Rattle toolchain, which builds it, is not on this machine")
    names = sys.argv[1:] or ["apei"]
    # A second build waits, and finds what the first one proved.
    with open(TOP / "crates.txt") as lock, tempfile.TemporaryDirectory(prefix="apei-build-") as rooms:
        try:
            turns.take(lock, say)
            return Build(names, rooms).run()
        except KeyboardInterrupt:
            say("interrupted; the next start goes on from here")
            return 130


def start() -> None:
    streams.end("apei", main)
