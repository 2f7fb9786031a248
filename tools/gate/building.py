"""Builds crates from nothing by tools/build, as the first start of ./apei does, and compares what it says and what it leaves.

    tools/run building [--stand-in]

The crates are three small ones, made here: a library, a library over it, and a program over both. A crate that was built is not proved again,
neither by tools/build nor by the toolchain. One that changed is, with those above it. One that is not proved ends the build, and is named.

Then builds by a stand-in for the toolchain, which proves nothing and takes its time: a second build says that it waits, for whom and how long;
a build that takes long says how far it is, one with too little memory or disk says so first, and Ctrl-C ends it. The times that are told are
compared with some by hand. With --stand-in that is all that is tried.
"""

import os
import re
import shutil
import signal
import subprocess
from pathlib import Path

from apei import TOP
from apei.harness import Ended, Program, Tally, scratch
from apei.pace import Pace

CRATES = "# Each crate, and what it stands on.\nlow:\nhigh: low\nlast: low high\n"
LOW = """//! Half of a number.
#![tactic(auto)]
ghost use Rattle.std.specs.Prelude.{◌≡◌, ◌/◌};

/// Half of a number, rounded down.
pub fn half(number: u64) -> u64
    ensures { result ≡ number / 2 }
{
    number / 2
}
"""
HIGH = """//! A quarter of a number.
#![tactic(auto)]
ghost use Rattle.std.specs.Prelude.{◌≡◌, ◌/◌};

use low::half;

/// A quarter of a number, rounded down twice.
pub fn quarter(number: u64) -> u64
    ensures { result ≡ number / 2 / 2 }
{
    half(half(number))
}
"""
LAST = """//! Ends with a quarter of eight as its status.
#![tactic(auto)]

use high::quarter;
use std::process::ExitCode;

fn main() -> ExitCode {
    ExitCode::from((quarter(8) % 256) as u8)
}
"""


class Builds(Tally):
    """Builds of the three crates in a repository of their own."""

    def __init__(self, folder: Path) -> None:
        super().__init__("builds")
        self.folder = folder
        (folder / ".git").mkdir()
        (folder / "crates.txt").write_text(CRATES)
        (folder / "tools").mkdir()
        for name in ("build", "build.py", "first", "python", "start.py", "streams.py"):
            shutil.copy2(TOP / "tools" / name, folder / "tools")
        shutil.copytree(TOP / "tools" / "apei", folder / "tools" / "apei", ignore=shutil.ignore_patterns("__pycache__"))
        # The toolchain, or what stands in for it.
        self.path = os.environ["PATH"]
        for name, text in (("low/src/lib.rt", LOW), ("high/src/lib.rt", HIGH), ("last/src/main.rt", LAST)):
            self.write(name, text)

    def write(self, name: str, text: str) -> None:
        path = self.folder / "crates" / name
        path.parent.mkdir(parents=True, exist_ok=True)
        path.write_text(text)

    def build(self, crate: str) -> Ended:
        return Program(self.folder / "tools" / "build").run(crate, cwd=self.folder, env=self.environment)

    @property
    def environment(self) -> dict[str, str]:
        return {**os.environ, "PATH": self.path}

    def expect_proved(self, names: list[str], what: str) -> None:
        """Builds the program, expects that these crates are proved for it, and runs it."""
        done = self.build("last")
        proving, built = (re.findall(rf"^apei: {verb} (\w+) ", done.said, re.MULTILINE) for verb in ("proving", "built"))
        program = Program(self.folder / "crates/last/out/last")
        status = program.run().status if program.path.exists() else None
        self.expect((done.status, proving, built, status) == (0, names, names, 2), f"{what}: the program ends with {status}, {done}")


def taken(builds: Builds) -> None:
    """The toolchain takes a library as tools/build left it."""
    folder = builds.folder / "crates/high"
    kept = folder / "out/rlib/high.rlib/format"
    before = kept.stat()
    done = subprocess.run(["rt", "lib"], cwd=folder, capture_output=True, text=True, check=False)
    builds.expect(done.returncode == 0 and kept.stat().st_mtime_ns == before.st_mtime_ns, f"rt lib builds a built library anew: {done}")


def refused(builds: Builds) -> None:
    builds.write("low/src/lib.rt", LOW.replace("    number / 2\n", "    number / 3\n"))
    done = builds.build("last")
    builds.expect(done.status == 70 and "\napei: not built: low is not proved; " in done.said, f"a wrong body: {done}")
    builds.expect("proving high" not in done.said, f"a crate is begun over one that is not proved: {done}")


# What stands in for the toolchain: it takes two seconds for a library, and for a program none.
STAND_IN = """#!/bin/sh
name=$(basename "$PWD")
case $1 in
version) echo a stand-in ;;
lib) sleep 2; mkdir -p out/rlib; echo >"out/rlib/$name.rlib" ;;
run) mkdir -p out; printf '#!/bin/sh\\nexit 2\\n' >"out/$name"; chmod +x "out/$name" ;;
esac
"""


class Stand(Builds):
    """Builds of the three crates by a stand-in for the toolchain."""

    def __init__(self, folder: Path) -> None:
        super().__init__(folder)
        command = folder / "bin" / "rt"
        command.parent.mkdir()
        command.write_text(STAND_IN)
        command.chmod(0o755)
        self.path = f"{command.parent}:/usr/bin:/bin"

    def change(self, name: str, old: str, new: str) -> None:
        """Changes a constant of the tool."""
        path = self.folder / "tools" / name
        text = path.read_text()
        assert old in text, (name, old)
        path.write_text(text.replace(old, new))

    def start(self) -> "subprocess.Popen[str]":
        """A build that has begun to prove."""
        command: list[str | Path] = [self.folder / "tools" / "build", "last"]
        started = subprocess.Popen(command, cwd=self.folder, env=self.environment, stderr=subprocess.PIPE, text=True, preexec_fn=heed_all)
        assert started.stderr
        for line in started.stderr:
            if line.startswith("apei: proving"):
                break
        return started


# What tells a build to end. Where this tool runs in the background, or by nohup, some are ignored.
ENDS = signal.SIGINT, signal.SIGTERM, signal.SIGHUP


def heed_all() -> None:
    for number in ENDS:
        signal.signal(number, signal.SIG_DFL)


def waits(stand: Stand) -> None:
    """A second build waits for the first one, and says so."""
    first = stand.start()
    done = stand.build("last")
    _, said = first.communicate()
    wanted = rf"apei: waiting for the build of last by process {first.pid}: 0 of 3 crates are built, about \d+ minutes? left\n"
    stand.expect(first.returncode == 0 and "built last (3 of 3)" in said, f"the first build: {first.returncode}, {said}")
    stand.expect(done.status == 0 and re.fullmatch(wanted, done.said) is not None, f"the second build: {done}")


def tells(stand: Stand) -> None:
    """A build says what it has too little of, and how far it is where it says nothing else."""
    stand.change("build.py", "SAYS_EVERY = 60.0", "SAYS_EVERY = 0.5")
    stand.change("apei/machine.py", "MEMORY, DISK = 8 << 30, 6 << 30", "MEMORY, DISK = 8 << 60, 6 << 60")
    stand.write("low/src/lib.rt", LOW + "// It has no other use.\n")
    done = stand.build("last")
    lines = done.said.splitlines()
    stand.expect(re.search(r"^apei: [\d.]+ GB of memory are free, and a build wants 8589934592.0 GB: it may end for want of it$", lines[0]) is not None,
                 f"too little memory: {done}")
    stand.expect(re.search(r"^apei: [\d.]+ GB of disk are free in /.*, and a build wants 6442450944.0 GB: it may", lines[1]) is not None,
                 f"too little of a disk: {done}")
    stand.expect(any(" not built yet: 3 crates are proved first, " in it for it in lines[2:4]), f"what is said first: {done}")
    passed = [it for it in lines if re.fullmatch(r"apei: 1 minute passed: \d of 3 crates are built, about \d+ minutes? left", it)]
    stand.expect(done.status == 0 and len(passed) >= 2, f"a build that takes long: {done}")


def ends(stand: Stand) -> None:
    """A build that is told to end ends, and the next one goes on."""
    for number in ENDS:
        stand.write("low/src/lib.rt", LOW + f"// {number}\n")
        started = stand.start()
        started.send_signal(number)
        _, said = started.communicate()
        wanted = said.endswith("apei: interrupted; the next start goes on from here\n") and "Traceback" not in said
        stand.expect(started.returncode == 130 and wanted, f"a build that is told to end: {started.returncode}, {said}")
    stand.expect(stand.build("last").status == 0, "an interrupted build does not go on")


# The least and the most minutes and how many times as many it is beside other work; what is said first.
TOLD = [
    ((1.2, 3.7, 1.0), "about 2 to 4 minutes"),
    ((0.2, 0.2, 1.0), "about 1 minute"),
    ((1.2, 3.7, 1.4), "about 2 to 6 minutes"),
    ((1.2, 3.7, 4.0), "about 5 to 15 minutes, since other work takes a part of the processors"),
]
# Of a build of 2 to 4 minutes: the part that is proved, the minutes that passed, those left, and whether that is more than was told.
LEFT = [
    (0.0, 0.0, 4, False), (0.0, 1.5, 3, False), (0.05, 3.9, 1, False), (0.05, 5.0, 5, True), (0.0, 17.0, 17, True),
    (0.1, 1.0, 9, False), (0.5, 8.5, 9, True), (0.9, 17.0, 2, True), (1.0, 3.0, None, False),
]


def times(builds: Builds) -> None:
    """The times that are told, and how they are corrected by what has passed."""
    for given, words in TOLD:
        builds.expect(Pace(*given).told() == words, f"{given}: {Pace(*given).told()}")
    pace = Pace(2.0, 4.0, 1.0)
    for part, passed, left, late in LEFT:
        found = pace.left(part, passed), pace.is_late(passed)
        builds.expect(found == (left, late), f"{part} proved after {passed} minutes: {found}")


def stand_in(folder: Path) -> Stand:
    stand = Stand(folder)
    waits(stand)
    tells(stand)
    ends(stand)
    times(stand)
    return stand


def main(words: list[str]) -> int:
    with scratch() as folder, scratch() as other:
        stand = stand_in(other)
        if words == ["--stand-in"]:
            return stand.end()
        builds = Builds(folder)
        builds.expect_proved(["low", "high", "last"], "from nothing")
        builds.expect_proved([], "again")
        taken(builds)
        builds.write("high/src/lib.rt", HIGH + "// It has no other use.\n")
        builds.expect_proved(["high", "last"], "after a change")
        refused(builds)
        builds.write("low/src/lib.rt", LOW)
        builds.expect(builds.build("last").status == 0, "it is not built once the body is right again")
        builds.cases, builds.wrong = builds.cases + stand.cases, builds.wrong + stand.wrong
        return builds.end()
