"""Has each script meet each cause that it may fail for: a closed stream, a folder, a file that is missing or locked, a full disk, and Ctrl-C.

    tools/run causes

A script's status is the one that is documented, and if it is not 0 it says why in lines of its own, none of which is Python's. The programs
run from where ./install puts them, and the tools from a copy of their folder. As root the files that may not be read are tried as another user.
"""

import os
import shutil
import signal
import subprocess
import time
from collections.abc import Iterator, Sequence
from dataclasses import dataclass, field
from pathlib import Path
from typing import Any

from apei import TOP
from apei.harness import Tally, scratch, script
from apei.scripts import write

# What Python says where nobody has met an error.
PYTHON = "Traceback", "Fatal Python error", "Exception ignored", "Error:"
# Which streams are closed, a folder, or full, in the order of the statuses below.
STREAMS = "input closed", "output closed", "error closed", "all closed", "input a folder", "output full", "error full"
# What all scripts have in common that write and read nothing, that read, and that refuse their words.
WRITES = 0, 4, 0, 4, 0, 4, 0
READS = 3, 4, 0, 3, 3, 4, 0
ONE = 1, 1, 1, 1, 1, 1, 1
NOBODY = 65534
STRACE = shutil.which("strace") is not None and not subprocess.run(["strace", "-qq", "-o", os.devnull, "true"], check=False).returncode


@dataclass(frozen=True)
class Meets:
    """Some words of a script with their input, and the statuses that they end with: by streams, and with each file in the place of FILE."""

    words: str
    given: bytes = b""
    streams: tuple[int, ...] = ()
    # With a file that is missing, one that is a folder, one that may not be read.
    files: tuple[int, ...] = ()
    needs_strace: bool = False
    # What is set for the run.
    settings: dict[str, Any] = field(default_factory=dict)

    def with_file(self, name: str) -> list[str]:
        return self.words.replace("FILE", name).split(" ")


COUNT = b"count\n"
# A file that is there for each script that takes one.
WELL = {"apei": "flash", "apei-look": "flash", "apei-show": "record", "sweep": "script", "explore": "script", "cut": "script"}
KNOWN = [
    Meets("apei sim", COUNT, READS),
    Meets("apei check", b"erst 00\n", READS),
    Meets("apei hub", b"heard 0\n", READS),
    Meets("apei play --image=FILE", COUNT, READS, (0, 5, 5)),
    Meets("apei gen --count=1", b"", WRITES),
    Meets("apei --help", b"", WRITES),
    Meets("apei --version", b"", WRITES),
    Meets("apei simulate", b"", ONE),
    Meets("apei-look FILE", b"", WRITES, (5, 5, 5)),
    Meets("apei-look --help", b"", WRITES),
    Meets("apei-show FILE", b"", WRITES, (5, 5, 5)),
    Meets("apei-show packed", b"", WRITES),
    Meets("apei-show --json packed FILE", b"", WRITES, (5, 5, 5)),
    Meets("apei-show --pci-ids=FILE record", b"", WRITES, (5, 5, 5)),
    Meets("apei-show -", b"", (5, 4, 0, 5, 5, 4, 0)),
    Meets("apei-show - packed", b"", (5, 4, 0, 4, 5, 4, 0)),
    Meets("apei-show --here", b"", WRITES),
    Meets("apei-show --here --json --keep=FILE", b"", (), (0, 0, 5)),
    Meets("apei-show --here --keep=kept", b"", WRITES),
    Meets("apei-show --here --keep=watched --since-last", b"", (10, 0, 0, 0, 0, 0, 0)),
    Meets("apei-show --here --keep=record/x", b"", (5, 4, 5, 4, 5, 4, 5)),
    Meets("apei-show --here --since-last", b"", ONE),
    Meets("apei-show --help", b"", WRITES),
    Meets("sweep FILE", b"", WRITES, (3, 3, 3)),
    Meets("sweep -", COUNT, READS),
    Meets("sweep --help", b"", WRITES),
    Meets("sweep", b"", (2,) * 7),
    Meets("cut --help", b"", WRITES),
    Meets("cut --at=0 --image=new script", b"", WRITES, needs_strace=True),
    Meets("cut --at=0 --image=new FILE", b"", (), (3, 3, 3)),
    Meets("cut --at=99 --image=new script", b"", ONE, needs_strace=True),
    Meets("explore FILE", b"", WRITES, (3, 3, 3), needs_strace=True),
    Meets("explore -", COUNT, READS, needs_strace=True),
    Meets("explore --help", b"", WRITES),
    Meets("build", b"", (70,) * 7),
    Meets("release", b"", (2,) * 7),
    Meets("release --help", b"", WRITES),
    Meets("install", b"", (2,) * 7),
    Meets("install --what", b"", WRITES),
    Meets("install --prefix=script/x --without-library", b"", (5,) * 7),
    Meets("install --prefix=made --without-library --library=none", b"", (2,) * 7),
    Meets("libapei --help", b"", WRITES),
    Meets("libapei --none", b"", (2,) * 7),
    Meets("libapei", b"", (69,) * 7),
    Meets("run", b"", WRITES),
    Meets("run none", b"", (2,) * 7),
]
# Images that can't be written: a folder, one in a folder that is missing or locked.
IMAGES = "folder", "none/x", "closed/x"


def closed(*numbers: int) -> Any:
    def close() -> None:
        for number in numbers:
            os.close(number)

    return close


class Causes(Tally):
    """The scripts in a folder with the files that they are tried on."""

    def __init__(self, folder: Path) -> None:
        super().__init__("cases")
        folder.chmod(0o755)
        self.folder, self.work = folder, folder / "work"
        subprocess.run([TOP / "install", f"--prefix={folder}", "--without-library"], check=True, stdout=subprocess.DEVNULL)
        shutil.copytree(TOP / "tools", folder / "tools", ignore=shutil.ignore_patterns("__pycache__"))
        self.work.mkdir()
        self.work.chmod(0o777)
        (self.work / "folder").mkdir()
        (self.work / "script").write_bytes(script([write(1, 128)]))
        (self.work / "record").write_bytes(bytes.fromhex(write(1, 128).split()[1]))
        (self.work / "packed").write_bytes((TOP / "tests/records/packed-kernel-log.bin").read_bytes())
        log = self.work / "machine/sys/fs/pstore/dmesg-erst-1"
        log.parent.mkdir(parents=True)
        log.write_bytes(b"Panic#1 Part1\n")
        for name in ("locked", "flash"):
            (self.work / name).write_bytes(b"")
        (self.work / "flash").unlink()
        subprocess.run([folder / "bin/apei", "play", "--image=flash"], cwd=self.work, input=b"", check=True)
        (self.work / "locked").chmod(0)
        (self.work / "closed").mkdir()
        (self.work / "closed").chmod(0o500)

    def command(self, words: list[str]) -> list[str | Path]:
        """A script by its path, the tools with the programs that they play."""
        name, *rest = words
        program = self.folder / "lib/apei/crates/apei/out/apei"
        look = self.folder / "lib/apei/crates/apei_look/out/apei_look"
        played: list[str | Path] = [f"--program={program}"] if name in ("sweep", "cut", "explore") else []
        if name == "explore":
            played.append(f"--look={look}")
        place = TOP / "tools" if name in ("run", "release") else TOP if name in ("install", "libapei") else self.folder / ("bin" if "apei" in name else "tools")
        return [place / name, *played, *rest]

    def run(self, words: list[str], given: bytes = b"", before: Sequence[str] = (), **settings: Any) -> subprocess.CompletedProcess[bytes]:
        """A run, by the words of another command before it if there are some."""
        (self.work / "new").unlink(missing_ok=True)
        streams: dict[str, Any] = {"input": given, "stdout": subprocess.PIPE, "stderr": subprocess.PIPE, "timeout": 60, **settings}
        if "stdin" in streams:
            del streams["input"]
        # The toolchain is not found there, and what this machine has is in a folder.
        path = {**os.environ, "PATH": "/usr/bin:/bin", "APEI_ROOT": str(self.work / "machine")}
        return subprocess.run([*before, *self.command(words)], cwd=self.work, check=False, env=path, **streams)

    def expect_end(self, words: list[str], cause: str, status: int, done: subprocess.CompletedProcess[bytes], heard: bool = True) -> None:
        """A case: the status, and what is said."""
        said = (done.stderr or b"").decode(errors="replace")
        name = "apei" if words[0] == "build" else words[0]
        own = all(line.startswith((f"{name}: ", "usage: ", " ", f"apei-{name}: ", f"tools/{name}: ", f"./{name}: ")) for line in said.splitlines())
        is_said = not heard or (bool(said) or status == 0) and own and not any(it in said for it in PYTHON)
        self.expect(done.returncode == status and is_said, f"{' '.join(words)}, {cause}: wanted {status}, found {done.returncode}, {said}")


def cases() -> Iterator[Meets]:
    for it in KNOWN:
        if STRACE or not it.needs_strace:
            yield it


def streams(causes: Causes) -> None:
    for it in cases():
        words = it.with_file(WELL.get(it.words.split()[0], "none"))
        with open(os.devnull) as empty, open("/dev/full", "wb") as full:
            folder = os.open(causes.folder, os.O_RDONLY)
            settings: list[dict[str, Any]] = [
                {"stdin": empty, "preexec_fn": closed(0)},
                {"preexec_fn": closed(1)},
                {"preexec_fn": closed(2)},
                {"stdin": empty, "preexec_fn": closed(0, 1, 2)},
                {"stdin": folder},
                {"stdout": full},
                {"stderr": full},
            ]
            for cause, status, setting in zip(STREAMS, it.streams, settings):
                done = causes.run(words, it.given, **setting)
                causes.expect_end(words, cause, status, done, heard=cause not in ("error closed", "all closed", "error full"))
            os.close(folder)


def as_another() -> dict[str, Any]:
    """As whom a file is tried that may not be read: root may read all."""
    return {"user": NOBODY, "group": NOBODY, "extra_groups": []} if os.geteuid() == 0 else {}


def files(causes: Causes) -> None:
    for it in cases():
        for name, status in zip(("none", "folder", "locked"), it.files):
            words = it.with_file(name)
            done = causes.run(words, it.given, **(as_another() if name == "locked" else {}))
            causes.expect_end(words, f"{name} for a file", status, done)
            if it.words.startswith("apei play"):
                (causes.work / "none").unlink(missing_ok=True)
            if it.words.endswith("--keep=FILE"):
                shutil.rmtree(causes.work / "none", ignore_errors=True)


# A disk of sixteen pages that is full after as many, seen by one run alone.
FULL = ["unshare", "--mount", "sh", "-c", 'mount -t tmpfs -o size=64k none folder && exec "$@"', "sh"]
HAS_FULL = not subprocess.run([*FULL[:4], "mount -t tmpfs -o size=64k none /tmp", "sh"], capture_output=True, check=False).returncode


def images(causes: Causes) -> None:
    """Files that can't be written."""
    for image in IMAGES:
        for words, status in ((f"apei play --image={image}", 5), (f"cut --at=0 --image={image} script", 5)):
            if STRACE or not words.startswith("cut"):
                done = causes.run(words.split(" "), **as_another())
                causes.expect_end(words.split(" "), "an image that can't be made", status, done)
    for text in ("apei play --image=folder/x", "cut --at=0 --image=folder/x script"):
        if HAS_FULL and (STRACE or not text.startswith("cut")):
            done = causes.run(text.split(" "), before=FULL)
            causes.expect_end(text.split(" "), "a disk that is full", 5, done)


# How long a script runs before Ctrl-C comes, in seconds; after the last time it has surely begun to work.
WAITS = 0.02, 0.05, 0.1, 0.2, 2.5
# A program that takes long.
SLOW = "#!/bin/sh\nexec sleep 30\n"


def interrupted(causes: Causes) -> None:
    """Ctrl-C goes to all processes of a terminal's job, as it does here, at once and once the script runs."""
    slow = causes.work / "slow"
    slow.write_text(SLOW)
    slow.chmod(0o755)
    held = ["apei sim", "apei play --image=flash", "apei check", "apei hub", "apei-show -", "sweep -"]
    played = [f"{name} --program={slow} script" for name in ("sweep", "explore", "cut --at=0 --image=new") if STRACE or name == "sweep"]
    for words in [*held, *played]:
        for wait in WAITS:
            done = interrupt(causes, words.split(" "), wait)
            causes.expect_end(words.split(" "), f"Ctrl-C after {wait} s", -signal.SIGINT, done, heard=wait == WAITS[-1])
            said = (done.stderr or b"").decode(errors="replace")
            causes.expect(not any(it in said for it in PYTHON), f"{words}, Ctrl-C after {wait} s: {said}")


def interrupt(causes: Causes, words: list[str], wait: float) -> subprocess.CompletedProcess[bytes]:
    command = causes.command(words)
    settings: dict[str, Any] = {"stdin": subprocess.PIPE, "stdout": subprocess.PIPE, "stderr": subprocess.PIPE, "cwd": causes.work}
    started = subprocess.Popen(command, start_new_session=True, preexec_fn=heed_ctrl_c, **settings)
    time.sleep(wait)
    os.killpg(started.pid, signal.SIGINT)
    # The input stays open meanwhile, as a terminal does.
    assert started.stdin and started.stdout and started.stderr
    status = started.wait(60)
    written, said = started.stdout.read(), started.stderr.read()
    for stream in (started.stdin, started.stdout, started.stderr):
        stream.close()
    return subprocess.CompletedProcess(command, status, written, said)


def heed_ctrl_c() -> None:
    signal.signal(signal.SIGINT, signal.SIG_DFL)


def main(_words: list[str]) -> int:
    with scratch() as folder:
        causes = Causes(folder)
        streams(causes)
        files(causes)
        images(causes)
        interrupted(causes)
        if not HAS_FULL:
            print("causes: no image was put on a full disk, since none can be mounted here")
        if not STRACE:
            print("causes: cut and explore were not tried whole, since there is no strace here (a Debian package), or it may not trace")
        return causes.end()
