"""A script that is played, and each flash change that it makes: what tools/cut, tools/sweep and tools/explore have in common.

The changes are those of `play` on an erased file, as strace, a Debian package, sees them written: so any script of a user's has them,
whatever lines are in it, and no model stands in between.
"""

import argparse
import re
import shutil
import subprocess
from dataclasses import dataclass
from pathlib import Path

from apei import TOP
from apei.flash import Geometry, torn
from apei.harness import Ended, Program, image_file, scratch
from streams import Failed, input_of

# The status if strace is missing, or sees too little.
NO_STRACE = 69
PWRITE = re.compile(r'pwrite64\(\d+, "((?:\\x[0-9a-f]{2})*)"(\.\.\.)?, (\d+), (\d+)\) += (-?\d+)')


@dataclass(frozen=True)
class Change:
    """One change of a flash: the bytes that come to stand from a place on."""

    at: int
    data: bytes

    def is_erase(self, geometry: Geometry) -> bool:
        return len(self.data) == geometry.sector and self.at % geometry.sector == 0 and self.data.count(0xFF) == len(self.data)

    def made(self, image: bytes) -> bytes:
        return image[: self.at] + self.data + image[self.at + len(self.data) :]

    def torn(self, image: bytes, tear: int) -> bytes:
        """What is left if power is lost within the change, or it fails, by the number of --torn."""
        end = self.at + len(self.data)
        return image[: self.at] + torn(image[self.at : end], self.data, tear) + image[end:]


@dataclass(frozen=True)
class Job:
    """The program, a script, and the options that it is played by."""

    program: Program
    script: bytes
    geometry: Geometry
    steps: int | None = None

    @property
    def words(self) -> list[str]:
        return self.geometry.words + ([] if self.steps is None else [f"--steps={self.steps}"])

    def sim(self, *words: str, behind: bytes = b"") -> Ended:
        script = self.script if not behind else self.script.rstrip(b"\n") + b"\n" + behind
        return self.program.run("sim", *self.words, *words, given=script)

    def play(self, image: bytes, script: bytes) -> tuple[str, bytes]:
        """The replies to a script over an image, and the image that is left."""
        with image_file(image) as path:
            done = self.program.run("play", f"--image={path}", *self.words, given=script)
            if done.status:
                raise Failed(1, f"{done.said.strip()}, status {done.status}")
            return done.text, path.read_bytes()


def options(parser: argparse.ArgumentParser) -> None:
    """The options that these tools share."""
    parser.add_argument("script", help="the file of a script, or - for standard input")
    parser.add_argument("--sector", type=int, default=4096, help="the bytes of a sector (4096)")
    parser.add_argument("--per-slot", type=int, default=2, help="the sectors of a slot (2)")
    parser.add_argument("--slots", type=int, default=32, help="the slots (32)")
    parser.add_argument("--steps", type=int, help="the steps that each line is given")
    parser.add_argument("--program", type=Path, help="the built program (crates/apei/out/apei)")


def built(name: str) -> Program:
    """A program of this repository, which is built if it has to be."""
    if subprocess.run([TOP / "tools" / "launch", "--build", name], check=False).returncode:
        raise SystemExit(70)
    return Program.of(name.replace("-", "_"))


def job_of(given: argparse.Namespace) -> Job:
    script = input_of(given.script)
    geometry = Geometry(given.sector, given.per_slot, given.slots)
    return Job(Program(given.program.resolve()) if given.program else built("apei"), script, geometry, given.steps)


def changes(job: Job) -> tuple[str, list[Change]]:
    """The replies of `play` over an erased flash, and each change that it makes."""
    if not shutil.which("strace"):
        raise Failed(NO_STRACE, "the changes of a script are seen by strace, which is not on this machine (Debian's package strace)")
    with scratch() as folder:
        image, log = folder / "image", folder / "log"
        image.write_bytes(job.geometry.erased)
        trace = ["strace", "-f", "-qq", "-xx", "-s", "100000", "-o", str(log), "-e", "trace=pwrite64"]
        done = job.program.run("play", f"--image={image}", *job.words, given=job.script, before=trace)
        if done.status:
            raise Failed(1, f"{done.said.strip()}: the script is not played to its end, status {done.status}")
        made = [change_of(line) for line in log.read_text().splitlines() if "pwrite64" in line]
        if images(job.geometry, made)[-1] != image.read_bytes():
            raise Failed(NO_STRACE, "strace has not seen all changes")
    return done.text, made


def change_of(line: str) -> Change:
    found = PWRITE.search(line)
    if not found or found[2] or found[3] != found[5]:
        raise Failed(NO_STRACE, f"strace has not seen a whole change: {line[:80]}")
    return Change(int(found[4]), bytes.fromhex(found[1].replace("\\x", "")))


def images(geometry: Geometry, made: list[Change]) -> list[bytes]:
    """The image before each change, and the one after the last."""
    image, out = geometry.erased, []
    for change in made:
        out.append(image)
        image = change.made(image)
    return [*out, image]


def steps_of(replies: str) -> list[tuple[str, int]]:
    """Each reply with the number of changes after its @."""
    return [(words, int(step)) for words, _, step in (line.rpartition(" @") for line in replies.splitlines())]


@dataclass(frozen=True)
class Answered:
    """A line of a script by its number, with its replies, of which the last one is its own, and the changes that were made by then."""

    number: int
    line: str
    said: list[str]
    step: int

    @property
    def reply(self) -> str:
        return self.said[-1]


def answered(script: bytes, replies: str) -> list[Answered]:
    """The lines that have replies; those on blocks come before the one that ends a line."""
    out, given = [], iter(steps_of(replies))
    for number, line in enumerate(script.decode("latin-1").split("\n")):
        if not line or line.startswith("#"):
            continue
        said: list[str] = []
        for words, step in given:
            said.append(words)
            if not (words.startswith("block ") and line.split()[0] in ("turns", "bert")):
                out.append(Answered(number, line, said, step))
                break
    return out
