"""How a tool runs a program, and how it counts and ends."""

import os
import random
import subprocess
import sys
import tempfile
from collections.abc import Callable, Iterable, Iterator, Sequence
from concurrent.futures import ThreadPoolExecutor
from contextlib import contextmanager
from dataclasses import dataclass
from pathlib import Path
from typing import Any, TypeVar

from apei import TOP

Case = TypeVar("Case")
Answer = TypeVar("Answer")


def script(lines: Iterable[str]) -> bytes:
    """The text of a script's lines."""
    return "".join(line + "\n" for line in lines).encode("latin-1")


def without_step(reply: str) -> str:
    return reply.rsplit(" @", 1)[0]


@dataclass(frozen=True)
class Ended:
    """How a run ended: its exit status, what it wrote, and what it said on standard error."""

    status: int
    written: bytes
    said: str

    @property
    def text(self) -> str:
        return self.written.decode()

    @property
    def replies(self) -> list[str]:
        return self.text.splitlines()

    @property
    def words(self) -> list[str]:
        """The replies without their steps."""
        return [without_step(reply) for reply in self.replies]

    @property
    def steps(self) -> list[int]:
        """The number of changes after each reply."""
        return [int(reply.rsplit(" @", 1)[1]) for reply in self.replies]


@dataclass(frozen=True)
class Program:
    """A built program."""

    path: Path

    @classmethod
    def of(cls, crate: str) -> "Program":
        return cls(TOP / "crates" / crate / "out" / crate)

    def run(self, *words: str | bytes | Path, given: bytes = b"", before: Sequence[str] = (), **options: Any) -> Ended:
        """A run on an input, by the words of another command before it if there are some."""
        streams: dict[str, Any] = {"stdout": subprocess.PIPE, "stderr": subprocess.PIPE, **options}
        if "stdin" not in streams:
            streams["input"] = given
        command: list[str | bytes | Path] = [*before, self.path, *words]
        done = subprocess.run(command, check=False, **streams)
        return Ended(done.returncode, done.stdout or b"", (done.stderr or b"").decode(errors="replace"))


@dataclass(frozen=True)
class Given:
    """The words of a tool: the program that it runs, how many cases more are drawn, and by which chance."""

    program: Program
    more: int
    chance: random.Random
    rest: list[str]


def given(words: list[str], more: int = 0, crate: str = "apei") -> Given:
    """Reads the words [PROGRAM] [MORE] [SEED]."""
    program = Program(Path(words[0]).resolve()) if words else Program.of(crate)
    count = int(words[1]) if len(words) > 1 else more
    return Given(program, count, random.Random(int(words[2]) if len(words) > 2 else 1), words[3:])


class Tally:
    """The cases of a tool, by what it calls them, and how many of them are wrong."""

    def __init__(self, noun: str = "runs") -> None:
        self.noun, self.cases, self.wrong = noun, 0, 0

    def expect(self, right: bool, what: str) -> None:
        """Counts a case, and says what came if it is wrong."""
        self.add([] if right else [what])

    def add(self, found: Iterable[str]) -> None:
        """Counts a case of which this was found to be wrong."""
        faults = list(found)
        self.cases += 1
        self.wrong += bool(faults)
        for what in faults:
            print(what[:2000], file=sys.stderr)

    def end(self) -> int:
        """Says how many cases there were, and answers the exit status."""
        print(f"{self.cases} {self.noun}, {self.wrong} wrong")
        return 1 if self.wrong else 0


def one_by_one(job: Callable[[Case], Answer], cases: Iterable[Case]) -> Iterator[Answer]:
    """The answers of a job for each case, on all processors, as they come. If it is interrupted, no further case is begun."""
    lanes = ThreadPoolExecutor(os.cpu_count())
    try:
        yield from lanes.map(job, cases)
    finally:
        lanes.shutdown(cancel_futures=True)


def side_by_side(job: Callable[[Case], Answer], cases: Iterable[Case]) -> list[Answer]:
    """The answers of a job for each case, on all processors."""
    return list(one_by_one(job, cases))


@contextmanager
def scratch() -> Iterator[Path]:
    """A folder that is gone afterwards."""
    with tempfile.TemporaryDirectory() as folder:
        yield Path(folder)


@contextmanager
def image_file(data: bytes) -> Iterator[Path]:
    """A file with an image, that is gone afterwards."""
    with scratch() as folder:
        path = folder / "image"
        path.write_bytes(data)
        yield path


def difference(wanted: Sequence[str], found: Sequence[str]) -> str:
    """The first reply that differs."""
    at = next((at for at, pair in enumerate(zip(wanted, found)) if pair[0] != pair[1]), min(len(wanted), len(found)))
    return f"reply {at}: wanted {''.join(wanted[at : at + 1])[:300]!r}, found {''.join(found[at : at + 1])[:300]!r}"
