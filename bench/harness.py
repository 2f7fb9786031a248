"""What the benches share: where the programs are, runs that are timed, and C programs beside them.

A bench is run by itself, as `bench/NAME.py`. After the import of this module it can import the package tools/apei.
"""

import os
import statistics
import subprocess
import sys
import time
from collections.abc import Iterable, Sequence
from pathlib import Path
from typing import Any, NamedTuple

TOP = Path(__file__).resolve().parent.parent
sys.path.insert(0, str(TOP / "tools"))
Words = Sequence[str | Path]


def program(crate: str = "apei") -> Path:
    """The built program that the first word names, by default the repository's own."""
    return Path(sys.argv[1]).resolve() if len(sys.argv) > 1 else TOP / "crates" / crate / "out" / crate


def number(place: int, usual: int) -> int:
    """The number that the word at a place says."""
    return int(sys.argv[place]) if len(sys.argv) > place else usual


def runs(usual: int, place: int = 2) -> int:
    """How often each thing is timed."""
    return number(place, usual)


def median(times: Iterable[float]) -> float:
    return statistics.median(times)


class Timed(NamedTuple):
    """A run: the seconds that it took, those of the processor, what it wrote, and the most memory that it had in MiB."""

    seconds: float
    processor: float
    written: bytes
    peak: float

    @property
    def milliseconds(self) -> float:
        return self.seconds * 1000

    @property
    def last(self) -> str:
        """The last line."""
        return (self.written.decode().splitlines() or [""])[-1]


def milliseconds(words: Words, text: bytes = b"", **options: Any) -> tuple[float, bytes]:
    """The time of a run over pipes, and what it wrote."""
    start = time.perf_counter()
    done = subprocess.run(words, input=text, stdout=subprocess.PIPE, stderr=subprocess.PIPE, check=False, **options)
    took = (time.perf_counter() - start) * 1000
    if done.returncode:
        raise SystemExit(f"{' '.join(map(str, words))}: status {done.returncode}, {done.stderr.decode().strip()}")
    return took, done.stdout


def over_files(words: Words, text: bytes, folder: Path) -> Timed:
    """A run whose input and output are files, as a pipe's reader would take time of its own."""
    given, out = folder / "input", folder / "output"
    given.write_bytes(text)
    with open(given, "rb") as source, open(out, "wb") as sink:
        start = time.perf_counter()
        child = subprocess.Popen(words, stdin=source, stdout=sink)
        _, status, used = os.wait4(child.pid, 0)
        took = time.perf_counter() - start
    child.returncode = status
    if status:
        raise SystemExit(f"{' '.join(map(str, words))}: status {os.waitstatus_to_exitcode(status)}")
    return Timed(took, used.ru_utime + used.ru_stime, out.read_bytes(), used.ru_maxrss / 1024)


def compiled(source: str, path: Path, *words: str) -> Path:
    """A C program, or a library if the words say so."""
    text = path.with_suffix(".c")
    text.write_text(source)
    subprocess.run(["cc", "-O2", *words, "-o", path, text], check=True)
    return path
