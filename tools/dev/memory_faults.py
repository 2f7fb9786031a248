"""Refuses each request for memory of a run in turn, and looks at how the run ends.

    tools/run memory_faults [PROGRAM]
    tools/run memory_faults --try FIRST LAST

PROGRAM is the built program, by default crates/apei/out/apei. `sim`, `play`, `check` and `gen` are run on inputs with lines of all kinds;
in the run number N a few lines of C, which cc compiles and the loader puts before the C library, refuse the Nth request of the program. In
the second form the runs of `sim` by FIRST to LAST are made by `rt try --fail-alloc N` instead, which proves nothing and builds the program
for each N. A run in which a request was refused ends

- with status 8, 'out of memory', before the first reply, or at a line that makes a table, whose reply is the first that is missing;
- or, if the file of `play` was opened, with status 5 before the first reply;
- or, at one request, as if none is refused: for the words of the command line std asks for room in advance, and does without it;
- or so at one more of `sim` and `gen`, whose flash does without the list of what it knows of its sectors.

How the runs ended comes before the last line.
"""

import collections
import os
import shutil
import subprocess
import sys
import tempfile
from collections.abc import Callable, Iterable, Sequence
from pathlib import Path
from typing import NamedTuple

from apei import TOP
from apei.flash import Geometry
from apei.frames import block
from apei.harness import Program, Tally, given, scratch, side_by_side
from apei.scripts import write

SHIM = r"""
#include <errno.h>
#include <fcntl.h>
#include <stdlib.h>
#include <sys/mman.h>
#include <unistd.h>
extern void *__libc_malloc(size_t), *__libc_calloc(size_t, size_t), *__libc_realloc(void *, size_t), *__libc_memalign(size_t, size_t);
static unsigned long *asked, refused;
__attribute__((constructor)) static void begin(void) {
  int file = open(getenv("ASKED"), O_RDWR);
  void *page = mmap(0, 8, PROT_READ | PROT_WRITE, MAP_SHARED, file, 0);
  close(file);
  refused = strtoul(getenv("REFUSED"), 0, 10);
  if (page != MAP_FAILED) asked = page;
}
static int refuses(void) {
  if (asked && ++*asked == refused) { errno = ENOMEM; return 1; }
  return 0;
}
void *malloc(size_t size) { return refuses() ? 0 : __libc_malloc(size); }
void *calloc(size_t count, size_t size) { return refuses() ? 0 : __libc_calloc(count, size); }
void *realloc(void *old, size_t size) { return refuses() ? 0 : __libc_realloc(old, size); }
void *aligned_alloc(size_t align, size_t size) { return refuses() ? 0 : __libc_memalign(align, size); }
void *memalign(size_t align, size_t size) { return refuses() ? 0 : __libc_memalign(align, size); }
int posix_memalign(void **place, size_t align, size_t size) {
  if (refuses()) return ENOMEM;
  *place = __libc_memalign(align, size);
  return *place ? 0 : ENOMEM;
}
"""
FLASH = Geometry(256, 2, 6)
BLOCK = block(2, bytes(range(1, 9))).hex()


def example(name: str) -> list[str]:
    return (TOP / "examples" / name).read_bytes().decode("latin-1").splitlines()


TABLE = next(line for line in example("looping-table/script") if line.startswith("table 45"))
SCRIPT = [
    "# Every kind of line.", "", write(1, 900), "read 1", "count", "next", "dummy", "action 14 0", write(2, 128), write(1, 500), "clear 2",
    TABLE, "action 0 0", "table own", "error " + BLOCK, "turns FFFFRRRRRFF", "peek 1048576 64", "fatal " + BLOCK, "bert", "heard", "reset",
    "read 1", "table shadow", write(3, 300), "read 3", "power", "read 1", "bridge 500", "error " + BLOCK, "turns FFFFRRRRRRRRRR", "count",
]
ITEMS = [line for name in ("check/script", "check-parts/script") for line in example(name)]
IN_ADVANCE = "as where none is refused"
# How many requests a job does without.
WITHOUT = {"sim": 2, "gen": 2, "play": 1, "check": 1}


class Found(NamedTuple):
    """Status, replies and what was said of a run."""

    status: int
    replies: list[str]
    said: str


Run = Callable[[Sequence[str], Sequence[str]], Found]


def takes_table(line: str) -> bool:
    return line.split(" ")[0] in ("table", "erst", "hest") and line.split(" ")[1] != "own"


class Job:
    """A job with its words and input, and what it says if all is well."""

    def __init__(self, words: list[str], lines: list[str], run: Run) -> None:
        self.name, self.words, self.lines = words[0], words, lines
        self.whole = run(words, lines)
        # How many replies have come after each line.
        self.told = [len(run(words, lines[:ended]).replies) for ended in range(len(lines) + 1)]

    def next_line(self, replies: list[str]) -> str:
        """The line whose reply is the first that is missing."""
        return next((line for line, told in zip(self.lines, self.told[1:]) if told > len(replies)), "")

    def end_of(self, found: Found) -> str | None:
        """How a run in which a request was refused ends, or None if it ends in none of the ways that it may."""
        status, replies, said = found
        if (status, said) == (8, "apei: out of memory\n") and replies == self.whole.replies[: len(replies)]:
            if not replies:
                return "out of memory before the first reply"
            return "out of memory at a table" if takes_table(self.next_line(replies)) else None
        if self.name == "play" and (status, said, replies) == (5, "apei: flash failed\n", []):
            return "a file that is not opened"
        return None


class Preloaded:
    """Runs of the built program in which the loader puts the shim before the C library."""

    def __init__(self, program: Program, folder: Path) -> None:
        self.program, self.folder = program, folder
        self.shim = folder / "shim.so"
        source = folder / "shim.c"
        source.write_text(SHIM)
        subprocess.run(["cc", "-O1", "-fno-builtin", "-shared", "-fPIC", "-o", self.shim, source], check=True)

    def run(self, words: Sequence[str], lines: Sequence[str]) -> Found:
        return self.refusing(words, lines, 0)[1]

    def refusing(self, words: Sequence[str], lines: Sequence[str], refused: int) -> tuple[int, Found]:
        """How many requests were made, and how the run ended."""
        with tempfile.TemporaryDirectory(dir=self.folder) as own:
            asked = Path(own) / "asked"
            asked.write_bytes(bytes(8))
            in_own = [word.replace("IMAGE", f"{own}/image") for word in words]
            surroundings = {**os.environ, "LD_PRELOAD": str(self.shim), "ASKED": str(asked), "REFUSED": str(refused)}
            done = self.program.run(*in_own, given="\n".join(lines).encode("latin-1"), env=surroundings)
            return int.from_bytes(asked.read_bytes(), sys.byteorder), Found(done.status, done.replies, done.said)


def tried(words: Sequence[str], lines: Sequence[str], refused: int) -> Found:
    """How a run ends, by `rt try`."""
    command = ["rt", "try", "--fail-alloc", str(refused), "--", *words]
    done = subprocess.run(command, cwd=TOP / "crates" / "apei", input="\n".join(lines).encode(), capture_output=True, check=False)
    said = done.stderr.decode().splitlines()
    told = "".join(line + "\n" for line in said if line.startswith("apei:"))
    return Found(done.returncode, done.stdout.decode().splitlines(), told)


class Ends(Tally):
    """Runs in which a request was refused, and how each ended."""

    def __init__(self) -> None:
        super().__init__()
        self.ends: collections.Counter[tuple[str, str]] = collections.Counter()

    def take(self, job: Job, at: int, found: Found, may_do_without: bool) -> None:
        """A run whose N-th request was refused."""
        end = job.end_of(found)
        if found == job.whole and (may_do_without or self.ends[job.name, IN_ADVANCE] < WITHOUT[job.name]):
            end = IN_ADVANCE
        self.ends[job.name, end or "wrong"] += 1
        same = " as where none is refused" if found == job.whole else ""
        what = f"{job.name}, request {at}: status {found.status}{same}, {len(found.replies)} replies, {found.said!r}"
        self.expect(end is not None, what)

    def end(self) -> int:
        for (name, end), count in sorted(self.ends.items()):
            print(f"{name}: {count} {end}")
        return super().end()


def whole_run(by: Preloaded, job: Job) -> int:
    """How many requests a run makes if none is refused."""
    asked, whole = by.refusing(job.words, job.lines, 0)
    if whole.status or asked < 3:
        raise SystemExit(f"{job.name}: {asked} requests, status {whole.status}, {whole.said}")
    return asked


def all_requests(by: Preloaded, ends: Ends) -> None:
    """Each request of each job is refused in a run of its own."""
    jobs: Iterable[tuple[list[str], list[str]]] = [
        (["sim", *FLASH.words], SCRIPT), (["play", "--image=IMAGE", *FLASH.words], SCRIPT), (["check", "--show=HEAD|PARTS"], ITEMS),
        (["gen", "--count=40", "--seed=7", *FLASH.words], []),
    ]
    for words, lines in jobs:
        job = Job(words, lines, by.run)
        numbers = range(1, whole_run(by, job) + 1)
        for at, (_, found) in zip(numbers, side_by_side(lambda at: by.refusing(job.words, job.lines, at), numbers)):
            ends.take(job, at, found, False)


def some_by_try(by: Preloaded, ends: Ends, first: int, last: int) -> None:
    job = Job(["sim", *FLASH.words], SCRIPT, by.run)
    whole_run(by, job)
    for at in range(first, last + 1):
        ends.take(job, at, tried(job.words, job.lines, at), True)


def main(words: list[str]) -> int:
    if not shutil.which("cc"):
        print("memory faults: not tried, since there is no cc here")
        return 0
    by_try, ends = words[:1] == ["--try"], Ends()
    with scratch() as folder:
        by = Preloaded(given([] if by_try else words).program, folder)
        if by_try:
            some_by_try(by, ends, int(words[1]), int(words[2]))
        else:
            all_requests(by, ends)
    return ends.end()
