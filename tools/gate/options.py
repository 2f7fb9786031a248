"""Runs the program by options in form and out of form, and ends runs in each way that options and files can bring about.

    tools/run options [PROGRAM]

PROGRAM is the built program, by default crates/apei/out/apei. Of each run the exit status and the text on standard error are compared with
those of docs/SCRIPT.md, and if they tell what an option says, the replies.
"""

import os
import resource
from pathlib import Path
from typing import Any

from apei.flash import Geometry
from apei.harness import Program, Tally, given, scratch
from apei.scripts import write

IN_FORM = [
    "sim", "check --show=", "check --show=HEAD|HEAD", "check --show PARTS", "-- sim", "sim --", "--slots 2 sim --sector=256",
    "--slots 2 gen --count=0 --seed=0", "gen --seed=18446744073709551615 --count 1",
    "sim --torn=3 --cut=0 --fail=1 --fail-read=99 --steps=4294967295", "sim --steps=0",
]
OUT_OF_FORM = [
    "", "simulate", "sim sim", "sim check", "--slots=3", "sim --help", "sim -h", "--version", "help", "sim --slots", "sim --slots=",
    "sim --slots=03", "sim --slots=+3", "sim --slots=-3", "sim --slot=3", "sim --slots=1 --slots 1", "sim --steps=4294967296",
    "sim --sector=18446744073709551616", "sim --torn=4", "sim --seed=3", "check --sector=4096", "play --image=x --cut=1", "play",
    "play --image=", "play --image -x", "play --image --slots=3", "gen", "gen --count=100001", "gen --count=1 --show=HEAD",
    "check --show=HEAD|", "check --show=0x1", "check --show=head", "sim -- --slots=3",
]
# Job and options, input, replies, status and text.
SAID = [
    ("sim --sector=18446744073709551615 --per-slot=0", "", "", 6, "apei: bad geometry 18446744073709551615 0 32 0"),
    ("sim --sector=256 --per-slot=3 --slots=4", "action 14 0\n", "result 2816 @0\n", 0, ""),
    ("sim", "action 14 0\n", "result 32512 @0\n", 0, ""),
    ("sim --steps=1", "count\naction 14 0\n", "refused stopped budget @0\nrefused stopped budget @0\n", 0, ""),
    ("sim --steps=2", "count\n", "count 0 @0\n", 0, ""),
    ("sim --fail-read=0", "", "", 5, "apei: flash failed"),
    ("sim", "count\ncuont\n", "count 0 @0\n", 2, "apei: line 2 column 2"),
    ("check", "\n#\nerst 4\n", "", 2, "apei: line 3 column 7"),
    ("gen --count=1 --seed=0", "", "gen 1 writes 0 clears 0 reads 0 nexts 1 refused 0 live 0 @0\n", 0, ""),
]
SMALL = Geometry(256, 2, 2)
# The longest line, and the most that is read of an input.
LINE, INPUT = 140_000, 1 << 24
MEMORY = 48 << 20


def split(words: str) -> list[str]:
    return words.split(" ") if words else []


class Runs(Tally):
    """Runs of a program, of which each is wanted to end in one way."""

    def __init__(self, program: Program) -> None:
        super().__init__()
        self.program = program

    def wants(self, words: list[str], text: str, replies: str, status: int, said: str, **options: Any) -> None:
        done = self.program.run(*words, given=text.encode(), **options)
        found, wanted = (done.status, done.said, done.text), (status, said + "\n" * bool(said), replies)
        self.expect(found == wanted, f"{words}: wanted {(status, said, replies[:200])}, found {found}")


def words_of_all_forms(runs: Runs) -> None:
    for words in IN_FORM:
        done = runs.program.run(*split(words))
        runs.expect((done.status, done.said) == (0, ""), f"{words}: {done.status} {done.said}")
    for words in OUT_OF_FORM:
        runs.wants(split(words), "", "", 1, "apei: bad words")
    runs.wants(["sim", os.fsdecode(b"--slots=\xff")], "", "", 1, "apei: bad words")
    for words, text, replies, status, said in SAID:
        runs.wants(split(words), text, replies, status, said)


def paths(runs: Runs, folder: Path) -> None:
    """The paths of a file; its length is the flash's."""
    for words, name in ((["--image=-x"], "-x"), (["--image", "-"], "-"), (["--image=image"], "image")):
        runs.wants(["play", *words, *SMALL.words], "count\n", "count 0 @0\n", 0, "", cwd=folder)
        runs.expect((folder / name).stat().st_size == SMALL.size, f"{name}: another length")
    runs.wants(["play", "--image=image"], "", "", 6, "apei: bad geometry 4096 2 32 1024", cwd=folder)


def streams(runs: Runs, folder: Path) -> None:
    """Standard input that can't be read, standard output that takes nothing, and a record that was stored though its reply was not."""
    with open(os.devnull, "wb") as unread:
        for job in ("sim", "check"):
            runs.wants([job], "", "", 3, "apei: read failed", stdin=unread)
    play = ["play", "--image=image", *SMALL.words]
    if os.path.exists("/dev/full"):
        with open("/dev/full", "wb") as full:
            for words, text in ((["sim"], "count\n"), (["check"], "erst 00\n"), (["gen", "--count=1"], ""), (play, write(1, 128))):
                runs.wants(words, text, "", 4, "apei: write failed", stdout=full, cwd=folder)
    runs.wants(play, "count\nnext\n", "count 1 @0\nnext 1 @0\n", 0, "", cwd=folder)


def lengths(runs: Runs) -> None:
    """The longest line, the last byte of a script that counts, and what goes past them; a job without input reads none."""
    whole_lines = ("#" * 131071 + "\n") * (INPUT >> 17)
    for job in ("sim", "check"):
        runs.wants([job], "#" * LINE + "\n#", "", 0, "")
        runs.wants([job], "\n" + "#" * (LINE + 1) + "\n", "", 7, "apei: line 2 too long")
        runs.wants([job], "#" * (LINE + 1), "", 7, "apei: line 1 too long")
        runs.wants([job], whole_lines, "", 0, "")
        runs.wants([job], whole_lines + "\n", "", 7, "apei: line 129 too long")
    runs.wants(["sim"], "write " + "4" * (LINE - 6), "refused frame start @0\n", 0, "")
    runs.wants(["sim"], "write " + "4" * (LINE - 4), "", 7, "apei: line 1 too long")


def too_little_memory(runs: Runs) -> None:
    """A flash of 64 MiB if there is less memory."""

    def limit() -> None:
        resource.setrlimit(resource.RLIMIT_AS, (MEMORY, MEMORY))

    runs.wants(["sim", *Geometry(32768, 2, 1024).words], "count\n", "", 8, "apei: out of memory", preexec_fn=limit)


def main(words: list[str]) -> int:
    runs = Runs(given(words).program)
    words_of_all_forms(runs)
    with scratch() as folder:
        paths(runs, folder)
        streams(runs, folder)
    lengths(runs)
    too_little_memory(runs)
    return runs.end()
