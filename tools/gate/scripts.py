"""Plays the examples and the scripts of tests/scripts, and compares what the program does with the files beside each.

    tools/run scripts [PROGRAM] [FOLDER..]

PROGRAM is the built program, by default crates/apei/out/apei. A script stands in a folder that is named by what it shows: `script` is what
the program reads, and `replies` what it writes. A folder may also have `words`, the job and its options (sim), `error`, what is said on
standard error (nothing), and `status`, the exit status (0). The word IMAGE stands for a file. It is not there at first, or it is a copy of
the folder's `image`, or it is what the script that the file `after` names leaves. With folders these alone are played. Without them a run
on a file that another one holds is tried too: it is refused.
"""

import fcntl
from dataclasses import dataclass
from pathlib import Path

from apei import TOP
from apei.harness import Ended, Program, Tally, scratch, side_by_side

PLACES = "examples/*/script", "tests/scripts/*/*/script"


@dataclass(frozen=True)
class Script:
    """A script, by its folder."""

    folder: Path

    def says(self, name: str, otherwise: str) -> str:
        path = self.folder / name
        return path.read_text() if path.exists() else otherwise

    @property
    def words(self) -> list[str]:
        return self.says("words", "sim").split()

    @property
    def wanted(self) -> Ended:
        return Ended(int(self.says("status", "0")), (self.folder / "replies").read_bytes(), self.says("error", ""))

    def play(self, program: Program, image: Path) -> Ended:
        """A run; what it leaves of its image is in the file."""
        before = self.says("after", "").strip()
        if before:
            Script(self.folder.parent / before).play(program, image)
        elif (self.folder / "image").exists():
            image.write_bytes((self.folder / "image").read_bytes())
        words = [word.replace("IMAGE", str(image)) for word in self.words]
        return program.run(*words, given=(self.folder / "script").read_bytes())

    def faults(self, program: Program) -> list[str]:
        with scratch() as room:
            played = self.play(program, room / "image")
        wanted = self.wanted
        return [] if played == wanted else [f"{self.folder}: wanted\n{wanted}\nand got\n{played}"]


def all_scripts() -> list[Script]:
    return [Script(path.parent) for place in PLACES for path in sorted(TOP.glob(place))]


def is_refused_while_held(program: Program) -> bool:
    """Whether a run is refused on a file that another one holds."""
    with scratch() as room:
        words = ["play", f"--image={room / 'image'}", "--sector=256", "--slots=3"]
        made = program.run(*words)
        with (room / "image").open("rb") as file:
            fcntl.flock(file, fcntl.LOCK_EX)
            held = program.run(*words)
    return (made.status, held) == (0, Ended(5, b"", "apei: flash failed\n"))


def main(words: list[str]) -> int:
    program = Program(Path(words[0]).resolve()) if words else Program.of("apei")
    scripts = [Script(Path(it)) for it in words[1:]] or all_scripts()
    tally = Tally("scripts")
    for found in side_by_side(lambda script: script.faults(program), scripts):
        tally.add(found)
    if not words[1:]:
        tally.expect(is_refused_while_held(program), "a file that another run holds was not refused")
    return tally.end()
