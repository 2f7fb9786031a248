"""Compares what the job `gen` says of its commands with what they make of a plain model of the record store.

    tools/run gen [PROGRAM]
    tools/run gen --line COUNT SEED [SECTOR PER_SLOT SLOTS]

PROGRAM is the built program, by default crates/apei/out/apei. The generator is that of docs/SCRIPT.md. In the second form it only writes
the line of one run.
"""

from collections.abc import Iterator
from dataclasses import dataclass

from apei.flash import Geometry
from apei.harness import Tally, given
from apei.scripts import write
from apei.store import Store


@dataclass(frozen=True)
class Run:
    """How many commands are generated, from which seed, and on which flash."""

    count: int
    seed: int
    geometry: Geometry = Geometry()

    @property
    def words(self) -> list[str]:
        return [f"--count={self.count}", f"--seed={self.seed}", *self.geometry.words]

    def commands(self) -> Iterator[str]:
        number = self.seed
        for _ in range(self.count):
            number = (number * 6364136223846793005 + 1442695040888963407) % 2**64
            chosen = number // 2**33
            identifier, length = 1 + chosen // 8 % 40, 128 + 16 * (chosen // 512 % 16)
            yield write(identifier, length) if chosen % 8 <= 4 else [f"clear {identifier}", f"read {identifier}", "next"][chosen % 8 - 5]

    def line(self) -> str:
        """The line that the job writes."""
        store, made, refused = Store(self.geometry), {"write": 0, "clear": 0, "read": 0, "next": 0}, 0
        for command in self.commands():
            made[command.split()[0]] += 1
            refused += store.play(command).startswith("refused")
        kinds = " ".join(f"{kind}s {number}" for kind, number in made.items())
        return f"gen {self.count} {kinds} refused {refused} live {len(store.records())} @{store.steps}\n"


# On the usual flash, on few slots, on slots so small that records take two, and on so few that a walk meets no record. One run is made
# twice, which must be the same.
RUNS = [
    Run(0, 0), Run(1, 0), Run(1000, 7), Run(5000, 7), Run(5000, 7), Run(1000, 2**64 - 1),
    Run(300, 12345678901234567890, Geometry(256, 2, 1024)), Run(1000, 1, Geometry(256, 2, 3)), Run(1000, 2, Geometry(4096, 2, 2)),
    Run(500, 3, Geometry(256, 3, 40)), Run(200, 4, Geometry(4096, 16, 33)),
]


def main(words: list[str]) -> int:
    if words[:1] == ["--line"]:
        count, seed, *geometry = map(int, words[1:])
        print(Run(count, seed, Geometry(*geometry)).line(), end="")
        return 0
    program, tally = given(words).program, Tally()
    for run in RUNS:
        # The usual geometry is that of a run without options on it.
        words_of_run = run.words if run.geometry != Geometry() else run.words[:2]
        done, wanted = program.run("gen", *words_of_run), run.line()
        tally.expect((done.status, done.text) == (0, wanted), f"{' '.join(words_of_run)}: wanted {wanted!r}, found {done.text!r}")
    return tally.end()
