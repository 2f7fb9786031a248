"""Plays random scripts on the program and on a plain model of its record store, and compares the replies.

    tools/run store [PROGRAM] [SCRIPTS] [SEED]

PROGRAM is the built program, by default crates/apei/out/apei. A script runs on a few small slots, so that it fills them, and mostly with
one change of the flash that fails and leaves one of the four tears. SCRIPTS of them are played, 1,000 if it is not said.
"""

import random

from apei.flash import Fault, Geometry, Options
from apei.harness import Program, Tally, difference, given, script, side_by_side
from apei.scripts import some_line
from apei.store import Store

Case = tuple[Options, list[str]]


def drawn(chance: random.Random) -> Case:
    """The options and the lines of a script."""
    geometry = Geometry(256, chance.choice([2, 3]), chance.choice([2, 3, 4, 5, 6, 8, 12]))
    fault = Fault(chance.randrange(100), chance.randrange(4)) if chance.randrange(5) else None
    return Options(geometry, fault), [some_line(chance) for _ in range(chance.randrange(1, 25))]


def wrong_of(program: Program, options: Options, lines: list[str]) -> list[str]:
    store = Store(options.geometry, options.fault)
    wanted = "".join(map(store.play, lines))
    done = program.run("sim", *options.words, given=script(lines))
    if (done.status, done.text) == (0, wanted):
        return []
    return [f"{' '.join(options.words)}: status {done.status}, {difference(wanted.splitlines(), done.replies)}"]


def main(words: list[str]) -> int:
    asked, tally = given(words, more=1000), Tally("scripts")
    cases = [drawn(asked.chance) for _ in range(asked.more)]
    for faults in side_by_side(lambda case: wrong_of(asked.program, *case), cases):
        tally.add(faults)
    return tally.end()
