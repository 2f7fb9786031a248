"""Plays turns of error sources, of types 9 and 10 and of the machine's own, by the program and by a plain model, and compares.

    tools/run hub [PROGRAM] [MORE] [SEED]

PROGRAM is the built program, by default crates/apei/out/apei. Each order of twelve turns of the two sides is played on one source, then on
the other, and on both in turn, with the source of type 9 first and last, and in the job `sim` on the machine's own, begun anew by a reset
before each; and MORE (by default 2000) lists of turns, tables and lines that SEED makes. The plain model is one handover a source, by
docs/HANDOVER.md, and for a table the refusals of docs/SCRIPT.md.
"""

import itertools
import random
from collections.abc import Iterator, Sequence
from typing import NamedTuple

from apei.harness import Program, Tally, difference, given, script, side_by_side
from apei.hubs import ACKNOWLEDGED, PLAIN, Hub, Source, acknowledged, hest, raw_block, refusal
from apei.tables import address

ORDERS = list(itertools.product("FR", repeat=12))


class Case(NamedTuple):
    """A script of a job, and what it says."""

    job: str
    lines: list[str]
    said: list[str]

    def wrong_of(self, program: Program) -> list[str]:
        done = program.run(self.job, given=script(self.lines))
        if (done.status, done.replies, done.said) == (0, self.said, ""):
            return []
        shown = "\n".join(line[:200] for line in self.lines[:30])
        return [f"{self.job}: {difference(self.said, done.replies)}, status {done.status}, {done.said}, for\n{shown}"]


def case_of(sources: Sequence[Source], lines: list[str], others: int = 0) -> Case:
    """Lines on the sources of a table, in the job `hub`."""
    why = refusal(sources)
    said = [f"hub {len(sources)}" if why is None else f"refused hub {why}"]
    hub = Hub(sources) if why is None else None
    for line in lines:
        said += hub.play(line) if hub else ["refused no-hub"]
    return Case("hub", ["hest " + hest(sources, others).hex(), *lines], said)


def two(plain_first: bool) -> list[Source]:
    sources = [Source(PLAIN, address(0x310000)), acknowledged()]
    return sources if plain_first else sources[::-1]


def error(at: int, severity: int, size: int) -> str:
    return f"error {at} {raw_block(severity, size).hex()}"


def orders() -> Iterator[Case]:
    errors = [error(at, at, size) for at, size in ((0, 20), (1, 40), (0, 100), (1, 20))]
    for sides in ORDERS:
        for plain_first in (False, True):
            for played in (["0" * 12, "1" * 12], ["01" * 6]):
                turns = ["turns " + "".join(at + side for at, side in zip(sources, sides)) for sources in played]
                yield case_of(two(plain_first), [*errors, *turns, "heard 0", "heard 1"])


def own_orders() -> Case:
    """One script of the job `sim` that plays each order on the machine's own source."""
    errors = [error(0, 2, 92), error(0, 1, 20)]
    lines, said, heard = list[str](), list[str](), [0, 0, 0]
    for sides in ORDERS:
        own = Hub([acknowledged()])
        lines += ["reset", *(line.replace("error 0 ", "error ") for line in errors), "turns " + "".join(sides)]
        said += ["reset 0", *(reply for line in errors for reply in own.play(line))]
        said += [reply.replace("block 0 ", "block ") for reply in own.turns("".join("0" + side for side in sides))]
        heard = [before + more for before, (_, more) in zip(heard, own.chains[0])]
    return Case("sim", [*lines, "heard"], [reply + " @0" for reply in [*said, "heard " + " ".join(map(str, heard))]])


def some_register(chance: random.Random) -> bytes:
    if chance.random() < 0.7:
        return address(0x300000 + 4 * chance.randrange(24))
    space, width, offset = chance.choice((0, 0, 1, 2)), chance.choice((0, 1, 8, 32, 64, 65)), chance.choice((0, 0, 0, 3, 32))
    access, place = chance.randrange(6), chance.choice((0x300000, 0x10000FF8, 2**64 - 8, 2**64 - 9))
    return address(place, space, width, offset, access)


def some_source(chance: random.Random) -> Source:
    length = chance.choice((20, 64, 100, 4096, 4096)) if chance.random() < 0.95 else chance.choice((0, 19, 4097, 65536))
    kind = chance.choice((PLAIN, ACKNOWLEDGED))
    status = address(0x200000 + 16 * chance.randrange(64)) if chance.random() < 0.9 else some_register(chance)
    ack = some_register(chance) if chance.random() < 0.3 else address(0x280000 + 16 * chance.randrange(64))
    value = chance.choice((1, 1, 1, 2, 2**63, 0)) if chance.random() < 0.2 else 1
    return Source(kind, status, ack, value, length)


def some_line(chance: random.Random, sources: int) -> str:
    at = chance.randrange(sources + 1) if chance.random() < 0.1 else chance.randrange(sources)
    kind = chance.random()
    if kind < 0.3:
        return error(at, chance.randrange(5), chance.choice((20, 21, 64, 100, 200)))
    if kind < 0.8:
        turns = (f"{min(15, chance.randrange(sources)):x}" + chance.choice("FR") for _ in range(chance.randrange(1, 60)))
        return "turns " + "".join(turns)
    return f"heard {at}" if kind < 0.93 else f"drop {at} {chance.randrange(3)}"


def some_case(chance: random.Random) -> Case:
    sources = [some_source(chance) for _ in range(chance.choice((0, 1, 2, 2, 3, 3, 4, 5, 16, 17)))]
    lines = [some_line(chance, max(1, len(sources))) for _ in range(chance.randrange(1, 30))]
    return case_of(sources, lines, chance.randrange(3))


def main(words: list[str]) -> int:
    asked, tally = given(words, more=2000), Tally()
    cases = itertools.chain([own_orders()], orders(), (some_case(asked.chance) for _ in range(asked.more)))
    for faults in side_by_side(lambda case: case.wrong_of(asked.program), cases):
        tally.add(faults)
    return tally.end()
