"""Plays scripts by the table that moves the record by its own programs on the program and on a plain model, and compares the replies.

    tools/run shadow [PROGRAM] [SCRIPTS] [SEED]
    tools/run shadow --say SCRIPT [OPTION..]

PROGRAM is the built program, by default crates/apei/out/apei. Lines of both tables are given each number of steps from 0 until all are
carried out, and what a stop left in memory is shown; power is lost in each change of a replacement, and each change fails, with each tear,
and what is read afterwards is the older record or the new one; and SCRIPTS scripts, 300 if it is not said, are drawn at random. In the
second form the model's replies to a script are written, and nothing is run.
"""

import random
from collections.abc import Iterator
from pathlib import Path
from typing import NamedTuple

from apei.bytes import LAST
from apei.flash import Fault, Geometry, Options
from apei.frames import marked, record
from apei.harness import Program, Tally, difference, given, script, side_by_side
from apei.shadow import played

SMALL = Geometry(256, 2, 6)
# Registers, and both memories of a table of 14 pieces and beside them.
LOOKS = ["peek 8064 32", "peek 4096 1920", "peek 1048576 1792"]
# By the greatest geometry of two sectors a slot the table has 31 pieces.
WHOLE_LOOKS = ["peek 8064 32", "peek 4096 4096", "peek 1048576 4096"]


def filled(identifier: int, length: int, first: int) -> bytes:
    """A record with bytes after its header that tell their places."""
    return record(identifier, length)[:128] + bytes((first + at + at // 251) % 256 for at in range(length - 128))


def write_filled(identifier: int, length: int, first: int) -> str:
    return "write " + filled(identifier, length, first).hex()


def lines_with(looks: list[str]) -> list[str]:
    """Lines of both tables, with looks at memory between them."""
    lines = [write_filled(1, 300, 7), "table shadow", "read 1", *looks, "next", write_filled(2, 1700, 99), *looks]
    lines += [write_filled(1, 900, 33), *looks, "count", "clear 2", *looks, "dummy", "action 5 7", *looks, "action 7 7", *looks]
    return [*lines, *(f"action {code} 5" for code in (13, 14, 15)), "table own", "count", "next", "next", "next"]


OLDER, NEWER = filled(1, 600, 7), filled(1, 1000, 99)
REPLACED = ["table shadow", write_filled(2, 128, 0), "write " + OLDER.hex(), "write " + NEWER.hex()]


class Case(NamedTuple):
    options: Options
    lines: list[str]

    def wrong_of(self, program: Program) -> list[str]:
        status, wanted = played(self.options, self.lines)
        done = program.run("sim", *self.options.words, given=script(self.lines))
        if (done.status, done.text) != (status, wanted):
            where = difference(wanted.splitlines(), done.replies)
            return [f"{' '.join(self.options.words)}: status {status} and {done.status}; {where}"]
        if self.lines[: len(REPLACED)] == REPLACED:
            read = {reply.split()[3] for reply in done.replies if reply.startswith("record 1 ")}
            if not read <= {marked(OLDER).hex(), marked(NEWER).hex()}:
                return [f"{' '.join(self.options.words)}: another record is read than the older one and the new one: {read}"]
        return []


def each_number_of_steps() -> Iterator[Case]:
    """A move in of 14 pieces takes 118 steps, and of 31 pieces 254; a write of n changes takes two moves and 6 + 2 * n more."""
    for steps in range(2 * 118 + 6 + 2 * 40):
        yield Case(Options(SMALL, steps=steps), lines_with(LOOKS))
    for steps in range(2 * 254 + 6 + 2 * 20):
        yield Case(Options(steps=steps), lines_with(WHOLE_LOOKS))


def each_change() -> Iterator[Case]:
    """Power is lost in each change, and each change fails, with each tear."""
    changes = int(played(Options(SMALL), REPLACED)[1].rsplit("@", 1)[1])
    behind = ["power", "table shadow", *LOOKS, "read 1", "next", "count"]
    for at in range(changes):
        for tear in range(4):
            yield Case(Options(SMALL, Fault(at, tear, is_loss=True)), REPLACED + behind)
            yield Case(Options(SMALL, Fault(at, tear)), REPLACED + behind[2:] + ["table own", "read 1"])


def some_line(chance: random.Random) -> str:
    kind, identifier = chance.randrange(20), chance.choice([0, 1, 1, 1, 2, 2, 3, LAST - 1, LAST])
    if kind < 6:
        length = chance.choice([128, 129, 300, 449, 1000, 1791, 1792, 1793, 2000, 2816, 3840, 3967, 3968, 3969, 4500])
        return write_filled(identifier, length, chance.randrange(256))
    if kind < 10:
        return f"read {identifier}"
    if kind < 12:
        return f"clear {identifier}"
    if kind < 13:
        return chance.choice(["reset", "power"])
    if kind < 14:
        return f"action {chance.choice([*range(0x12), 0x5, 0x6, 0x6, 0x7, 0xFF])} {chance.choice([0, 1, 2, 128, LAST])}"
    if kind < 16:
        return chance.choice(["table shadow", "table shadow", "table own"])
    if kind < 18:
        return chance.choice(["count", "next", "next", "dummy"])
    return chance.choice(WHOLE_LOOKS[:2] + LOOKS[2:])


def some_options(chance: random.Random) -> Options:
    geometry = Geometry(chance.choice([256, 256, 512]), chance.choice([2, 2, 3, 5]), chance.choice([2, 3, 5, 9]))
    fault = steps = None
    if chance.randrange(3):
        is_loss = chance.choice(["fail", "cut"]) == "cut"
        fault = Fault(chance.randrange(60), chance.randrange(4), is_loss)
    if chance.randrange(3) == 0:
        steps = chance.choice([chance.randrange(30), chance.randrange(600)])
    return Options(geometry, fault, steps)


def drawn(chance: random.Random, scripts: int) -> Iterator[Case]:
    for _ in range(scripts):
        options = some_options(chance)
        yield Case(options, ["table shadow", *(some_line(chance) for _ in range(chance.randrange(3, 40)))])


def main(words: list[str]) -> int:
    if words[:1] == ["--say"]:
        print(played(Options.read(words[2:]), Path(words[1]).read_text().splitlines())[1], end="")
        return 0
    asked, tally = given(words, more=300), Tally()
    cases = [*each_number_of_steps(), *each_change(), *drawn(asked.chance, asked.more)]
    for faults in side_by_side(lambda case: case.wrong_of(asked.program), cases):
        tally.add(faults)
    return tally.end()
