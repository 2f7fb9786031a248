"""Plays scripts under a bridge on the program and on a plain model, and compares the replies.

    tools/run bridge [PROGRAM] [SCRIPTS] [SEED]
    tools/run bridge --say SCRIPT [OPTION..]

PROGRAM is the built program, by default crates/apei/out/apei. A script that stores blocks of one piece and of several loses power in each
of its flash changes, and has each of them fail, with each tear; and SCRIPTS scripts, 300 if it is not said, are drawn at random. No
block is acknowledged before its record was answered as stored, and each record that was so answered is there after a loss of power, unless
a line wrote or cleared its identifier. In the second form the model's replies to a script are written, and nothing is run.
"""

import random
from collections.abc import Iterator
from pathlib import Path

from apei.bridge import BLOCKS, BridgedMachine
from apei.bytes import LAST
from apei.flash import Fault, Geometry, Options
from apei.harness import Program, Tally, given, script
from apei.scripts import write

SMALL = Geometry(256, 2, 5)


def machine_of(options: Options) -> BridgedMachine:
    return BridgedMachine(options.geometry, options.fault)


def stored_and_kept() -> list[str]:
    """Blocks whose records take one slot and two, until the store is full; then another record is cleared."""
    lines = [write(9, 128), "bridge 500"]
    for body in (BLOCKS[0], BLOCKS[1], BLOCKS[3]):
        lines += [f"error {body.hex()}", "turns " + "F" * 12 + "R" * 14 + "F"]
    return lines + ["clear 9", "turns RRRRF", "count", "next", "next", "next", "next"]


class Compared(Tally):
    """Runs of a program, which are those of the model."""

    def __init__(self, program: Program) -> None:
        super().__init__()
        self.program = program

    def run(self, options: Options, lines: list[str]) -> str:
        """The replies of a run."""
        wanted = "".join(map(machine_of(options).play, lines))
        done = self.program.run("sim", *options.words, given=script(lines))
        self.expect((done.status, done.text) == (0, wanted), f"{options.words}: wanted\n{wanted}and got {done.status}\n{done.text}")
        return done.text


def stored_by(said: str, step: int) -> set[str]:
    """The identifiers whose records were answered as stored by a flash step."""
    words = said.split()
    return {words[at + 1] for at, word in enumerate(words) if word == "stored" and int(words[at + 2]) <= step}


def is_in_order(said: str) -> bool:
    """Whether no block is cleared or acknowledged between its taking and its storing."""
    is_held = False
    for reply in said.splitlines():
        for word in reply.split():
            if word in ("took", "stored"):
                is_held = word == "took"
            if word in ("clear", "ack") and is_held:
                return False
    return True


def each_change(compared: Compared) -> None:
    """Power is lost in each change, and each change fails, with each tear."""
    lines = stored_and_kept()
    said = compared.run(Options(SMALL), lines)
    compared.expect(is_in_order(said), said)
    changes = int(said.splitlines()[-1].rsplit("@", 1)[1])
    for at in range(changes):
        for tear in range(4):
            options = Options(SMALL, Fault(at, tear, is_loss=True))
            shown = compared.run(options, lines + ["power"] + ["next"] * 5)
            found = {reply.split()[1] for reply in shown.splitlines()[-5:]}
            compared.expect(is_in_order(shown) and stored_by(shown, at) <= found, f"{options.words}: {shown}")
            options = Options(SMALL, Fault(at, tear))
            compared.expect(is_in_order(compared.run(options, lines)), f"{options.words}: a block was given back before it was stored")


def drawn(chance: random.Random) -> Iterator[str]:
    """The lines of a script drawn at random."""
    for _ in range(chance.randrange(4, 30)):
        kind = chance.randrange(16)
        if kind < 5:
            yield f"error {chance.choice(BLOCKS).hex()}"
        elif kind < 11:
            yield "turns " + "".join(chance.choice("FRRR" if kind < 9 else "FFR") for _ in range(chance.randrange(1, 30)))
        elif kind == 11:
            yield f"bridge {chance.choice([0, 1, 1, 2, 7, 7, LAST - 1, LAST - 1, LAST])}"
        elif kind == 12:
            yield write(chance.choice([1, 2, 7, 8]), chance.choice([128, 449]))
        elif kind == 13:
            yield chance.choice(["clear", "read"]) + f" {chance.choice([1, 2, 3, 7, 8, LAST - 1])}"
        elif kind == 14:
            yield chance.choice(["count", "next", "heard", "table own"])
        else:
            yield chance.choice(["reset", "power", "count"])


def some_options(chance: random.Random) -> Options:
    geometry = Geometry(256, chance.choice([2, 3]), chance.choice([2, 3, 4, 6, 8]))
    return Options(geometry, Fault(chance.randrange(60), chance.randrange(4)) if chance.randrange(3) else None)


def at_random(compared: Compared, scripts: int, chance: random.Random) -> None:
    for _ in range(scripts):
        options = some_options(chance)
        lines = ["bridge 1", *drawn(chance)] if chance.randrange(4) else list(drawn(chance))
        # A restart that the flash fails ends a run.
        machine, played = machine_of(options), []
        for line in lines:
            machine.play(line)
            if line in ("reset", "power") and machine.in_doubt:
                break
            played.append(line)
        compared.run(options, played)


def main(words: list[str]) -> int:
    if words[:1] == ["--say"]:
        machine = machine_of(Options.read(words[2:]))
        print("".join(map(machine.play, Path(words[1]).read_text().splitlines())), end="")
        return 0
    asked = given(words, more=300)
    compared = Compared(asked.program)
    each_change(compared)
    at_random(compared, asked.more, asked.chance)
    return compared.end()
