"""Compares what each code does to the registers of the record store's device with a plain device.

    tools/run device [PROGRAM] [SCRIPTS] [SEED]

PROGRAM is the built program, by default crates/apei/out/apei. A table is used whose program of each action writes the register VALUE,
writes the action's number to the register ACTION, and reads VALUE: so an `action` line is one access of the device. After each of some
beginnings each code is tried and then the same ones again, and SCRIPTS more are drawn at random, 150 if it is not said.
"""

import random
from collections.abc import Iterator
from typing import NamedTuple

from apei import tables
from apei.bytes import LAST
from apei.device import (
    BEGIN_CLEAR, BEGIN_DUMMY, BEGIN_READ, BEGIN_WRITE, CHECK_BUSY, END, EXECUTE, GET_COUNT, GET_IDENTIFIER, GET_STATUS, SET_IDENTIFIER,
    SET_OFFSET, Device,
)
from apei.flash import Fault, Geometry, Options
from apei.frames import identifier_of, marked
from apei.harness import Program, Tally, difference, given, script, side_by_side
from apei.scripts import write
from apei.store import Store

FLASH = Geometry(256, 2, 4)
ACTION, VALUE = 0x200000, 0x200008
READ_REGISTER, WRITE_REGISTER, WRITE_REGISTER_VALUE = 0x00, 0x02, 0x03
# The codes of actions, one that has none, one after the last, and the greatest.
CODES = [*range(0x12), 0xFF]
PEEK = "peek 1048576 1792"
REFUSALS = ["", "refused no-space", "refused hardware", "refused failed"]
# Codes, with what VALUE is before each.
BEGINNINGS: list[list[tuple[int, int]]] = [
    [],
    [(BEGIN_WRITE, 0), (EXECUTE, 0)],
    [(BEGIN_WRITE, 0), (EXECUTE, 0), (CHECK_BUSY, 0), (CHECK_BUSY, 0), (CHECK_BUSY, 0)],
    [(BEGIN_CLEAR, 0), (SET_IDENTIFIER, 1), (EXECUTE, 0)],
    [(BEGIN_CLEAR, 0), (SET_IDENTIFIER, 2), (EXECUTE, 0)],
    [(BEGIN_READ, 0), (SET_IDENTIFIER, 1), (EXECUTE, 0)],
    [(BEGIN_READ, 0), (SET_OFFSET, 1), (EXECUTE, 0)],
    [(BEGIN_READ, 0), (SET_OFFSET, 1664), (EXECUTE, 0)],
    [(BEGIN_READ, 0), (SET_OFFSET, 1665), (EXECUTE, 0)],
    [(BEGIN_READ, 0), (SET_IDENTIFIER, 2), (EXECUTE, 0)],
    [(BEGIN_WRITE, 0), (SET_OFFSET, 1665), (EXECUTE, 0)],
    [(BEGIN_DUMMY, 0), (EXECUTE, 0)],
]
PROBES = [CHECK_BUSY, GET_STATUS, GET_IDENTIFIER, GET_COUNT, EXECUTE, CHECK_BUSY, GET_STATUS, GET_IDENTIFIER, GET_COUNT]


def table() -> str:
    """The digits of the table whose programs make one access each."""
    entries = b""
    for code in CODES:
        entries += tables.instruction(code, WRITE_REGISTER, VALUE, 64) + tables.instruction(code, WRITE_REGISTER_VALUE, ACTION, 32, code)
        entries += tables.instruction(code, READ_REGISTER, VALUE, 64)
    return tables.erst(entries).hex()


def actions(*codes: tuple[int, int]) -> list[str]:
    return [f"action {code} {value}" for code, value in codes]


# Record 1 is stored, and record 2 is in the log range.
CLEARED = actions((BEGIN_CLEAR, 0), (SET_IDENTIFIER, 2), (EXECUTE, 0), (CHECK_BUSY, 0), (END, 7))
SETUP = [write(1, 128), write(2, 128), *CLEARED]


class Played:
    """What lines that make accesses of the device are answered, and writes of a client."""

    def __init__(self, options: Options) -> None:
        self.device = Device(Store(options.geometry, options.fault))

    def reply(self, line: str) -> str:
        word, *rest = line.split()
        if word == "action":
            answer = f"result {self.device.act(int(rest[0]), int(rest[1]))}"
        elif word == "peek":
            answer = f"bytes {self.device.range.hex()}"
        elif word == "table":
            answer = f"table {3 * len(CODES)}"
        else:
            answer = self.write(bytes.fromhex(rest[0]))
        return f"{answer} @{self.device.store.steps}"

    def write(self, data: bytes) -> str:
        """A client's write of a record that fits the log range."""
        self.device.range[: len(data)] = marked(data)
        for code in (BEGIN_WRITE, SET_OFFSET, EXECUTE):
            self.device.act(code, 0)
        while self.device.act(CHECK_BUSY, 0):
            pass
        status = self.device.act(GET_STATUS, 0)
        self.device.act(END, 0)
        return REFUSALS[status] or f"wrote {identifier_of(data)} {len(data)}"


class Case(NamedTuple):
    options: Options
    lines: list[str]

    def wrong_of(self, program: Program) -> list[str]:
        lines = ["table " + table(), *self.lines]
        played = Played(self.options)
        wanted = [played.reply(line) for line in lines]
        done = program.run("sim", *self.options.words, given=script(lines))
        if done.status == 0 and done.replies == wanted:
            return []
        short = [line[:24] for line in lines]
        return [f"{' '.join(self.options.words)}: status {done.status}, {difference(wanted, done.replies)} of {short}"]


def tried() -> Iterator[Case]:
    """After each beginning each code, with VALUE 1 and with a number that no code takes, and then what shows where the device is."""
    for beginning in BEGINNINGS:
        for code in CODES:
            for value in (1, LAST):
                accesses = actions(*beginning, (code, value), *[(probe, 0) for probe in PROBES])
                yield Case(Options(FLASH), [*SETUP, *accesses, PEEK])


def some_lines(chance: random.Random) -> list[str]:
    lines = []
    for _ in range(chance.randrange(10, 80)):
        if chance.random() < 0.1:
            lines.append(write(chance.choice([1, 2, 3]), chance.choice([128, 300, 449, 1345])))
        else:
            code = chance.choice([*CODES, *[CHECK_BUSY] * 12, *[EXECUTE] * 4, BEGIN_WRITE, BEGIN_READ, BEGIN_CLEAR, SET_IDENTIFIER])
            lines += actions((code, chance.choice([0, 1, 2, 3, 448, 1664, LAST])))
    return [*lines, PEEK]


def drawn(chance: random.Random, count: int) -> Iterator[Case]:
    """Scripts drawn at random, most of them with a change of the flash that fails."""
    for _ in range(count):
        lines = some_lines(chance)
        fail, tear = chance.choice([None, *range(0, 40, 3)]), chance.randrange(4)
        yield Case(Options(FLASH, None if fail is None else Fault(fail, tear)), lines)


def main(words: list[str]) -> int:
    asked, tally = given(words, more=150), Tally("scripts")
    for faults in side_by_side(lambda case: case.wrong_of(asked.program), [*tried(), *drawn(asked.chance, asked.more)]):
        tally.add(faults)
    return tally.end()
