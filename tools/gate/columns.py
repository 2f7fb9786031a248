"""Compares the column of a bad line with the rows of tests/columns and with a plain grammar.

    tools/run columns [PROGRAM] [TEXTS] [SEED]

PROGRAM is the built program, by default crates/apei/out/apei. A row of tests/columns/script or check is a column, or 00 for a line, a
blank and a text, in which \\r, \\t and \\xff stand for bytes. Each text is given to `sim` or `check` as its one line, and so are TEXTS
more, 300 if it is not said, that are cut from lines and changed at random. Their columns are those of the grammar, by the definition
of docs/SCRIPT.md: one more than the length of the longest beginning with which some line begins.
"""

import random
from collections.abc import Iterator
from typing import NamedTuple

from apei import TOP
from apei.grammar import column
from apei.harness import Program, Tally, given, side_by_side

WHOLE = {
    "sim": [b"count", b"next", b"dummy", b"bert", b"heard", b"reset", b"power", b"write 4f4F", b"table aB", b"table own", b"table shadow",
            b"error 00", b"fatal 0a", b"read 18446744073709551615", b"clear 7", b"bridge 70", b"action 255 18446744073709551615",
            b"action 26 5", b"peek 5 4096", b"peek 18446744073709551615 1", b"turns FRF", b"# x", b""],
    "check": [b"erst 00", b"hest 4f", b"bert aB", b"record 4345", b"block 12", b"# x", b""],
}


class Case(NamedTuple):
    """A text, and the column that a job has to say of it; 0 if it is a line."""

    job: str
    column: int
    text: bytes

    def differs(self, program: Program) -> list[str]:
        words = ["--sector=256", "--slots=2"] if self.job == "sim" else []
        done = program.run(self.job, *words, given=self.text)
        said = f"apei: line 1 column {self.column}\n" if self.column else ""
        if (done.status, done.said) == (2 if self.column else 0, said):
            return []
        return [f"{self.job}: {self.text[:60]!r}: wanted column {self.column}, found status {done.status}, {done.said!r}"]


def rows(job: str, name: str) -> Iterator[Case]:
    for row in (TOP / "tests" / "columns" / name).read_bytes().decode("ascii").splitlines():
        yield Case(job, int(row[:2]), row[3:].encode().decode("unicode_escape").encode("latin-1"))


def by_hand() -> list[Case]:
    longest = [(0, b"turns " + b"F" * 4096), (4103, b"turns " + b"F" * 4097), (9, b"turns FRx" + b"F" * 5000)]
    return [*rows("sim", "script"), *rows("check", "check"), *(Case("sim", *row) for row in longest)]


def changed(chance: random.Random, lines: list[bytes]) -> bytes:
    text = bytearray(chance.choice(lines))
    for _ in range(chance.choice([1, 1, 2])):
        at = chance.randrange(len(text) + 1)
        kind = chance.randrange(4)
        if kind == 0:
            text = text[:at]
        elif kind == 1:
            text[at:at] = bytes([chance.choice(b" 0123456789abFRownx\t\r\xff")])
        elif kind == 2:
            del text[at : at + 1]
        else:
            text[at : at + 1] = bytes([chance.choice(b" 0125679afFR")])
    return bytes(text)


def drawn(chance: random.Random, count: int) -> Iterator[Case]:
    for _ in range(count):
        job = chance.choice(["sim", "sim", "sim", "check"])
        text = changed(chance, WHOLE[job])
        yield Case(job, column(job, text), text)


def main(words: list[str]) -> int:
    asked, tally = given(words, more=300), Tally("texts")
    known = by_hand()
    for case, faults in zip(known, side_by_side(lambda case: case.differs(asked.program), known)):
        by_grammar = column(case.job, case.text)
        if by_grammar != case.column:
            faults.append(f"{case.job}: {case.text[:60]!r}: by the grammar of the tool column {by_grammar}")
        tally.add(faults)
    for faults in side_by_side(lambda case: case.differs(asked.program), drawn(asked.chance, asked.more)):
        tally.add(faults)
    return tally.end()
