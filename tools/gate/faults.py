"""Loses power at each flash change of a script, with each tear, and has each single change and read fail.

    tools/run faults [PROGRAM]

PROGRAM is the built program, by default crates/apei/out/apei. The script stores a record of two sections, counts, walks, reads and clears.
Each reply is compared with what the record map allows: a command that the flash failed is in or out, and every other one is answered by
the records that are there. A second script replaces and clears records over several slots; power is lost at each of its changes too. It is
lost as well in each of the fourteen changes of a write, a replacement and a clear, and comes back at once; then the command is given
again.
"""

from collections.abc import Iterator

from apei.files import FLASH
from apei.flash import Fault, Geometry
from apei.frames import Header, Section, record_of
from apei.harness import Ended, Program, Tally, given, script
from apei.record_map import RecordMap, possible
from apei.scripts import write

RECORD = record_of(Header(7), Section(b"\x11" * 80), Section(b"\x22" * 80))
LINES = ["write " + RECORD.hex(), "count", "next", "read 7", "clear 7", "clear 7", "count"]
RESTARTED = [LINES[0], "reset", *LINES[1:]]
SEVERAL = [write(1, 900), write(2, 128), write(1, 500), write(3, 449), write(2, 1345), "clear 1", write(3, 128)]
AGAIN = [write(1, 128), write(1, 200), "clear 1"]


class Faults(Tally):
    """Runs of a program, each with at most one fault."""

    def __init__(self, program: Program) -> None:
        super().__init__()
        self.program = program

    def sim(self, lines: list[str], *words: str) -> Ended:
        return self.program.run("sim", *words, given=script(lines))

    def wants(self, right: bool, done: Ended, words: list[str]) -> None:
        self.expect(right, f"{' '.join(words)}: status {done.status}, {done.words}")


def is_possible(lines: list[str], done: Ended) -> bool:
    """Whether a run with at most one fault may end so: a restart that the flash fails ends it."""
    replies = done.words
    if len(replies) > len(lines) or not possible(lines, replies, [RecordMap.empty(Geometry())]):
        return False
    if len(replies) < len(lines):
        return done.status == 5 and "refused hardware" not in replies and lines[len(replies)] in ("reset", "power")
    return done.status == 0


def tears(change: int, is_loss: bool) -> Iterator[list[str]]:
    return (Fault(change, tear, is_loss).words for tear in range(4))


def one_record(faults: Faults) -> None:
    """Power is lost at each change; afterwards the record is there as after the lines that had ended by then, or as the next one leaves it.
    Then each change fails, and each read."""
    whole = faults.sim(LINES)
    faults.wants(is_possible(LINES, whole), whole, [])
    states = RecordMap.empty(Geometry()).states(LINES)
    changes = whole.steps[-1]
    for cut in range(changes):
        ended = sum(step <= cut for step in whole.steps)
        shown = [state.replies(["power", "read 7"]) for state in states[ended : ended + 2]]
        for words in tears(cut, True):
            done = faults.sim([*LINES, "power", "read 7"], *words)
            faults.wants(done.status == 0 and done.words[-2:] in shown, done, words)
    for fail in range(changes + 1):
        for words in tears(fail, False):
            done = faults.sim(RESTARTED, *words)
            faults.wants(is_possible(RESTARTED, done), done, words)
    reads_fail(faults)


def reads_fail(faults: Faults) -> None:
    """Each read fails, until one is that no run makes."""
    read, is_met = 0, True
    while is_met:
        words = [f"--fail-read={read}"]
        done = faults.sim(RESTARTED, *words)
        faults.wants(is_possible(RESTARTED, done) or (done.status == 5 and not done.replies), done, words)
        is_met = done.status != 0 or "refused hardware" in done.words
        read += 1


def several_slots(faults: Faults) -> None:
    """Records over several slots: power is lost at each change, with each tear, and all that follows fails until it is back."""
    asks = ["power", "read 1", "read 2", "read 3", "count"]
    states = RecordMap.empty(FLASH).states(SEVERAL)
    wanted = states[0].replies(SEVERAL)
    whole = faults.sim(SEVERAL, *FLASH.words)
    for at, want in enumerate(wanted):
        faults.wants(whole.status == 0 and whole.words[at : at + 1] == [want], whole, FLASH.words)
    for cut in range(whole.steps[-1]):
        ended = sum(step <= cut for step in whole.steps)
        failed = wanted[:ended] + ["refused hardware"] * (len(SEVERAL) - ended)
        allowed = [failed + state.replies(asks) for state in states[ended : ended + 2]]
        for words in tears(cut, True):
            done = faults.sim(SEVERAL + asks, *FLASH.words, *words)
            faults.wants(done.status == 0 and done.words in allowed, done, words)


def given_again(faults: Faults) -> None:
    """A write of 6 changes, a replacement of 7 and a clear of 1. Power comes back right after the command that lost it: the record is then
    the one from before it or the one after it, and the command can be given again."""
    states = RecordMap.empty(FLASH).states(AGAIN)
    wanted = states[0].replies(AGAIN)
    whole = faults.sim(AGAIN, *FLASH.words)
    faults.wants((whole.status, whole.steps) == (0, [6, 13, 14]), whole, FLASH.words)
    for cut in range(whole.steps[-1]):
        ended = sum(step <= cut for step in whole.steps)
        behind = ["power", "read 1", *AGAIN[ended:], "count"]
        allowed = [[*wanted[:ended], "refused hardware", *state.replies(behind)] for state in states[ended : ended + 2]]
        for words in tears(cut, True):
            done = faults.sim(AGAIN[: ended + 1] + behind, *FLASH.words, *words)
            faults.wants(done.status == 0 and done.words in allowed, done, words)


def main(words: list[str]) -> int:
    faults = Faults(given(words).program)
    one_record(faults)
    several_slots(faults)
    given_again(faults)
    return faults.end()
