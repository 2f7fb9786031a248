"""Loses power in each flash change of a script, and has each single change fail, with each tear: `tools/sweep SCRIPT`.

A case is one run of `sim`: the script, or its lines up to the one in which power is lost, a line `power`, and reads of every identifier
that the script stores. The records have to be those after the writes and clears that the replies acknowledge, the one that was refused as
`hardware` being in or out. A hundred cases have a line each, and the last line is the verdict, 'N cases, M wrong'. The first case that is
wrong is shown with the words that play it again, and with --keep=DIR its script and its image are left there. Cases run side by side, on
all processors. The exit status is 0 if none is wrong.
"""

import argparse
from dataclasses import dataclass, replace
from pathlib import Path

import streams
from apei.flash import Fault
from apei.harness import one_by_one
from apei.played import Job, answered, changes, images, job_of, options
from apei.record_map import stored
from installed import tool
from parser import Parser
from streams import Failed

# The records by their identifiers; the bytes of a record that a bridge made are not told by the script.
Records = dict[int, bytes | None]


@dataclass(frozen=True)
class Event:
    """A write or a clear that was acknowledged, or that may be in or out, and the changes that were made when it ended."""

    identifier: int
    stored: bool
    data: bytes | None
    step: int
    in_doubt: bool = False

    def after(self, records: Records) -> Records:
        left = {known: data for known, data in records.items() if known != self.identifier}
        return {**left, self.identifier: self.data} if self.stored else left


def events(job: Job, replies: str) -> list[Event]:
    """The writes and clears of a run, in their order."""
    out: list[Event] = []
    bridged: int | None = None
    for it in answered(job.script, replies):
        words, keyword = it.reply, it.line.split()[0]
        if keyword == "bridge" and words.startswith("bridge"):
            bridged = int(it.line.split()[1])
        elif keyword == "write" and words.split()[0] in ("wrote", "refused"):
            out += write_events(it.line, words, it.step)
        elif keyword == "clear" and (words.startswith("cleared") or words == "refused hardware"):
            out.append(Event(int(it.line.split()[1]), False, None, it.step, words == "refused hardware"))
        elif keyword == "turns":
            bridged = turn_events(words, bridged, out)
    return out


def write_events(line: str, words: str, step: int) -> list[Event]:
    if words.startswith("wrote") or words == "refused hardware":
        identifier, data = stored(line)
        return [Event(identifier, True, data, step, words == "refused hardware")]
    return []


def turn_events(words: str, bridged: int | None, out: list[Event]) -> int | None:
    """Adds what a bridge stored in a line of turns, and tells the identifier that its next block gets."""
    parts = words.split()
    for at, part in enumerate(parts):
        if part == "stored":
            out.append(Event(int(parts[at + 1]), True, None, int(parts[at + 2])))
            bridged = int(parts[at + 1]) + 1
        elif part == "kept" and parts[at + 2 : at + 3] == ["hardware"] and bridged is not None:
            out.append(Event(bridged, True, None, int(parts[at + 1]), True))
    return bridged


def may_stand(events_so_far: list[Event]) -> list[Records]:
    """The records that may stand after these events."""
    states: list[Records] = [{}]
    for event in events_so_far:
        after = [event.after(records) for records in states]
        states = after + states if event.in_doubt else after
    return states


def matches(found: Records, allowed: Records) -> bool:
    return found.keys() == allowed.keys() and all(allowed[it] is None or allowed[it] == found[it] for it in found)


@dataclass(frozen=True)
class Case:
    """One change that power is lost in, or that fails, and what it leaves."""

    kind: str
    at: int
    torn: int

    @property
    def words(self) -> list[str]:
        return Fault(self.at, self.torn, self.kind == "cut").words


class Sweep:
    def __init__(self, job: Job) -> None:
        self.job = job
        whole = job.sim()
        if whole.status:
            raise Failed(1, f"{whole.said.strip()}: the script is not played to its end, status {whole.status}")
        # The number of each line that has a reply, and the changes that were made when it ended.
        self.ends = [(it.number, it.step) for it in answered(job.script, whole.text)]
        self.changes = max((step for _, step in self.ends), default=0)
        self.identifiers = sorted({event.identifier for event in events(job, whole.text)})
        self.asks = "".join(f"read {it}\n" for it in self.identifiers if it) + "count\n"

    def cases(self) -> list[Case]:
        return [Case(kind, at, torn) for kind in ("cut", "fail") for at in range(self.changes) for torn in range(4)]

    def wrong(self, case: Case) -> str | None:
        """What is wrong of a case."""
        played = self.played(case)
        done = played.sim(*case.words, behind=b"power\n" + self.asks.encode())
        if done.status == 5 and case.kind == "fail":
            return None  # The change failed as the machine was started again, which ends the run.
        if done.status:
            return f"status {done.status}, {done.said.strip()}"
        asked = done.replies[-1 - self.asks.count("\n") :]
        found = self.found(asked)
        if found is None:
            return f"the flash is not reopened: {[reply[:40] for reply in asked]}"
        known = events(played, done.text)
        if any(matches(found, allowed) for allowed in may_stand(known)):
            return None
        return f"reopened, it holds {shown(found)}, which no prefix of what was acknowledged gives"

    def played(self, case: Case) -> Job:
        """What is played: the script, up to the line in which power is lost."""
        if case.kind == "fail":
            return self.job
        last = next(number for number, step in self.ends if step > case.at)
        return replace(self.job, script=b"\n".join(self.job.script.split(b"\n")[: last + 1]))

    def found(self, asked: list[str]) -> Records | None:
        """The records that were read after the last line of the script; None if they were not."""
        if not asked[0].startswith("power"):
            return None
        records: Records = {}
        for reply in asked[1:-1]:
            words = reply.split()
            if words[0] == "record":
                records[int(words[1])] = bytes.fromhex(words[3])
            elif words[:2] not in (["refused", "empty"], ["refused", "not-found"]):
                return None
        return records if asked[-1].split()[:2] == ["count", str(len(records))] else None


def shown(records: Records) -> str:
    return ", ".join(f"record {it} of {len(data or b'')} bytes" for it, data in records.items()) or "nothing"


def keep(folder: Path, job: Job, case: Case) -> None:
    """Leaves the script of a case, and its image if power was lost."""
    folder.mkdir(parents=True, exist_ok=True)
    (folder / "script").write_bytes(job.script)
    (folder / "words").write_text(" ".join(["sim", *job.words, *case.words]) + "\n")
    if case.kind == "cut":
        _, made = changes(job)
        before = images(job.geometry, made[: case.at])[-1]
        (folder / "image").write_bytes(made[case.at].torn(before, case.torn))


def main() -> int:
    says = "loses power in, and fails, each flash change of a script, with each tear"
    parser = Parser(prog=tool("sweep"), description=says)
    parser.add_argument("--keep", type=Path, metavar="DIR", help="where the first case that is wrong is left, with its image")
    options(parser)
    given = parser.parse_args()
    sweep = Sweep(job_of(given))
    wrong, first, cases = 0, None, sweep.cases()
    for at, found in enumerate(one_by_one(sweep.wrong, cases)):
        wrong += found is not None
        if found is not None and first is None:
            first = cases[at], found
        if (at + 1) % 100 == 0:
            print(f"{at + 1} of {len(cases)} cases, {wrong} wrong", flush=True)
    if first:
        case, found = first
        streams.say("sweep", f"{' '.join(['sim', *sweep.job.words, *case.words])}: {found}")
        if given.keep:
            keep(given.keep, sweep.job, case)
    print(f"{len(cases)} cases, {wrong} wrong")
    return 1 if wrong else 0


def start() -> None:
    streams.end("sweep", main)
