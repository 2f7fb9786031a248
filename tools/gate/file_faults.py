"""Has each write and each sync of a real file fail once, by strace, and each read of the input and each write of the output.

    tools/run file_faults [PROGRAM]

PROGRAM is the built program, by default crates/apei/out/apei. `play` writes, replaces and clears records over several slots; the write or
sync of each of its flash changes fails with EIO, and with ENOSPC. Afterwards the file is opened again: the records are those that the
replies acknowledged, a command that was refused as `hardware` being in or out. So it is if the first write of that opening fails as
well. Right after such a fault the run reads the range of its change back, writes these bytes once more and syncs them. A file that is
made is synced, and then its folder; it meets the same faults, and those of its two names; then it is there, whole and erased, or it is
not, and the next run makes it. A file in a folder that is missing is refused. `sim` ends at the read and at the write that fails, with the
replies before it. If there is no strace, or none that may trace, that is said, and the exit status is 0.
"""

import os
import re
import shutil
import subprocess
import tempfile
from collections.abc import Iterable, Sequence
from pathlib import Path
from typing import NamedTuple

from apei.files import FLASH, lengths, play, records_in
from apei.harness import Ended, Program, Tally, given, scratch, script, side_by_side
from apei.record_map import RecordMap, possible
from apei.scripts import write

ERRORS = ["EIO", "ENOSPC"]
IDENTIFIERS = [1, 2, 3]
EMPTY = RecordMap.empty(FLASH)
# One record over three slots, one of one, replacements over two slots and over four, a second record of two, and clears.
LINES = [
    write(1, 900), "count", write(2, 128), write(1, 500), "read 1", write(3, 449), write(2, 1345), "read 2", "clear 1", "count",
    write(1, 128), write(3, 128), "clear 3", "read 3", "count",
]
# Lines that need no record, with their replies; comments after them take the last line past what one read takes.
PLAIN = [
    ("count", "count 0"), ("next", "next end"), ("# nothing", ""), ("dummy", "dummy ok"), ("read 7", "refused empty"),
    ("action 14 0", "result 32512"), ("turns FR", "turns idle nothing"), ("bert", "bert 0"), ("heard", "heard 0 0 0"), ("reset", "reset 0"),
]
PLAIN += [("#" * 100000, "")] * 6 + [("count", "count 0")]
CALL = re.compile(r"\d+ +(\w+)\(\d+<([^>]*)>(?:, \"([^\"]*)\", \d+, (\d+))?\) += +(.*)")


class Fault(NamedTuple):
    """A call of the kernel that fails with an error: the N-th of its name."""

    call: str
    error: str
    when: int

    def __str__(self) -> str:
        return f"{self.call} {self.when} with {self.error}"

    def traced(self, log: str = os.devnull, seen: Sequence[str] = ()) -> list[str]:
        # What strace says of itself goes to a file of its own; the program is not told apart from another one.
        inject = f"inject={self.call}:error={self.error}:when={self.when}"
        return ["strace", "-f", "-qq", "-y", "-xx", "-s", "65536", "-o", log, "-e", "trace=" + ",".join([self.call, *seen]), "-e", inject]


class Call(NamedTuple):
    """A call of the kernel on a file, as strace writes it."""

    name: str
    path: str
    data: str
    place: str
    answer: str

    @property
    def range(self) -> tuple[str, int, str]:
        return self.path, len(self.data), self.place


def calls_in(log: str) -> list[Call]:
    return [Call(*(part or "" for part in match.groups())) for match in map(CALL.match, log.splitlines()) if match]


def is_stored_again(calls: list[Call]) -> bool:
    """Whether a change whose write or sync failed was read back, and what was read was written there once more and synced."""
    failed = [at for at, call in enumerate(calls) if call.answer.endswith("(INJECTED)")]
    if len(failed) != 1:
        return False
    at = failed[0]
    change = calls[at] if calls[at].name == "pwrite64" else calls[at - 1]
    behind = calls[at + 1 : at + 4]
    if [call.name for call in behind] != ["pread64", "pwrite64", "fdatasync"]:
        return False
    read, written, sync = behind
    return read.range == written.range == change.range and read.data == written.data and sync.path == change.path


def short(replies: list[str]) -> list[str]:
    return [reply[:30] for reply in replies]


class Counted(NamedTuple):
    """How a run ended, how often it made each call of the kernel, and the paths that it synced whole."""

    done: Ended
    calls: dict[str, int]
    synced: list[str]


def counted(program: Program, image: Path, lines: Iterable[str]) -> Counted:
    names = ["pwrite64", "fdatasync", "fsync", "link", "unlink"]
    with tempfile.NamedTemporaryFile() as log:
        done = play(program, image, lines, ["strace", "-f", "-qq", "-y", "-o", log.name, "-e", "trace=" + ",".join(names)])
        text = log.read().decode().splitlines()
    synced = [line.split("<")[1].split(">")[0] for line in text if " fsync(" in line]
    return Counted(done, {name: sum(f" {name}(" in line for line in text) for name in names}, synced)


def opened_again(program: Program, image: Path, states: list[RecordMap], what: str) -> list[str]:
    """What is wrong of a file that is opened again: first with a fault in its first write, if it makes one, and then without."""
    done = play(program, image, [], Fault("pwrite64", "EIO", 1).traced())
    if done.status not in (0, 5) or done.replies:
        return [f"{what}: the next opening ended with status {done.status}"]
    records = records_in(program, image, IDENTIFIERS)
    if records not in [state.records for state in states]:
        return [f"{what}: the file holds {lengths(records)}"]
    return []


def change_fails(program: Program, folder: Path, fault: Fault) -> list[str]:
    """What is wrong if a change of an erased file fails."""
    image = folder / "-".join(map(str, fault))
    image.write_bytes(FLASH.erased)
    with tempfile.NamedTemporaryFile() as log:
        done = play(program, image, LINES, fault.traced(log.name, ["pread64", "pwrite64", "fdatasync"]))
        calls = calls_in(log.read().decode())
    states = possible(LINES, done.words, [EMPTY])
    if done.status or len(done.replies) != len(LINES) or done.words.count("refused hardware") != 1 or not states:
        return [f"{fault}: status {done.status}, {short(done.replies)}, {done.said}"]
    if not is_stored_again(calls):
        return [f"{fault}: what the file then had was not stored once more"]
    return opened_again(program, image, states, str(fault))


def making_fails(program: Program, folder: Path, fault: Fault) -> list[str]:
    """What is wrong if the making of a file fails."""
    inside = folder / f"new-{'-'.join(map(str, fault))}"
    inside.mkdir()
    image, what = inside / "image", f"a new file, {fault}"
    done = play(program, image, ["count"], fault.traced())
    left = os.listdir(inside)
    if (done.status, done.replies, done.said) != (5, [], "apei: flash failed\n"):
        return [f"{what}: status {done.status}, {done.replies}, {done.said}"]
    if image.exists() and image.read_bytes() != FLASH.erased:
        return [f"{what}: the file that was made is not erased"]
    if fault.call != "unlink" and left not in ([], ["image"]):
        return [f"{what}: {left} is left"]
    done = play(program, image, LINES)
    states = possible(LINES, done.words, [EMPTY])
    if done.status or "refused hardware" in done.words or len(states) != 1:
        return [f"{what}: the next run ended with status {done.status}, {short(done.replies)}"]
    return opened_again(program, image, states, what)


def streams_fail(program: Program, folder: Path, tally: Tally) -> None:
    """Each read of the input fails, and each write of the output."""
    path, log = folder / "script", folder / "reads"
    path.write_bytes(script(line for line, _ in PLAIN))
    with open(path, "rb") as stream:
        program.run("sim", stdin=stream, before=["strace", "-f", "-qq", "-o", str(log), "-e", "trace=read", "-P", str(path)])
    read = [int(line.rsplit(" = ", 1)[1]) for line in log.read_text().splitlines()]
    text = path.read_text()
    tally.expect(len(read) > 3 and sum(read) == len(text), f"reads of {read} bytes")
    replies = [f"{reply} @0" for _, reply in PLAIN if reply]
    runs = [(Fault("read", "EIO", when), 3, "apei: read failed\n") for when in range(1, len(read) + 1)]
    runs += [(Fault("write", "EIO", when), 4, "apei: write failed\n") for when in range(1, len(replies) + 1)]
    for fault, status, said in runs:
        ended = text[: sum(read[: fault.when - 1])].count("\n")
        before = replies[: fault.when - 1] if fault.call == "write" else [f"{reply} @0" for _, reply in PLAIN[:ended] if reply]
        with open(path, "rb") as stream:
            of_file = ["-P", str(path)] if fault.call == "read" else []
            done = program.run("sim", stdin=stream, before=[*fault.traced(), *of_file])
        found = done.status, done.replies, done.said
        tally.expect(found == (status, before, said), f"{fault}: {found}")


def without_faults(program: Program, folder: Path, tally: Tally) -> tuple[dict[str, int], dict[str, int]]:
    """The calls by which a file is made, and those of the script over it."""
    image = folder / "image"
    made, changed = counted(program, image, []), counted(program, image, LINES)
    is_synced = len(made.synced) == 2 and made.synced[0].startswith(f"{image}.") and made.synced[1] == str(folder)
    tally.expect(made.done.status == 0 and made.calls["pwrite64"] > 0 and is_synced, f"a new file: {made}")
    writes, syncs = changed.calls["pwrite64"], changed.calls["fdatasync"]
    tally.expect(changed.done.status == 0 and writes >= 80 and writes == syncs, f"the script: {changed.calls}")
    full = play(program, folder / "whole", LINES)
    states = [state.records for state in possible(LINES, full.words, [EMPTY])]
    is_whole = full.status == 0 and "refused hardware" not in full.words and records_in(program, image, IDENTIFIERS) in states
    tally.expect(is_whole, f"the script without a fault: {full.status}, {short(full.replies)}")
    nowhere = play(program, folder / "missing" / "image", ["count"])
    is_refused = (nowhere.status, nowhere.replies, nowhere.said) == (5, [], "apei: flash failed\n")
    tally.expect(is_refused and not (folder / "missing").exists(), f"a folder that is missing: {nowhere}")
    return made.calls, changed.calls


def faults_of(calls: dict[str, int], names: Iterable[str]) -> list[Fault]:
    return [Fault(call, error, when) for call in names for error in ERRORS for when in range(1, calls[call] + 1)]


def may_trace() -> bool:
    words = ["strace", "-qq", "-o", os.devnull, "-e", "trace=fsync", "true"]
    return subprocess.run(words, capture_output=True, check=False).returncode == 0


def main(words: list[str]) -> int:
    program, tally = given(words).program, Tally()
    if not shutil.which("strace"):
        print("file faults: not tried, since there is no strace here (a Debian package)")
        return 0
    if not may_trace():
        print("file faults: not tried, since strace may not trace here")
        return 0
    with scratch() as folder:
        made, changed = without_faults(program, folder, tally)
        streams_fail(program, folder, tally)
        for found in side_by_side(lambda fault: change_fails(program, folder, fault), faults_of(changed, ("pwrite64", "fdatasync"))):
            tally.add(found)
        for found in side_by_side(lambda fault: making_fails(program, folder, fault), faults_of(made, made)):
            tally.add(found)
    return tally.end()
