"""Kills `play` at random moments and opens its file again.

    tools/run kills [PROGRAM] [RUNS] [SEED]

PROGRAM is the built program, by default crates/apei/out/apei. RUNS, 200 if it is not said, are killed, and each goes on with the file
that the one before it left: it plays commands at random over several slots until a moment within the time that a whole run takes. Then the
file is opened: its records are those after the commands whose replies came, or after one command more. What a kill leaves is in the
kernel's hands, so this shows what a program that dies loses, and not what a machine without power does: the tool `file_faults` has the
writes and syncs that fail.
"""

import random
import subprocess
import time
from collections.abc import Iterator
from pathlib import Path

from apei.files import FLASH, lengths, play, records_in
from apei.harness import Given, Program, Tally, given, scratch, script, without_step
from apei.record_map import RecordMap
from apei.scripts import write

IDENTIFIERS = [1, 2, 3, 4]
COMMANDS = 60


def commands(chance: random.Random) -> Iterator[str]:
    for _ in range(COMMANDS):
        kind = chance.randrange(10)
        if kind < 7:
            yield write(chance.choice(IDENTIFIERS), chance.choice([128, 449, 900, 1345]))
        elif kind < 9:
            yield f"clear {chance.choice(IDENTIFIERS)}"
        else:
            yield "count"


def killed(program: Program, image: Path, lines: list[str], moment: float) -> tuple[list[str], bool]:
    """The replies that came before the program was killed, and whether it was."""
    words: list[str | Path] = [program.path, "play", f"--image={image}", *FLASH.words]
    running = subprocess.Popen(words, stdin=subprocess.PIPE, stdout=subprocess.PIPE, stderr=subprocess.DEVNULL)
    assert running.stdin and running.stdout
    running.stdin.write(script(lines))
    running.stdin.close()
    time.sleep(moment)
    running.kill()
    replies = running.stdout.read().decode()
    running.stdout.close()
    # A reply whose newline did not come is none.
    return [without_step(reply) for reply in replies.split("\n")[:-1]], running.wait() != 0


def whole_time(program: Program, image: Path) -> float:
    """The seconds of a run that nobody kills."""
    begun = time.monotonic()
    play(program, image, commands(random.Random(0)))
    return time.monotonic() - begun


def wrong_of(before: RecordMap, lines: list[str], replies: list[str], found: dict[int, bytes] | None) -> list[str]:
    """What is wrong of the records that a run left, by the replies that came."""
    states = before.states(lines)
    allowed = [state.records for state in states[len(replies) : len(replies) + 2]]
    if replies == before.replies(lines)[: len(replies)] and found in allowed:
        return []
    return [f"after {len(replies)} replies: {lengths(found)}"]


def kill_all(asked: Given, folder: Path, tally: Tally) -> int:
    """How many runs were killed."""
    image, whole, kills = folder / "image", whole_time(asked.program, folder / "timed"), 0
    before = RecordMap.empty(FLASH)
    while kills < asked.more and tally.cases < 10 * asked.more:
        lines = list(commands(asked.chance))
        replies, is_killed = killed(asked.program, image, lines, asked.chance.uniform(0, whole))
        kills += is_killed
        found = records_in(asked.program, image, IDENTIFIERS)
        tally.add(f"run {tally.cases + 1}: {what}" for what in wrong_of(before, lines, replies, found))
        before = RecordMap(FLASH, found or {})
    return kills


def main(words: list[str]) -> int:
    asked, tally = given(words, more=200), Tally()
    with scratch() as folder:
        kills = kill_all(asked, folder, tally)
    print(f"{kills} of them were killed: ", end="")
    return tally.end() or int(kills < asked.more)
