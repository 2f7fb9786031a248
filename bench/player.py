#!/usr/bin/env python3
"""Times what a player does most, and if two programs are given, one beside the other.

    bench/player.py PROGRAM [BEFORE] [RUNS]

PROGRAM plays 10,000 writes over 32 and over 1,024 slots, 500,000 counts, 20,000 reads of a record of 8,128 bytes, 10,000 lines that run an
action, 2,000 lines of 1,000 turns each with a block before every fourth, and 2,000 losses of power over 1,024 slots. For each it prints
the median of RUNS runs (default 5) in milliseconds and the time of one line; beside it that of BEFORE if that program plays such lines.
"""

import subprocess
import sys
import time
from collections.abc import Iterator
from typing import NamedTuple

from harness import median, runs

from apei.frames import block
from apei.harness import script
from apei.scripts import write


class Job(NamedTuple):
    """Lines of one kind: their words, their text, and how many there are."""

    name: str
    words: list[str]
    text: bytes
    lines: int


def play(player: str, words: list[str], text: bytes) -> float | None:
    """Milliseconds of one run, or nothing if the program does not play it."""
    start = time.perf_counter()
    done = subprocess.run([player, "sim", *words], input=text, stdout=subprocess.DEVNULL, stderr=subprocess.PIPE, check=False)
    took = (time.perf_counter() - start) * 1000
    return took if done.returncode == 0 else None


def milliseconds(player: str, words: list[str], text: bytes, count: int) -> float | None:
    times = [took for took in (play(player, words, text) for _ in range(count)) if took is not None]
    return median(times) if len(times) == count else None


def turns() -> Iterator[str]:
    for at in range(2_000):
        if at % 4 == 0:
            yield "error " + block(2, bytes(range(1, 9))).hex()
        yield "turns " + "FR" * 500


def jobs() -> list[Job]:
    few, many = (["--sector=256", f"--slots={slots}"] for slots in (32, 1024))
    writes = [write(1 + at % 20, 128) for at in range(10_000)]
    return [
        Job("10,000 writes, 32 slots", few, script(writes), 10_000),
        Job("10,000 writes, 1,024 slots", many, script(writes), 10_000),
        Job("500,000 counts", [], b"count\n" * 500_000, 500_000),
        Job("20,000 reads of 8,128 bytes", [], script([write(1, 8128)]) + b"read 1\n" * 20_000, 20_000),
        Job("10,000 actions", [], b"action 14 0\n" * 10_000, 10_000),
        Job("2,000 lines of 1,000 turns", [], script(turns()), 2_000),
        Job("2,000 times power lost and back", many, script(writes[:1]) + b"power\n" * 2_000, 2_000),
    ]


def main() -> None:
    player, before, count = sys.argv[1], sys.argv[2] if len(sys.argv) > 2 else None, runs(5, place=3)
    rest = milliseconds(player, [], b"", count)
    assert rest is not None
    print(f"an empty script: {rest:.2f} ms")
    for job in jobs():
        took = milliseconds(player, job.words, job.text, count)
        assert took is not None, job.name
        said = f"{job.name}: {took:.1f} ms, {(took - rest) * 1000 / job.lines:.2f} us a line"
        old = milliseconds(before, job.words, job.text, count) if before else None
        print(said if old is None else f"{said}; before {old:.1f} ms, {took / old:.2f} times")


if __name__ == "__main__":
    main()
