#!/usr/bin/env python3
"""Times a handover of a block of 4,096 bytes, all turns of both sides, beside two copies of its bytes, and beside copies into
memory and out of it by accesses of 64 bytes each, all in one loop, and each in a call of its own.

    bench/handover.py [PROGRAM]

PROGRAM is the built program, by default crates/apei_bench/out/apei_bench; build it by `rt run` in crates/apei_bench. The turns are made by
three calls, and each by a call of its own; what it takes to submit the block, which copies it once more, is timed alone and taken off. It
prints the median of 21 rounds for each, in nanoseconds of processor time, and the median of the ratios of each round.
"""

import os
import sys
from pathlib import Path

from harness import median, program

TIMES = {"handover": 100_000, "turns": 30_000, "submits": 2_000, "copies": 200_000, "pieces": 50_000, "apart": 50_000}
ROUNDS = 21


def seconds(bench: Path, job: str, times: int, nowhere: int) -> float:
    """The processor time of a run."""
    child = os.posix_spawn(bench, [str(bench), job, str(times)], os.environ, file_actions=[(os.POSIX_SPAWN_DUP2, nowhere, 1)])
    _, status, used = os.wait4(child, 0)
    if status:
        sys.exit(f"{bench} {job} {times}: status {status}")
    return float(used.ru_utime + used.ru_stime)


def all_rounds(bench: Path) -> dict[str, list[float]]:
    """For each job the nanoseconds of one, round by round."""
    nowhere = os.open(os.devnull, os.O_WRONLY)
    rest = min(seconds(bench, "copies", 0, nowhere) for _ in range(11))
    rounds: dict[str, list[float]] = {job: [] for job in TIMES}
    for _ in range(ROUNDS):
        for job, times in TIMES.items():
            rounds[job].append((seconds(bench, job, times, nowhere) - rest) * 1e9 / times)
    # A submission is timed 64 at once.
    return {**rounds, "submits": [each / 64 for each in rounds["submits"]]}


def ratio(taken: list[float], other: list[float]) -> float:
    """How many times as long as another job, in the median of the rounds."""
    return median(one / two for one, two in zip(taken, other))


def main() -> None:
    rounds = all_rounds(program("apei_bench"))
    copies, pieces, apart, submits = (rounds[job] for job in ("copies", "pieces", "apart", "submits"))
    print(
        f"two copies: {median(copies):.0f} ns; by pieces: {median(pieces):.0f} ns; each in a call: {median(apart):.0f} ns; "
        f"a submission: {median(submits):.0f} ns"
    )
    for name, whole in [("three calls", rounds["handover"]), ("a call for each turn", rounds["turns"])]:
        turns = [one - submit for one, submit in zip(whole, submits)]
        print(
            f"all turns by {name}: {median(turns):.0f} ns, {ratio(turns, copies):.2f} times two copies, "
            f"{ratio(turns, pieces):.1f} times by pieces, {ratio(turns, apart):.1f} times each in a call; "
            f"with the submission {median(whole):.0f} ns, {ratio(whole, copies):.1f} times two copies"
        )


if __name__ == "__main__":
    main()
