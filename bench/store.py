#!/usr/bin/env python3
"""Times the program on 10,000 writes of 128 to 368 bytes over few identifiers, and then reads of all of them.

    bench/store.py [PROGRAM] [RUNS]

PROGRAM is the built program, by default crates/apei/out/apei; build it by ./apei sim </dev/null. The same script is played
over 1,024 and over 32 slots of two sectors of 256 bytes: a command costs about the same. For each it prints the median of
RUNS runs (default 7) in milliseconds, what that makes for a command, and the peak of the process's memory, which holds the
simulated flash. Over 32 slots no more than 31 identifiers have room, so both are measured
with 20 as well.
"""

import os
import subprocess
import time
from pathlib import Path

from harness import median, program, runs

from apei.flash import Geometry
from apei.harness import script
from apei.scripts import write

WRITES = 10_000


def lines(identifiers: int) -> bytes:
    writes = (write(1 + at % identifiers, 128 + 16 * (at % 16)) for at in range(WRITES))
    return script([*writes, *(f"read {1 + at}" for at in range(identifiers))])


def play(player: Path, slots: int, text: bytes) -> tuple[float, float]:
    """Milliseconds and peak memory in MiB of one run."""
    words: list[str | Path] = [player, "sim", *Geometry(256, 2, slots).words]
    start = time.perf_counter()
    child = subprocess.Popen(words, stdin=subprocess.PIPE, stdout=subprocess.DEVNULL)
    assert child.stdin
    child.stdin.write(text)
    child.stdin.close()
    _, status, usage = os.wait4(child.pid, 0)
    took = (time.perf_counter() - start) * 1000
    assert status == 0, status
    return took, usage.ru_maxrss / 1024


def main() -> None:
    for identifiers in (40, 20):
        text = lines(identifiers)
        for slots in (1024, 32):
            results = [play(program(), slots, text) for _ in range(runs(7))]
            took, peak = median(took for took, _ in results), max(peak for _, peak in results)
            each = took * 1000 / (WRITES + identifiers)
            print(f"{identifiers} identifiers, {slots} slots: {took:.1f} ms, {each:.2f} us a command, peak {peak:.1f} MiB")


if __name__ == "__main__":
    main()
