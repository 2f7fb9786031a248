#!/usr/bin/env python3
"""Times 100,000 generated commands, in the default geometry and on 1,024 slots of two sectors of 256 bytes.

    bench/gen.py [PROGRAM] [RUNS]

PROGRAM is the built program, by default crates/apei/out/apei; build it by ./apei sim </dev/null. For each it prints the median of RUNS
runs (default 5) in milliseconds, less that of no commands, what that makes for a command, the flash changes, and the peak of the
process's memory, which holds the simulated flash.
"""

import os
import subprocess
import time
from pathlib import Path
from typing import NamedTuple

from harness import median, program, runs

from apei.flash import Geometry

COUNT = 100_000


class Run(NamedTuple):
    """Milliseconds, line, and peak memory in MiB."""

    took: float
    line: str
    peak: float


def play(player: Path, words: list[str]) -> Run:
    start = time.perf_counter()
    child = subprocess.Popen([player, "gen", *words], stdin=subprocess.DEVNULL, stdout=subprocess.PIPE)
    assert child.stdout
    line = child.stdout.read().decode()
    _, status, usage = os.wait4(child.pid, 0)
    took = (time.perf_counter() - start) * 1000
    assert status == 0, status
    return Run(took, line, usage.ru_maxrss / 1024)


def main() -> None:
    player, count = program(), runs(5)
    for name, geometry in [("the default geometry", Geometry()), ("1,024 slots", Geometry(256, 2, 1024))]:
        rest = median(play(player, ["--count=0", *geometry.words]).took for _ in range(count))
        results = [play(player, [f"--count={COUNT}", "--seed=7", *geometry.words]) for _ in range(count)]
        took, peak = median(run.took for run in results) - rest, max(run.peak for run in results)
        changes = int(results[0].line.rsplit("@", 1)[1])
        print(f"{name}: {took:.1f} ms, {took * 1000 / COUNT:.2f} us a command, {changes} flash changes, peak {peak:.1f} MiB")


if __name__ == "__main__":
    main()
