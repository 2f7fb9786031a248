#!/usr/bin/env python3
"""Times two programs in one run, one after the other and again, so that what else the machine does falls on both.

    bench/compare.py BEFORE AFTER [RUNS]

Each is a built program. It plays 10,000 writes of 128 to 368 bytes over 20 and 40 identifiers and reads of all of them, over
32 and 1,024 slots of two sectors of 256 bytes; 31 records of 8,128 bytes in the default geometry; and an empty script over a
flash of 64 MiB, which is opened. For each it prints the median of RUNS runs (default 15) in milliseconds of either, and their
ratio. At last AFTER alone plays as many bytes in 7 records of 32,512 bytes, of four slots each, and in 28 of 8,128.
"""

import subprocess
import sys
import time

from harness import median, runs

from apei.flash import Geometry
from apei.harness import script
from apei.scripts import write
from store import lines


def records(count: int, length: int) -> bytes:
    return script(write(identifier, length) for identifier in range(1, count + 1))


def play(player: str, words: list[str], text: bytes) -> float:
    """Milliseconds of one run."""
    start = time.perf_counter()
    done = subprocess.run([player, "sim", *words], input=text, stdout=subprocess.DEVNULL, stderr=subprocess.PIPE, check=False)
    took = (time.perf_counter() - start) * 1000
    assert done.returncode == 0, done.stderr
    return took


def main() -> None:
    before, after, count = sys.argv[1], sys.argv[2], runs(15, place=3)
    scripts = [
        (f"{identifiers} identifiers, {slots} slots", Geometry(256, 2, slots).words, lines(identifiers))
        for identifiers in (20, 40)
        for slots in (32, 1024)
    ]
    scripts.append(("31 records of 8,128 bytes", [], records(31, 8128)))
    scripts.append(("64 MiB opened", Geometry(4096, 16, 1024).words, b""))
    scripts.append(("nothing", [], b""))
    for name, words, text in scripts:
        rounds = [(play(before, words, text), play(after, words, text)) for _ in range(count)]
        one, other = (median(times) for times in zip(*rounds))
        print(f"{name}: {one:.2f} ms before, {other:.2f} ms after, {other / one:.2f} times")
    rounds = [(play(after, [], records(7, 32512)), play(after, [], records(28, 8128))) for _ in range(count)]
    four, one = (median(times) for times in zip(*rounds))
    print(f"7 records of 32,512 bytes: {four:.2f} ms; 28 of 8,128: {one:.2f} ms")


if __name__ == "__main__":
    main()
