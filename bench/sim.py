#!/usr/bin/env python3
"""Times the program on a script of 31 records of 8,128 bytes, which fill a store of the default geometry.

    bench/sim.py [PROGRAM] [RUNS]

PROGRAM is the built program, by default crates/apei/out/apei; build it by ./apei sim </dev/null. It prints the median of
RUNS runs (default 20) in milliseconds: of that script, of an empty one, and the difference.
"""

from harness import median, milliseconds, program, runs

from apei.harness import script
from apei.scripts import write


def main() -> None:
    player, count = program(), runs(20)
    text = script(write(identifier, 8128) for identifier in range(1, 32))
    full, empty = (median(milliseconds([player, "sim"], given)[0] for _ in range(count)) for given in (text, b""))
    print(f"31 records of 8,128 bytes: {full:.1f} ms; empty script: {empty:.1f} ms; difference {full - empty:.1f} ms")


if __name__ == "__main__":
    main()
