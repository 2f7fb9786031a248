#!/usr/bin/env python3
"""Times what register programs, error records and error status blocks cost, by the program `apei_bench`.

    bench/jobs.py [PROGRAM]

PROGRAM is the built program, by default crates/apei_bench/out/apei_bench; build it by `rt run` in crates/apei_bench. For
each job it prints the least time of five runs, and what that makes for one unit of work.
"""

from pathlib import Path

from harness import milliseconds, program

JOBS = [
    ("goto", 10_000_000, 1, "ns a step of a GOTO loop"),
    ("short", 10_000_000, 1, "ns a step by a table of 4 entries whose two actions alternate"),
    ("long", 10_000_000, 1, "ns a step by one of 2,000 entries"),
    ("dummies", 1_000_000, 1, "ns a client's dummy write of nine steps over plain memory"),
    ("move", 10_000, 65_536, "GB a second by MOVE_DATA of 65,536 bytes"),
    ("records", 100_000, 4_096, "GB a second through a reader of error records, in pieces of 4 KiB"),
    ("blocks", 100_000, 30, "ns an entry of an error status block, decoding included"),
    ("lines", 100_000, 1, "ns to parse a `write` line of 16,384 digits"),
    ("readings", 100_000, 1, "ns to add the bytes of such a line twice"),
]


def seconds(bench: Path, job: str, times: int) -> float:
    """The least of five runs."""
    return min(milliseconds([bench, job, str(times)])[0] for _ in range(5)) / 1000


def main() -> None:
    bench = program("apei_bench")
    for job, times, size, unit in JOBS:
        least = max(seconds(bench, job, times) - seconds(bench, job, 0), 1e-9)
        amount = times * size / least / 1e9 if unit.startswith("GB") else least * 1e9 / (times * size)
        print(f"{job}: {least * 1000:.1f} ms; {amount:.1f} {unit}")


if __name__ == "__main__":
    main()
