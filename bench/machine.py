#!/usr/bin/env python3
"""Times the machine beside its store: a record of 128 bytes written by a client with the machine's own table and by a call of the
store, an access of plain memory, and a boot and an opening over a flash of 64 MiB.

    bench/machine.py [PROGRAM]

PROGRAM is the built program, by default crates/apei_bench/out/apei_bench; build it by `rt run` in crates/apei_bench. It
prints the least time of five runs for each, and the ratios. Boots and openings are timed with memory that the C library keeps
(MALLOC_TRIM_THRESHOLD_): else each gives its memory back and takes fresh pages of the system, some 0.1 ms a boot.
"""

import os
from pathlib import Path

from harness import milliseconds, program

KEPT = {**os.environ, "MALLOC_TRIM_THRESHOLD_": "4000000000"}


def seconds(bench: Path, job: str, times: int) -> float:
    """The least of five runs."""
    return min(milliseconds([bench, job, str(times)], env=KEPT)[0] for _ in range(5)) / 1000


def each(job: str, times: int) -> float:
    """Seconds for one."""
    bench = program("apei_bench")
    return max(seconds(bench, job, times) - seconds(bench, job, 0), 1e-9) / times


def main() -> None:
    writes, calls = each("writes", 10_000), each("calls", 10_000)
    boots, openings = each("boots", 5_000), each("openings", 5_000)
    access = each("accesses", 10_000_000) / 2
    print(f"a write by programs: {writes * 1e9:.0f} ns, by a call: {calls * 1e9:.0f} ns, ratio {writes / calls:.2f}")
    print(f"an access of plain memory: {access * 1e9:.1f} ns")
    print(f"a boot over 64 MiB: {boots * 1e3:.3f} ms, an opening: {openings * 1e3:.3f} ms, ratio {boots / openings:.2f}")


if __name__ == "__main__":
    main()
