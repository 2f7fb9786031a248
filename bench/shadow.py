#!/usr/bin/env python3
"""Times writes of 3,968 bytes by the table whose programs move the record, beside the same writes by the machine's own table and a copy of
their bytes twice.

    bench/shadow.py [PROGRAM] [RUNS]

PROGRAM is the built program, by default crates/apei/out/apei; build it by ./apei sim </dev/null. `sim` plays 2,000 `write` lines over 20
identifiers, so that all but the first 20 replace a record, behind `table shadow` and behind `table own`; a C program that cc makes copies
3,968 bytes twice. Times are those of the processor. It prints the median of RUNS runs (default 21) of each, less that of the empty script,
for one write, and the median over the rounds of what a write takes beside the other with the copies.
"""

import tempfile
from pathlib import Path

from harness import compiled, median, over_files, program, runs

from apei.harness import script
from apei.scripts import write

WRITES, IDENTIFIERS, LENGTH, COPIES = 2_000, 20, 3_968, 2_000_000
# A first write makes two erases, the head, 16 pieces, the tail mark and the gate, and a replacement one change more.
LAST = f"count {IDENTIFIERS} @{21 * WRITES + WRITES - IDENTIFIERS}"
COPIER = r"""
#include <stdlib.h>
#include <string.h>

/* Copies the bytes of a record there and back, as often as the word says. */
int main(int count, char **words) {
    static char one[3968], other[3968];
    for (long times = count == 2 ? atol(words[1]) : 0; times > 0; times--) {
        memcpy(other, one, sizeof one);
        __asm__ volatile("" : : "r"(other) : "memory");
        memcpy(one, other, sizeof one);
        __asm__ volatile("" : : "r"(one) : "memory");
    }
    return 0;
}
"""


def writes(table: str) -> bytes:
    return script([f"table {table}", *(write(1 + at % IDENTIFIERS, LENGTH) for at in range(WRITES)), "count"])


def main() -> None:
    sim: list[str | Path] = [program(), "sim"]
    moved, own, copied, ratios = [], [], [], []
    with tempfile.TemporaryDirectory() as name:
        folder = Path(name)
        copier = compiled(COPIER, folder / "copier")
        for _ in range(runs(21)):
            rest, took, beside = (over_files(sim, text, folder) for text in (b"", writes("shadow"), writes("own")))
            assert took.last == beside.last == LAST, (took.last, beside.last, LAST)
            copies = [over_files([copier, times], b"", folder).processor for times in (str(COPIES), "0")]
            moved.append((took.processor - rest.processor) / WRITES)
            own.append((beside.processor - rest.processor) / WRITES)
            copied.append((copies[0] - copies[1]) / COPIES)
            ratios.append(moved[-1] / (own[-1] + copied[-1]))
    one, other, twice = median(moved), median(own), median(copied)
    print(
        f"a write of {LENGTH} bytes by the table that moves it: {one * 1e6:.2f} us; by the machine's own table: {other * 1e6:.2f} us; "
        f"two copies: {twice * 1e9:.0f} ns; {median(ratios):.2f} times"
    )


if __name__ == "__main__":
    main()
