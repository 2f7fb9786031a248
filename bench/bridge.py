#!/usr/bin/env python3
"""Times blocks of 92 bytes that a bridge stores, beside their handover without a bridge and `write` lines of as many bytes.

    bench/bridge.py [PROGRAM] [RUNS]

PROGRAM is the built program, by default crates/apei/out/apei; build it by ./apei sim </dev/null. Each of 10,000 blocks is handed over by
ten turns under the bridge; beside it by the nine turns without it, and a `write` line stores the 292 bytes of its record. A `clear` line
after each keeps the store from filling, in both. It prints the median of RUNS runs (default 21) in milliseconds of either, less that of
the empty script, what that makes for a block, and the median of the ratios of each round. Then `play` stores one block and a thousand more
in a file, and a few lines of C that cc compiles count the requests for memory of either.
"""

import os
import statistics
import subprocess
import tempfile
from pathlib import Path

from harness import compiled, median, over_files, program, runs

from apei.bridge import BLOCKS, bridged
from apei.harness import script

BLOCK, COUNT = BLOCKS[0], 10_000
COUNTER = r"""
#include <stddef.h>
#include <stdio.h>
extern void *__libc_malloc(size_t), *__libc_calloc(size_t, size_t), *__libc_realloc(void *, size_t), *__libc_memalign(size_t, size_t);
static unsigned long asked;
void *malloc(size_t size) { asked++; return __libc_malloc(size); }
void *calloc(size_t count, size_t size) { asked++; return __libc_calloc(count, size); }
void *realloc(void *old, size_t size) { asked++; return __libc_realloc(old, size); }
void *aligned_alloc(size_t align, size_t size) { asked++; return __libc_memalign(align, size); }
void *memalign(size_t align, size_t size) { asked++; return __libc_memalign(align, size); }
int posix_memalign(void **place, size_t align, size_t size) { asked++; *place = __libc_memalign(align, size); return *place ? 0 : 12; }
__attribute__((destructor)) static void end(void) { fprintf(stderr, "%lu\n", asked); }
"""


def under_a_bridge(count: int) -> bytes:
    lines = ["bridge 1"]
    for identifier in range(1, count + 1):
        lines += [f"error {BLOCK.hex()}", "turns FFFRRRRRRF", f"clear {identifier}"]
    return script(lines)


def by_write_lines(count: int) -> bytes:
    lines = []
    for identifier in range(1, count + 1):
        lines += [f"error {BLOCK.hex()}", "turns FFFRRRRRRF", f"write {bridged(BLOCK, identifier).hex()}", f"clear {identifier}"]
    return script(lines)


def requests(count: int, folder: Path) -> int:
    """How often a run over a file asks for memory."""
    counter, image = folder / "counter.so", folder / "image"
    if not counter.exists():
        compiled(COUNTER, counter, "-shared", "-fPIC")
    image.unlink(missing_ok=True)
    words: list[str | Path] = [program(), "play", f"--image={image}"]
    counted = {**os.environ, "LD_PRELOAD": str(counter)}
    done = subprocess.run(words, input=under_a_bridge(count), capture_output=True, env=counted, check=False)
    assert done.returncode == 0 and done.stdout.count(b"stored ") == count, done
    return int(done.stderr)


def rounds(folder: Path) -> tuple[list[float], list[float]]:
    """The milliseconds of both, round by round, less those of the empty script."""
    one, other = [], []
    for _ in range(runs(21)):
        rest, took, beside = (over_files([program(), "sim"], text, folder) for text in (b"", under_a_bridge(COUNT), by_write_lines(COUNT)))
        assert took.last == beside.last == f"cleared {COUNT} @{8 * COUNT}", (took.last, beside.last)
        one.append(took.milliseconds - rest.milliseconds)
        other.append(beside.milliseconds - rest.milliseconds)
    return one, other


def main() -> None:
    with tempfile.TemporaryDirectory() as name:
        folder = Path(name)
        one, other = rounds(folder)
        bridged_ms, apart_ms, ratio = median(one), median(other), statistics.median(a / b for a, b in zip(one, other))
        print(
            f"{COUNT} blocks under a bridge: {bridged_ms:.1f} ms, {bridged_ms * 1000 / COUNT:.2f} us a block; "
            f"handed over and written: {apart_ms:.1f} ms, {apart_ms * 1000 / COUNT:.2f} us; {ratio:.2f} times"
        )
        first, more = requests(1, folder), requests(1001, folder)
        print(f"requests for memory: {first} with one block, {more} with a thousand more")


if __name__ == "__main__":
    main()
