#!/usr/bin/env python3
"""Times 200 writes that `apei play` makes in an image file, beside a bare loop that makes the same changes of the same file.

    bench/play.py [PROGRAM] [RUNS] [LENGTH]

PROGRAM is the built program, by default crates/apei/out/apei; build it by ./apei sim </dev/null. It writes 200 records of LENGTH bytes
(default 368) over 20 identifiers, so that all but the first 20 writes replace a record, into a store of the default geometry. The bare
loop is a C program that cc makes in a temporary folder: it writes the same numbers of bytes at the same places in the same order, a sync
after each. A run of an empty script makes the file. Then both take turns on it, RUNS times (default 21), in that folder; TMPDIR says
where it lies. It prints the median of either in milliseconds, less that of the same program on the same file with nothing to write, what
one change takes, and the median of the ratios of each turn.
"""

import tempfile
from pathlib import Path

from harness import compiled, median, number, over_files, program, runs

from apei.flash import Geometry
from apei.harness import script
from apei.scripts import write
from apei.store import Recorder

WRITES, IDENTIFIERS = 200, 20

LOOP = r"""
#include <fcntl.h>
#include <stdio.h>
#include <stdlib.h>
#include <string.h>
#include <unistd.h>

/* Makes the changes that standard input lists, each a place and a number of bytes, in the file that the word names. */
int main(int count, char **words) {
    static char bytes[65536];
    long at, len;
    int file = count == 2 ? open(words[1], O_RDWR) : -1;
    if (file < 0) return 1;
    memset(bytes, 0xFF, sizeof bytes);
    while (scanf("%ld %ld", &at, &len) == 2)
        if (len > (long)sizeof bytes || pwrite(file, bytes, len, at) != len || fdatasync(file) != 0) return 1;
    return 0;
}
"""


def lines(length: int) -> list[str]:
    return [write(1 + at % IDENTIFIERS, length) for at in range(WRITES)]


def changes(length: int) -> list[tuple[int, int]]:
    """The place and the number of bytes of each change that the writes make, in order."""
    store = Recorder(Geometry())
    for line in lines(length):
        store.play(line)
    return [(slot * store.geometry.slot_size + at, len(data)) for slot, at, data in store.made]


def main() -> None:
    length = number(3, 368)
    text, made = script(lines(length)), changes(length)
    listed = "".join(f"{at} {count}\n" for at, count in made).encode()
    played, looped = [], []
    with tempfile.TemporaryDirectory() as name:
        folder = Path(name)
        image, loop = folder / "image", compiled(LOOP, folder / "loop")
        play: list[str | Path] = [program(), "play", f"--image={image}"]
        for _ in range(runs(21)):
            over_files(play, b"", folder)
            opened, took = over_files(play, b"", folder), over_files(play, text, folder)
            assert took.last.endswith(f" @{len(made)}"), f"{took.last}, where {len(made)} changes were expected"
            played.append(took.milliseconds - opened.milliseconds)
            looped.append(over_files([loop, image], listed, folder).milliseconds - over_files([loop, image], b"", folder).milliseconds)
            image.unlink()
    one, other, ratio = median(played), median(looped), median(a / b for a, b in zip(played, looped))
    print(
        f"{WRITES} writes of {length} bytes, {len(made)} changes: play {one:.1f} ms, {one * 1000 / len(made):.0f} us a change; "
        f"bare loop {other:.1f} ms, {other * 1000 / len(made):.0f} us a change; ratio {ratio:.2f}"
    )


if __name__ == "__main__":
    main()
