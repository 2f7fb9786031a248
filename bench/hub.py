#!/usr/bin/env python3
"""Times a turn of one error source, alone and as one of 16, by the job `hub`.

    bench/hub.py [PROGRAM]

PROGRAM is the built program, by default crates/apei/out/apei. Blocks of 4,096 bytes are handed over on the only source of a hub, and on
the first and the last of 16, whose registers adjoin and are one window of memory; and on the last of 16 whose registers are 32 windows.
Most turns are the firmware's that waits for the acknowledgement. What it takes to read the lines and to give the blocks is timed by lines
with one turn, and taken off. It prints the median of 11 rounds for each, in nanoseconds of processor time a turn, and the median of the
ratios of each round.
"""

import tempfile
from pathlib import Path

from harness import median, over_files, program

from apei.harness import script
from apei.hubs import ACKNOWLEDGED, Source, hest, raw_block
from apei.tables import address

BLOCKS, ROUNDS = 1000, 11
# 64 pieces filled, published, found; copied but for the last piece, which would show the block; and then as long again for nothing.
TURNS, ONE_TURN = "xF" * 65 + "xR" * 64 + "xF" * 1900, "xR"
# The sources, the one whose turns are timed, and the bytes from register to register.
PLACES = {"alone": (1, 0, 8), "first of 16": (16, 0, 8), "last of 16": (16, 15, 8), "last of 16 with registers apart": (16, 15, 32)}


def lines(sources: int, at: int, stride: int, turns: str) -> bytes:
    """Blocks for a source, and a line of turns after each; one turn is a reader's that finds nothing."""
    places = range(0x300000, 0x300000 + 2 * stride * sources, 2 * stride)
    table = hest([Source(ACKNOWLEDGED, address(place), address(place + stride)) for place in places])
    return script([f"hest {table.hex()}"] + [f"error {at} {raw_block(2, 4096).hex()}", "turns " + turns.replace("x", f"{at:x}")] * BLOCKS)


def main() -> None:
    scripts = {name: (lines(*place, TURNS), lines(*place, ONE_TURN)) for name, place in PLACES.items()}
    count = BLOCKS * (len(TURNS) // 2 - 1)
    rounds: dict[str, list[float]] = {name: [] for name in scripts}
    with tempfile.TemporaryDirectory() as folder:
        for _ in range(ROUNDS):
            for name, texts in scripts.items():
                turns, one = (over_files([program(), "hub"], text, Path(folder)).processor for text in texts)
                rounds[name].append((turns - one) * 1e9 / count)
    print(f"a turn of a source alone: {median(rounds['alone']):.1f} ns")
    for name in list(PLACES)[1:]:
        ratio = median(many / one for many, one in zip(rounds[name], rounds["alone"]))
        print(f"a turn of the {name}: {median(rounds[name]):.1f} ns, {ratio:.2f} times")


if __name__ == "__main__":
    main()
