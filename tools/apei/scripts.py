"""Lines of scripts on records."""

import random

from apei.bytes import LAST
from apei.frames import record

IDENTIFIERS = [0, 1, 2, 3, 7, LAST - 1, LAST]
LENGTHS = [128, 200, 256, 300, 384, 448, 449, 704, 705, 896, 897, 1344, 1345, 1408, 1792, 1793, 2112, 2113, 2816, 2817]


def write(identifier: int, length: int) -> str:
    return "write " + record(identifier, length).hex()


# A record, and a longer one in its place: thirteen changes of slots of 512 bytes.
REPLACEMENT = [write(1, 128), write(1, 200)]


def some_line(chance: random.Random) -> str:
    """A line drawn at random."""
    kind = chance.random()
    if kind < 0.5:
        return write(chance.choice(IDENTIFIERS), chance.choice(LENGTHS))
    if kind < 0.8:
        return chance.choice(["clear", "read"]) + f" {chance.choice(IDENTIFIERS)}"
    return chance.choice(["count", "next", "next"])
