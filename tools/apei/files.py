"""Runs of `play` over a file, and how the tools read its records back."""

from collections.abc import Iterable, Sequence
from pathlib import Path

from apei.flash import Geometry
from apei.harness import Ended, Program, script

# The flash of these files.
FLASH = Geometry(256, 2, 10)


def play(program: Program, image: Path, lines: Iterable[str], before: Sequence[str] = ()) -> Ended:
    return program.run("play", f"--image={image}", *FLASH.words, given=script(lines), before=before)


def records_in(program: Program, image: Path, identifiers: Sequence[int]) -> dict[int, bytes] | None:
    """The records of these identifiers that the program reads from a file; None if it doesn't come to them."""
    done = play(program, image, [*(f"read {identifier}" for identifier in identifiers), "count"])
    replies = done.words
    if done.status or len(replies) != len(identifiers) + 1:
        return None
    found = {}
    for identifier, reply in zip(identifiers, replies):
        word, *rest = reply.split()
        if word == "record" and int(rest[0]) == identifier and int(rest[1]) == len(rest[2]) // 2:
            found[identifier] = bytes.fromhex(rest[2])
        elif reply not in ("refused empty", "refused not-found"):
            return None
    return found if replies[-1] == f"count {len(found)}" else None


def lengths(records: dict[int, bytes] | None) -> dict[int, int] | None:
    """The records by their lengths, to be shown."""
    return None if records is None else {identifier: len(data) for identifier, data in records.items()}
