"""A plain grammar of the lines of scripts and checks, and the column at which a text leaves it (docs/SCRIPT.md).

A part of a line answers how far a text goes on as one of its kind, and where in it the next part may begin.
"""

from collections.abc import Callable, Iterable

from apei.bytes import LAST

Part = Callable[[bytes], tuple[int, Iterable[int]]]
DIGITS = b"0123456789"
PAIRS = b"0123456789abcdefABCDEF"


def word(text: bytes) -> Part:
    def part(rest: bytes) -> tuple[int, Iterable[int]]:
        common = next((at for at, (a, b) in enumerate(zip(text, rest)) if a != b), min(len(text), len(rest)))
        return common, [len(text)] if common == len(text) else []

    return part


def number(least: int, most: int) -> Part:
    def part(rest: bytes) -> tuple[int, Iterable[int]]:
        end = 0
        while end < len(rest) and rest[end] in DIGITS and rest[: end + 1] != b"0" * (least > 0) and int(rest[: end + 1]) <= most:
            end += 1
            if rest[:1] == b"0":
                break
        return end, [at for at in range(1, end + 1) if int(rest[:at]) >= least]

    return part


def several(letters: bytes, group: int, most: int) -> Part:
    """`group` bytes of these letters or more, up to `most`, by whole groups."""

    def part(rest: bytes) -> tuple[int, Iterable[int]]:
        end = 0
        while end < min(len(rest), most) and rest[end] in letters:
            end += 1
        return end, range(group, end + 1, group)

    return part


def line(text: bytes, *parts: Part) -> list[Part]:
    return [word(text)] + [part for follows in parts for part in (word(b" "), follows)]


NUM, HEX = number(0, LAST), several(PAIRS, 2, LAST)
SCRIPT = [line(text) for text in (b"count", b"next", b"dummy", b"bert", b"heard", b"reset", b"power")]
SCRIPT += [line(text, HEX) for text in (b"write", b"table", b"error", b"fatal")]
SCRIPT += [line(text, NUM) for text in (b"read", b"clear", b"bridge")]
SCRIPT += [line(b"table", word(text)) for text in (b"own", b"shadow")]
SCRIPT += [line(b"action", number(0, 255), NUM), line(b"turns", several(b"FR", 1, 4096)), line(b"peek", NUM, number(1, 4096))]
CHECK = [line(text, HEX) for text in (b"erst", b"hest", b"bert", b"record", b"block")]
GRAMMARS = {"sim": SCRIPT, "check": CHECK}


def reach(parts: list[Part], text: bytes) -> tuple[int, bool]:
    """How long the longest beginning of a text is with which a line of these parts begins, and whether the text is one."""
    ends, longest = {0}, 0
    for part in parts:
        after: set[int] = set()
        for start in ends:
            common, ends_here = part(text[start:])
            longest = max(longest, start + common)
            after.update(start + end for end in ends_here)
        ends = after
    return longest, len(text) in ends


def column(job: str, text: bytes) -> int:
    """One more than the length of the longest beginning with which some line of a job begins; 0 if the text is a line."""
    if text[:1] in (b"", b"#"):
        return 0
    found = [reach(parts, text) for parts in GRAMMARS[job]]
    return 0 if any(whole for _, whole in found) else 1 + max(longest for longest, _ in found)
