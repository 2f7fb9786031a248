"""A plain reading of the items of a check, which are tables, error records and error status blocks.

docs/FORMATS.md has the formats, docs/SCRIPT.md the lines that show them.
"""

from collections.abc import Callable

from apei.bytes import guid, number
from apei.frames import DESCRIPTOR, HEADER, severity_of

# What is read of an item: its length, what its line says after that, and the lines of its parts.
Reading = tuple[int, str, list[str]]
# The sizes of a HEST's structures, and of those that banks stand after, with the place of their number.
FIXED = {2: 20, 6: 48, 7: 44, 8: 56, 9: 64, 10: 92}
BANKED = {0: (40, 32), 1: (48, 44), 11: (48, 44)}
BANK = 28
# The fields of an instruction entry: its name, place and size.
ENTRY = [
    ("action", 0, 1), ("instruction", 1, 1), ("flags", 2, 1), ("space", 4, 1), ("width", 5, 1), ("offset", 6, 1), ("access", 7, 1),
    ("address", 8, 8), ("value", 16, 8), ("mask", 24, 8),
]


class Bad(Exception):
    """An item is none, with the words that say why."""


def table(data: bytes, signature: bytes, fixed: int) -> bytes:
    """The bytes of a sealed table."""
    if len(data) < 36:
        raise Bad(f"short {len(data)}")
    if data[:4] != signature:
        raise Bad("signature")
    length = number(data, 4, 4)
    if not fixed <= length <= len(data):
        raise Bad(f"length {length}")
    if total := sum(data[:length]) % 256:
        raise Bad(f"sum {total}")
    return data[:length]


def erst(data: bytes) -> Reading:
    found = table(data, b"ERST", 48)
    if (size := number(found, 36, 4)) not in (48, 12):
        raise Bad(f"header-size {size}")
    count = number(found, 44, 4)
    if len(found) != 48 + 32 * count:
        raise Bad(f"count {count} {len(found)}")
    parts = []
    for index in range(count):
        fields = (f"{name} {number(found, 48 + 32 * index + at, size)}" for name, at, size in ENTRY)
        parts.append(" ".join([f"entry {index}", *fields]))
    return len(found), f"entries {count}", parts


def structure_size(data: bytes, at: int) -> int:
    """The size of the structure at a place of a HEST, which it does not leave."""
    left = len(data) - at
    if left < 2:
        raise Bad(f"cut {at}")
    code = number(data, at, 2)
    if code in BANKED:
        size, banks = BANKED[code]
        size = size + BANK * data[at + banks] if left > banks else left + 1
    elif code in FIXED:
        size = FIXED[code]
    else:
        raise Bad(f"unknown {at} {code}")
    if size > left:
        raise Bad(f"cut {at}")
    return size


def hest(data: bytes) -> Reading:
    found = table(data, b"HEST", 40)
    at, parts = 40, list[str]()
    while at < len(found):
        size = structure_size(found, at)
        kind = number(found, at, 2)
        part = f"source {len(parts)} kind {kind}"
        if kind in (9, 10):
            part += f" id {number(found, at + 2, 2)} enabled {found[at + 7]} block {number(found, at + 60, 4)}"
        parts.append(part)
        at += size
    if (declared := number(found, 36, 4)) != len(parts):
        raise Bad(f"count {declared} {len(parts)}")
    return len(found), f"sources {len(parts)}", parts


def bert(data: bytes) -> Reading:
    found = table(data, b"BERT", 48)
    return len(found), f"region {number(found, 40, 8)} bytes {number(found, 36, 4)}", []


def record(data: bytes) -> Reading:
    if len(data) < HEADER:
        raise Bad(f"need {HEADER - len(data)}")
    if data[:4] != b"CPER":
        raise Bad("start")
    if data[6:10] != b"\xff" * 4:
        raise Bad("end")
    sections, length = number(data, 10, 2), number(data, 20, 4)
    bodies = HEADER + DESCRIPTOR * sections
    if length < bodies:
        raise Bad(f"length {length}")
    if length > len(data):
        raise Bad(f"need {length - len(data)}")
    parts = []
    for index in range(sections):
        at = HEADER + DESCRIPTOR * index
        offset, size = number(data, at, 4), number(data, at + 4, 4)
        if offset < bodies or offset + size > length:
            raise Bad(f"section {index}")
        parts.append(f"section {index} kind {guid(data, at + 16)} at {offset} bytes {size} severity {number(data, at + 48, 4)}")
    return length, f"sections {sections} severity {number(data, 12, 4)} id {number(data, 96, 8)}", parts


def block(data: bytes) -> Reading:
    if len(data) < 20:
        raise Bad(f"need {20 - len(data)}")
    status, raw_offset, raw, entries = (number(data, at, 4) for at in range(0, 16, 4))
    if status == 0:
        raise Bad("not-published")
    if raw and raw_offset < 20 + entries:
        raise Bad(f"raw-offset {raw_offset}")
    length = raw_offset + raw if raw else 20 + entries
    if length > len(data):
        raise Bad(f"need {length - len(data)}")
    parts = entry_lines(data, 20 + entries)
    return length, f"entries {len(parts)} status {status} severity {severity_of(data)} raw {raw}", parts


def entry_lines(data: bytes, end: int) -> list[str]:
    """The lines of a block's entries, which end at a place."""
    at, parts = 20, list[str]()
    while at < end:
        if end - at < 64:
            raise Bad(f"rest {end - at}")
        size = number(data, at + 24, 4)
        whole = (72 if data[at + 21] >= 3 else 64) + size
        if whole > end - at:
            raise Bad(f"entry {len(parts)} {at}")
        parts.append(f"part {len(parts)} kind {guid(data, at)} bytes {size} severity {number(data, at + 16, 4)}")
        at += whole
    return parts


ITEMS: dict[str, Callable[[bytes], Reading]] = {"erst": erst, "hest": hest, "bert": bert, "record": record, "block": block}


def shown(line: str, flags: str) -> list[str]:
    """The lines that a line of a check wants by the value of --show."""
    if not line or line[0] == "#":
        return []
    word, digits = line.split(" ")
    data = bytes.fromhex(digits)
    try:
        length, head, parts = ITEMS[word](data)
    except Bad as why:
        return [f"bad {word} {why}"]
    names = {name.strip() for name in flags.split("|")}
    return [f"{word} {length} {head} rest {len(data) - length}"] * ("HEAD" in names) + parts * ("PARTS" in names)
