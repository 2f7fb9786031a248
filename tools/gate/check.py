"""Checks random tables, records and blocks, many of them broken, by the program and by a plain reading, and compares.

    tools/run check [PROGRAM] [ITEMS] [SEED]
    tools/run check --lines FLAGS < SCRIPT

PROGRAM is the built program, by default crates/apei/out/apei. ITEMS (by default 3200) items are made and checked with each choice of
--show, and so is each beginning of a whole one of each kind. An item is wrong if a line on it differs by some choice. In the second
form it only writes the lines that a script of good lines wants.
"""

import random
import sys
from collections.abc import Callable, Iterator

from apei import tables
from apei.bytes import number, spell
from apei.frames import MEMORY, Entry, Header, Section, block_of, record_of
from apei.harness import Tally, given, script
from apei.items import BANK, BANKED, FIXED, shown

CHOICES = ["", "HEAD", "PARTS", "HEAD|PARTS"]
TABLES = "erst", "hest", "bert"


# Items at random: whole ones first, and then something of them is changed.


def some_erst(chance: random.Random) -> bytes:
    count = chance.randrange(5)
    entries = b"".join(bytes([chance.randrange(18), chance.randrange(20)]) + chance.randbytes(30) for _ in range(count))
    return tables.erst(entries, count, chance.choice([48, 48, 12, 13]))


def some_source(chance: random.Random, kind: int) -> bytes:
    size, banks = BANKED.get(kind, (FIXED.get(kind, 20), 0))
    body = bytearray(spell(kind, 2) + chance.randbytes(size - 2))
    if kind in BANKED:
        body[banks] = chance.randrange(3)
        body += chance.randbytes(BANK * body[banks])
    return bytes(body)


def some_hest(chance: random.Random) -> bytes:
    kinds = chance.choices([0, 1, 2, 6, 7, 8, 9, 10, 11, 3], [4, 4, 4, 4, 4, 4, 8, 8, 4, 1], k=chance.randrange(5))
    sources = b"".join(some_source(chance, kind) for kind in kinds)
    return tables.hest(sources, len(kinds) + chance.choice([0, 0, 0, 1]))


def some_bert(chance: random.Random) -> bytes:
    return tables.table(b"BERT", chance.randbytes(12) + bytes(chance.choice([0, 0, 3])))


def some_section(chance: random.Random, body: bytes) -> Section:
    revision, bits = number(chance.randbytes(2)), chance.randbytes(6)
    return Section(body, chance.choice([MEMORY, chance.randbytes(16)]), chance.randrange(4), revision, bits)


def some_record(chance: random.Random) -> bytes:
    bodies = [chance.randbytes(chance.randrange(40)) for _ in range(chance.randrange(4))]
    sections = [some_section(chance, body) for body in bodies]
    whole = bytearray(record_of(Header(0, chance.randrange(4)), *sections))
    spare = chance.choice([0, 0, 5])
    whole[20:24] = spell(len(whole) + spare, 4)
    whole[24:128] = chance.randbytes(104)
    return bytes(whole) + bytes(spare)


def some_entry(chance: random.Random) -> Entry:
    revision, body = chance.choice([0x0201, 0x0300, 0x0400]), chance.randbytes(chance.choice([0, 4, 8, 70]))
    return Entry(body, chance.choice([MEMORY, chance.randbytes(16)]), chance.randrange(4), revision, chance.randbytes(2))


def some_block(chance: random.Random) -> bytes:
    entries = b"".join(some_entry(chance).data for _ in range(chance.randrange(4)))
    raw = chance.choice([b"", chance.randbytes(7)])
    gap = bytes(chance.choice([0, 0, 9])) if raw else b""
    offset = 20 + len(entries) + len(gap) if raw else chance.choice([0, 3])
    return block_of(chance.choice([0x12, 0x21, 1, 0]), chance.randrange(4), entries, raw, offset, gap)


MAKERS: dict[str, Callable[[random.Random], bytes]] = {
    "erst": some_erst, "hest": some_hest, "bert": some_bert, "record": some_record, "block": some_block,
}


def changed(chance: random.Random, word: str, item: bytes) -> bytes:
    """An item of which a byte is another, which is cut, or after which more stands; or as it was."""
    data, change = bytearray(item), chance.randrange(8)
    if change < 4:
        at = chance.randrange(len(data) if change == 0 else min(len(data), 64))
        data[at] = chance.choice([0, 1, 0xFF, (data[at] + 1) % 256, chance.randrange(256)])
        if change > 1 and word in TABLES:
            return tables.seal(data)
    if change == 4:
        data = data[: chance.randrange(1, len(data) + 1)]
    if change == 5:
        data += chance.randbytes(chance.randrange(1, 40))
    return bytes(data)


def some_line(chance: random.Random) -> str:
    word = chance.choice(list(MAKERS))
    digits = changed(chance, word, MAKERS[word](chance)).hex()
    return f"{word} {digits.upper() if chance.random() < 0.1 else digits}"


def beginnings(chance: random.Random) -> Iterator[str]:
    """Each beginning of a whole item of each kind that has parts, and of a table without."""
    for word, make in MAKERS.items():
        data, found = b"", list[str]()
        while len(found) < 1 + (word != "bert"):
            data = make(chance)
            found = shown(f"{word} {data.hex()}", "HEAD|PARTS")
        yield from (f"{word} {data[:length].hex()}" for length in range(1, len(data) + 1))


def differing(lines: list[str], flags: str, found: list[str]) -> Iterator[int]:
    """The items whose lines are not those that were found, by their numbers; the last one's also if more lines were found."""
    at = 0
    for item, line in enumerate(lines):
        wanted = shown(line, flags)
        end = len(found) if item == len(lines) - 1 else at + len(wanted)
        if found[at:end] != wanted:
            yield item
        at += len(wanted)


def main(words: list[str]) -> int:
    if words[:1] == ["--lines"]:
        print("".join(reply + "\n" for line in sys.stdin.read().splitlines() for reply in shown(line, words[1])), end="")
        return 0
    asked, tally = given(words, more=3200), Tally("items")
    lines = [some_line(asked.chance) for _ in range(asked.more)] + list(beginnings(asked.chance))
    faults: list[list[str]] = [[] for _ in lines]
    for flags in CHOICES:
        done = asked.program.run("check", f"--show={flags}", given=script(lines))
        if done.status:
            faults[0].append(f"--show={flags}: status {done.status}, {done.said}")
        for at in differing(lines, flags, done.replies):
            faults[at].append(f"--show={flags}: wanted {shown(lines[at], flags)} for {lines[at][:200]}")
    for found in faults:
        tally.add(found)
    return tally.end()
