"""Items with one fault each, and where it stands: apei-show has to show what comes before it, and to say that the item is bad."""

from collections.abc import Iterator
from dataclasses import dataclass

from apei import names
from apei.bytes import spell
from apei.show import bodies
from apei.show.bodies import Chance


@dataclass(frozen=True)
class Fault:
    """A bad item, the place of what is wrong with it, and a word that its sentence has."""

    what: str
    data: bytes
    at: int
    word: str = ""


def put(data: bytes, at: int, value: int, width: int) -> bytes:
    return data[:at] + spell(value, width) + data[at + width :]


def of_records(chance: Chance) -> Iterator[Fault]:
    record = bodies.record(chance, (names.MEMORY, bodies.memory(chance)), (names.PCIE, bodies.pcie(chance)))
    yield Fault("a record whose signature does not end", put(record, 6, 0, 4), 6)
    yield Fault("a record that is cut off", record[:-10], len(record) - 10, "missing")
    yield Fault("a record of which its header alone is there", record[:128], 128)
    yield Fault("a record that is shorter than its header", put(record, 20, 100, 4), 20)
    yield Fault("a record of more sections than there is room for", put(record, 10, 200, 2), 20)
    yield Fault("a section behind its record's end", put(record, 128, len(record), 4), 128)
    yield Fault("a section that is longer than its record", put(record, 200 + 4, 2**32 - 1, 4), 200)


def of_blocks(chance: Chance) -> Iterator[Fault]:
    block = bodies.block(chance, (names.MEMORY, bodies.memory(chance)), (names.PCIE, bodies.pcie(chance)))
    yield Fault("a block that is cut off", block[:-10], len(block) - 10)
    yield Fault("a block whose entry is longer than its data", put(block, 20 + 24, 2**32 - 1, 4), 20)
    yield Fault("a block whose data are longer than its entries", put(block + bytes(30), 12, len(block) + 10, 4), 12)
    yield Fault("a block whose raw data stands within its entries", put(put(block, 4, 30, 4), 8, 8, 4), 4)


def of_tables(chance: Chance) -> Iterator[Fault]:
    erst, hest, bert = bodies.erst(chance), bodies.hest(chance, [9, 10]), bodies.bert(chance)
    yield Fault("a table whose checksum is another", put(erst, 9, (erst[9] + 1) % 256, 1), 9, "modulo 256")
    yield Fault("a table that is cut off", hest[:-5], 4)
    yield Fault("a table that is shorter than its header", put(bert, 4, 20, 4), 4)
    yield Fault("a table of one source more than it says", sealed(put(hest, 36, 1, 4)), 36, "coreboot")
    yield Fault("a table of one source less than it says", sealed(put(hest, 36, 3, 4)), 36)
    yield Fault("a table of one entry more than it says", sealed(put(erst + bytes(32), 4, len(erst) + 32, 4)), 44)
    yield Fault("a table with a source of no type of the standard", sealed(put(hest, 40, 77, 2)), 40)


def sealed(table: bytes) -> bytes:
    return bodies.sealed(table)


def faults(chance: Chance) -> Iterator[Fault]:
    yield from of_records(chance)
    yield from of_blocks(chance)
    yield from of_tables(chance)
