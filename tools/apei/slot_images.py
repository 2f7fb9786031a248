"""Images of five slots of two sectors of 256 bytes: slots of all kinds, written by hand and drawn at random."""

import random
from collections.abc import Iterable
from dataclasses import dataclass, field, replace

from apei.bytes import LAST, joined
from apei.flash import Geometry
from apei.frames import record
from apei.store import GATE_FURTHER, GATE_OPEN, HEAD, NO_SLOT, TAIL_MARK

COUNT = 5
FLASH = Geometry(256, 2, COUNT)
SIZE, ROOM = FLASH.slot_size, FLASH.room
ERASED = 0xFF
NOTHING = b"\xff" * SIZE


def slot(head: bytes, body: bytes, tail: int) -> bytes:
    return head.ljust(HEAD, b"\xff") + body.ljust(SIZE - HEAD - 1, b"\xff") + bytes([tail])


@dataclass(frozen=True)
class First:
    """The head of a record's first slot."""

    identifier: int = 5
    generation: int = 1
    length: int = 200
    named: tuple[int, int, int] = (NO_SLOT, NO_SLOT, NO_SLOT)
    form: int = 2
    gate: int = GATE_OPEN
    kill: int = ERASED
    tail: int = TAIL_MARK

    @property
    def slot(self) -> bytes:
        head = joined((self.gate, 1), (self.kill, 1), (self.form, 2), (self.generation, 4), (self.identifier, 8), (self.length, 4))
        # The bytes after the record's header are its own, so that it tells from which slots it was read.
        length, filling = max(self.length, 128), bytes([16 * self.generation % 256 + self.form])
        body = record(self.identifier, length)[:128].ljust(length, filling)
        return slot(head + joined(*((number, 2) for number in self.named)), body[:ROOM], self.tail)


def first(identifier: int, generation: int, length: int, *named: int) -> bytes:
    """The first slot of a record that names N further slots."""
    one, two, three = [*named, NO_SLOT, NO_SLOT, NO_SLOT][:3]
    return First(identifier, generation, length, (one, two, three)).slot


def old(identifier: int, generation: int) -> bytes:
    """A record of 200 bytes as slots were written before they had further ones: bytes 20 on have no say."""
    return First(identifier, generation, 200, (3, 1, 4), form=1).slot


@dataclass(frozen=True)
class Part:
    """The head of a further slot."""

    identifier: int
    generation: int
    length: int
    part: int
    first: int
    form: int = 3
    mark: int = GATE_FURTHER
    tail: int = TAIL_MARK

    @property
    def slot(self) -> bytes:
        head = joined((self.mark, 1), (ERASED, 1), (self.form, 2), (self.generation, 4), (self.identifier, 8), (self.length, 4))
        head += joined((self.part, 2), (self.first, 2))
        return slot(head, bytes([self.part + 1]) * min(self.length, ROOM), self.tail)


def part(identifier: int, generation: int, length: int, number: int, slot_of_first: int, tail: int = TAIL_MARK) -> bytes:
    return Part(identifier, generation, length, number, slot_of_first, tail=tail).slot


def torn(identifier: int, generation: int, length: int, number: int, slot_of_first: int) -> bytes:
    return part(identifier, generation, length, number, slot_of_first, ERASED)


@dataclass(frozen=True)
class Known:
    """An image of which it was worked out which records it holds, by identifier their slots and generations, and how many slots its opening
    ends."""

    slots: list[bytes]
    records: dict[int, tuple[int, int]] = field(default_factory=dict)
    ended: int = 0

    @property
    def image(self) -> bytes:
        return b"".join(self.slots)


def of(*slots: bytes, records: dict[int, tuple[int, int]] | None = None, ended: int = 0) -> Known:
    """These slots, and erased ones after them."""
    return Known([*slots, *[NOTHING] * (COUNT - len(slots))], records or {}, ended)


SEVERAL = [
    of(),
    # Of slots of the old format that of the greatest generation, and the lower one at a tie.
    of(old(2, 4), old(1, 1), old(2, 5), old(2, 5), records={1: (1, 1), 2: (2, 5)}, ended=2),
    # Two records, one of them over three slots that are not in order.
    of(part(5, 1, 4, 2, 3), old(9, 7), part(5, 1, 448, 1, 3), first(5, 1, 900, 2, 0), records={5: (3, 1), 9: (1, 7)}),
    # A first slot whose further slot is erased, one whose further slot is torn, and further slots of another record.
    of(first(5, 1, 449, 1), ended=1),
    of(first(5, 1, 449, 1), torn(5, 1, 1, 1, 0), ended=1),
    of(first(5, 2, 449, 1), part(5, 1, 1, 1, 0), first(6, 1, 449, 3), part(6, 1, 1, 1, 0), ended=2),
    # Two first slots that name one further slot: it is that of the first slot that it names.
    of(first(5, 1, 449, 2), first(5, 1, 449, 2), part(5, 1, 1, 1, 1), records={5: (1, 1)}, ended=1),
    # A slot that names itself, and a ring.
    of(first(5, 1, 449, 0), NOTHING, NOTHING, NOTHING, old(5, 1), records={5: (4, 1)}, ended=1),
    of(first(5, 1, 449, 1), first(6, 1, 449, 2), first(7, 1, 449, 0), old(6, 1), records={6: (3, 1)}, ended=3),
    # Numbers past the last slot: such a slot is not upright, and is left alone.
    of(first(5, 1, 449, 5), first(6, 1, 449)),
    # A newer copy that is not whole does not take the place of an older one, and one that is does.
    of(old(5, 1), first(5, 2, 449, 2), torn(5, 2, 1, 1, 1), records={5: (0, 1)}, ended=1),
    of(first(5, 1, 449, 1), part(5, 1, 1, 1, 0), first(5, 2, 449, 3), part(5, 2, 1, 1, 2), records={5: (2, 2)}, ended=1),
]
# Slots of one byte value hold nothing.
OF_ONE_VALUE = [Known([bytes([value]) * SIZE] * COUNT) for value in range(256)]
# One slot with each field of its head at its limits: those that are upright, which a record of one slot then is, and those that are not.
UPRIGHT = [
    First(), First(identifier=LAST - 1), First(form=1), First(length=448), First(form=1, length=128, named=(0, 1, 9)),
    First(form=1, length=448), First(generation=2**32 - 1),
]
NOT_UPRIGHT = [
    First(gate=ERASED), First(gate=GATE_FURTHER), First(kill=0), First(tail=ERASED), First(tail=0xA4), First(identifier=0),
    First(identifier=LAST), First(form=0), First(form=3), First(length=127), First(length=448, named=(1, NO_SLOT, NO_SLOT)),
    First(named=(NO_SLOT, NO_SLOT, 1)), First(form=1, length=127), First(form=1, length=449, named=(1, NO_SLOT, NO_SLOT)),
]
ALONE = [of(NOTHING, head.slot, records={head.identifier: (1, head.generation)}) for head in UPRIGHT]
ALONE += [of(NOTHING, head.slot) for head in NOT_UPRIGHT]
# A record over three slots, of which one is another.
SPREAD_FIRST = first(5, 1, 900, 3, 4)
SPREAD = [SPREAD_FIRST, NOTHING, NOTHING, part(5, 1, 448, 1, 0), part(5, 1, 4, 2, 0)]
WHOLE = {5: (0, 1)}


def spread(place: int, data: bytes, records: dict[int, tuple[int, int]] | None = None, ended: int = 0) -> Known:
    return Known([data if at == place else slot for at, slot in enumerate(SPREAD)], records or {}, ended)


FULL = [first(5, 1, 1792, 1, 2, 3), part(5, 1, 448, 1, 0), part(5, 1, 448, 2, 0), part(5, 1, 448, 3, 0), NOTHING]
FIRSTS = [
    spread(0, SPREAD_FIRST, WHOLE),
    spread(0, first(5, 1, 900, 3)),
    spread(0, first(5, 1, 900, 3, 4, 1)),
    spread(0, first(5, 1, 896, 3), WHOLE),
    spread(0, first(5, 1, 896, 3, 4)),
    spread(0, First(length=900, named=(3, 4, NO_SLOT), form=1).slot),
    spread(0, first(5, 1, 1793, 3, 4, 1)),
    spread(0, first(5, 1, 900, 4, 3), ended=1),
]
THIRD = Part(5, 1, 4, 2, 0)
OTHERS = [
    replace(THIRD, generation=2), replace(THIRD, identifier=6), replace(THIRD, length=448), replace(THIRD, part=1), replace(THIRD, first=1),
    replace(THIRD, tail=ERASED), replace(THIRD, form=2), replace(THIRD, mark=GATE_OPEN),
]
BY_HAND = SEVERAL + OF_ONE_VALUE + ALONE + FIRSTS + [spread(4, other.slot, ended=1) for other in OTHERS] + [Known(FULL, WHOLE)]


def some_slot(chance: random.Random) -> bytes:
    identifier, generation = chance.choice([5, 5, 5, 6, 0, LAST]), chance.choice([1, 2, 2**32 - 1])
    length = chance.choice([449, 449, 900, 896, 200, 128])
    kind = chance.randrange(8)
    if kind < 1:
        return NOTHING
    if kind < 2:
        return old(identifier, generation)
    if kind < 4:
        further = FLASH.parts(length) - 1
        return first(identifier, generation, length, *(chance.randrange(COUNT + 1) if at < further else NO_SLOT for at in range(3)))
    number = chance.choice([1, 1, 2])
    size = chance.choice([length - ROOM * number, 1, 4, 448]) % 449
    return part(identifier, generation, size, number, chance.randrange(COUNT), TAIL_MARK if kind < 7 else ERASED)


def likely(chance: random.Random) -> list[bytes]:
    """Slots at random, among them mostly a record over several slots that is nearly whole."""
    slots = [some_slot(chance) for _ in range(COUNT)]
    places = chance.sample(range(COUNT), 3)
    identifier, generation = chance.choice([5, 6]), chance.choice([1, 2])
    length = chance.choice([449, 896, 897, 1000])
    further = FLASH.parts(length) - 1
    slots[places[0]] = first(identifier, generation, length, *places[1 : 1 + further])
    for number in range(1, further + 1):
        size = min(ROOM, length - number * ROOM)
        slots[places[number]] = part(identifier, generation, size, number, places[0], chance.choice([TAIL_MARK] * 5 + [ERASED]))
    return slots


def drawn(chance: random.Random, count: int) -> Iterable[bytes]:
    """So many images of slots at random."""
    for _ in range(count):
        slots = [some_slot(chance) for _ in range(COUNT)] if chance.random() < 0.5 else likely(chance)
        yield b"".join(slots)
