"""A plain model of the record store on its slots.

It keeps the whole image of the flash, looks at every slot for every command, and keeps no list: docs/FORMATS.md has the slots and the
order of changes, docs/SCRIPT.md the lines and the words of replies.
"""

from collections.abc import Iterable
from typing import NamedTuple

from apei.bytes import LAST, joined, number
from apei.flash import FlashFailed, Fault, Geometry, torn
from apei.frames import identifier_of, marked

HEAD, LEAST, PIECE, LONGEST = 32, 128, 256, 65536
GATE_OPEN, GATE_FURTHER, GATE_CLOSED, KILL_MARK, NOT_KILLED, TAIL_MARK = 0x5A, 0x3C, 0xFF, 0x00, 0xFF, 0xA5
LAST_GENERATION = 2**32 - 1
NO_SLOT = 0xFFFF


class Upright(NamedTuple):
    """What the head of an upright slot says."""

    identifier: int
    generation: int
    length: int
    further: list[int]


class Stored(NamedTuple):
    """A record where it stands: its first slot, and the slots after that."""

    slot: int
    generation: int
    body: bytes
    further: list[int]

    @property
    def slots(self) -> list[int]:
        return [self.slot, *self.further]


class Store:
    """A store over a flash, of which one change may fail."""

    def __init__(self, geometry: Geometry, fault: Fault | None = None) -> None:
        self.geometry, self.fault = geometry, fault
        self.slots = [bytearray(b"\xff" * geometry.slot_size) for _ in range(geometry.slots)]
        self.room = geometry.room
        self.reach = min(4 * self.room, LONGEST)
        self.steps = self.cursor = 0
        self.in_doubt = False

    def put(self, image: bytes) -> None:
        """Puts an image on the flash, at which the store has not looked yet."""
        size = self.geometry.slot_size
        self.slots = [bytearray(image[at : at + size]) for at in range(0, len(image), size)]
        self.in_doubt = True

    @property
    def image(self) -> bytes:
        return b"".join(self.slots)

    def change(self, slot: int, at: int, data: bytes) -> None:
        """One change of the flash, which fails if it is the fault's."""
        fault = self.fault if self.fault and self.steps == self.fault.change else None
        self.steps += 1
        place = slice(at, at + len(data))
        self.slots[slot][place] = torn(self.slots[slot][place], data, fault.tear) if fault else data
        if fault:
            raise FlashFailed

    def upright(self, slot: int) -> Upright | None:
        data = self.slots[slot]
        form, identifier, length = number(data, 2, 2), number(data, 8, 8), number(data, 16, 4)
        named = [number(data, at, 2) for at in (20, 22, 24)]
        further = self.geometry.parts(length) - 1
        if (data[0], data[1], data[-1]) != (GATE_OPEN, NOT_KILLED, TAIL_MARK) or length < LEAST or identifier in (0, LAST):
            return None
        if form == 1 and length <= self.room:
            return Upright(identifier, number(data, 4, 4), length, [])
        names = all(slot < len(self.slots) for slot in named[:further]) and all(slot == NO_SLOT for slot in named[further:])
        if form == 2 and length <= self.reach and names:
            return Upright(identifier, number(data, 4, 4), length, named[:further])
        return None

    def live(self, slot: int) -> tuple[int, Stored] | None:
        """The identifier and the record of a live slot: an upright one whose further slots are those that it names."""
        upright = self.upright(slot)
        if not upright:
            return None
        body = self.slots[slot][HEAD : HEAD + min(upright.length, self.room)]
        for part, place in enumerate(upright.further, 1):
            size = min(self.room, upright.length - part * self.room)
            data = self.slots[place]
            head = part_head(upright.identifier, upright.generation, size, part, slot)
            if data[0] != head[0] or data[2:24] != head[2:] or data[-1] != TAIL_MARK:
                return None
            body += data[HEAD : HEAD + size]
        return upright.identifier, Stored(slot, upright.generation, bytes(body), upright.further)

    def records(self) -> dict[int, Stored]:
        """The record of each identifier: that of the greatest generation, of those the one in the least slot."""
        found: dict[int, Stored] = {}
        for slot in range(len(self.slots)):
            live = self.live(slot)
            if live and (live[0] not in found or found[live[0]].generation < live[1].generation):
                found[live[0]] = live[1]
        return found

    def settle(self) -> dict[int, Stored]:
        """The records; if the flash failed before, second copies are ended first."""
        if self.in_doubt:
            firsts = {record.slot for record in self.records().values()}
            for slot in range(len(self.slots)):
                if self.upright(slot) and slot not in firsts:
                    self.change(slot, 1, bytes([KILL_MARK]))
            self.in_doubt = False
        return self.records()

    def write(self, text: str) -> str:
        body = bytes.fromhex(text)
        if len(body) > self.reach:
            return f"refused too-long {len(body)} {self.reach}"
        body, identifier = marked(body), identifier_of(body)
        if identifier in (0, LAST):
            return "refused failed"
        found = self.settle()
        older = found.get(identifier)
        taken = {slot for record in found.values() for slot in record.slots}
        free = [slot for slot in range(len(self.slots)) if slot not in taken]
        parts = self.geometry.parts(len(body))
        if older and older.generation == LAST_GENERATION:
            return "refused failed"
        if len(free) < (parts if older else parts + 1):
            return "refused no-space"
        self.fill(free[:parts], identifier, older.generation + 1 if older else 1, body)
        if older:
            self.change(older.slot, 1, bytes([KILL_MARK]))
        return f"wrote {identifier} {len(body)}"

    def fill(self, slots: list[int], identifier: int, generation: int, body: bytes) -> None:
        """Fills the further slots, in order, and then the first one, whose gate comes last."""
        first, *further = slots
        for part, slot in enumerate(further, 1):
            data = body[part * self.room : (part + 1) * self.room]
            self.fill_slot(slot, 0, part_head(identifier, generation, len(data), part, first), data)
        named = further + [NO_SLOT] * (3 - len(further))
        head = joined((2, 2), (generation, 4), (identifier, 8), (len(body), 4), *((slot, 2) for slot in named))
        self.fill_slot(first, 2, head, body[: self.room])
        self.change(first, 0, bytes([GATE_OPEN]))

    def fill_slot(self, slot: int, at: int, head: bytes, data: bytes) -> None:
        """Erases the slot, the sector of a tail mark first, and programs the head, the body in pieces, and the tail mark."""
        sectors = range(self.geometry.per_slot)
        for sector in reversed(sectors) if self.slots[slot][-1] == TAIL_MARK else sectors:
            self.change(slot, sector * self.geometry.sector, b"\xff" * self.geometry.sector)
        self.change(slot, at, head)
        for start in range(0, len(data), PIECE):
            self.change(slot, HEAD + start, data[start : start + PIECE])
        self.change(slot, self.geometry.slot_size - 1, bytes([TAIL_MARK]))

    def clear(self, text: str) -> str:
        identifier = int(text)
        if identifier in (0, LAST):
            return "refused failed"
        found = self.settle().get(identifier)
        if not found:
            return "refused not-found"
        self.change(found.slot, 1, bytes([KILL_MARK]))
        return f"cleared {identifier}"

    def read(self, text: str) -> str:
        found = self.settle()
        if not found:
            return "refused empty"
        identifier = int(text) or min(found)
        if identifier not in found:
            self.cursor = 0
            return "refused not-found"
        self.cursor = identifier
        body = found[identifier].body
        return f"record {identifier_of(body)} {len(body)} {body.hex()}"

    def count(self) -> str:
        return f"count {len(self.settle())}"

    def next(self) -> str:
        above = [identifier for identifier in self.settle() if identifier > self.cursor]
        self.cursor = min(above, default=0)
        return f"next {self.cursor}" if above else "next end"

    def play(self, line: str) -> str:
        """The reply to a line of a script, with the number of changes so far."""
        word, *rest = line.split()
        try:
            reply = str(getattr(self, word)(*rest))
        except FlashFailed:
            self.in_doubt = True
            reply = "refused hardware"
        return f"{reply} @{self.steps}\n"


def part_head(identifier: int, generation: int, size: int, part: int, first: int) -> bytes:
    """The head of a further slot: bytes 0 to 23."""
    return joined((GATE_FURTHER, 1), (NOT_KILLED, 1), (3, 2), (generation, 4), (identifier, 8), (size, 4), (part, 2), (first, 2))


class Recorder(Store):
    """A store that keeps each change that was made."""

    def __init__(self, geometry: Geometry, fault: Fault | None = None) -> None:
        super().__init__(geometry, fault)
        self.made: list[tuple[int, int, bytes]] = []

    def change(self, slot: int, at: int, data: bytes) -> None:
        super().change(slot, at, data)
        self.made.append((slot, at, bytes(data)))

    def images(self) -> list[bytes]:
        """The image after each change, if the flash was erased at the beginning."""
        flash, images = Store(self.geometry), []
        for change in self.made:
            flash.change(*change)
            images.append(flash.image)
        return images


def images_of(geometry: Geometry, lines: Iterable[str]) -> list[bytes]:
    """The images after each change that some lines make of an erased flash."""
    store = Recorder(geometry)
    for line in lines:
        store.play(line)
    return store.images()


def cut_image(geometry: Geometry, lines: Iterable[str], change: int, tear: int) -> bytes:
    """The image that is left if power is lost in a change that some lines make of an erased flash."""
    store = Store(geometry, Fault(change, tear))
    for line in lines:
        if not store.in_doubt:
            store.play(line)
    return store.image


def booted(geometry: Geometry, image: bytes, fault: Fault | None = None) -> tuple[bytes, int]:
    """The image that a boot leaves, whose power is lost too if that is said, and how many slots it kills."""
    store = Store(geometry, fault)
    store.put(image)
    try:
        store.settle()
    except FlashFailed:
        pass
    return store.image, store.steps
