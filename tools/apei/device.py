"""A plain model of the device by which an operating system reaches the record store: its registers and its log range (docs/FORMATS.md)."""

from collections.abc import Callable

from apei.bytes import LAST, number
from apei.flash import FlashFailed
from apei.frames import identifier_of
from apei.store import PIECE, Recorder, Store

# The actions by which an operation begins and ends (ACPI 6.4, 18.5.1.1), and the other ones that a client uses.
BEGIN_WRITE, BEGIN_READ, BEGIN_CLEAR, END, BEGIN_DUMMY = 0x0, 0x1, 0x2, 0x3, 0xB
SET_OFFSET, EXECUTE, CHECK_BUSY, GET_STATUS, GET_IDENTIFIER, SET_IDENTIFIER, GET_COUNT = 0x4, 0x5, 0x6, 0x7, 0x8, 0x9, 0xA
GET_RANGE, GET_RANGE_LENGTH, GET_RANGE_ATTRIBUTES, GET_TIMINGS = 0xD, 0xE, 0xF, 0x10
BEGINNINGS = (BEGIN_WRITE, BEGIN_READ, BEGIN_CLEAR, BEGIN_DUMMY)
# The command statuses (ACPI 6.4, table 18.17).
SUCCESS, NO_SPACE, HARDWARE, FAILED, EMPTY, NOT_FOUND = range(6)
OF_REFUSALS = {"refused no-space": NO_SPACE, "refused failed": FAILED, "refused not-found": NOT_FOUND}
LOG_RANGE = 0x100000


class Device:
    """What is begun, and an execution that runs: a read, or the changes that are left of it."""

    def __init__(self, store: Store) -> None:
        self.store = store
        self.range = bytearray(self.store.reach)
        self.operation, self.offset, self.identifier, self.status = END, 0, 0, SUCCESS
        self.reading: tuple[int, bytes] | None = None
        self.changes: list[tuple[int, int, bytes]] = []

    @property
    def is_running(self) -> bool:
        return bool(self.reading or self.changes)

    def abandon(self) -> None:
        # What a write had done stays, so the store has to look again.
        self.store.in_doubt |= bool(self.changes)
        self.reading, self.changes = None, []

    def act(self, code: int, value: int) -> int:
        """What VALUE is after a code, where it was `value`."""
        if code in (*BEGINNINGS, END):
            self.abandon()
            self.operation = code
            if code != END:
                self.offset, self.identifier, self.status = 0, 0, SUCCESS
        elif code == SET_OFFSET and not self.is_running:
            self.offset = value
        elif code == SET_IDENTIFIER and not self.is_running:
            self.identifier = value
        elif code == EXECUTE and not self.is_running:
            self.status = self.asked(self.start, HARDWARE)
        elif code == CHECK_BUSY:
            return self.step()
        elif code == GET_STATUS:
            return self.status
        elif code == GET_IDENTIFIER:
            self.abandon()
            return self.asked(self.next, 0)
        elif code == GET_COUNT:
            self.abandon()
            return self.asked(lambda: len(self.store.settle()), 2**32 - 1)
        elif code == GET_TIMINGS:
            return 2**32 * 10 * self.most_changes + 10 * (self.store.geometry.per_slot + 4)
        return {GET_RANGE: LOG_RANGE, GET_RANGE_LENGTH: self.store.reach, GET_RANGE_ATTRIBUTES: 0}.get(code, value)

    @property
    def most_changes(self) -> int:
        """The most changes that a write or a clear makes."""
        return 4 * (self.store.geometry.per_slot + 2) + 2 + 4 * -(-self.store.room // PIECE)

    def asked(self, question: Callable[[], int], fault: int) -> int:
        """The answer of the store, or that of a fault."""
        try:
            return question()
        except FlashFailed:
            self.store.in_doubt = True
            return fault

    def next(self) -> int:
        answer = self.store.next().split()[1]
        return LAST if answer == "end" else int(answer)

    def start(self) -> int:
        """Begins an execution, whose first status this is."""
        if self.operation == BEGIN_WRITE:
            data = self.range[self.offset :]
            length = number(data, 20, 4)
            if len(data) < 128 or not 128 <= length <= len(data) or identifier_of(data) in (0, LAST):
                return FAILED
            return self.plan(lambda store: store.write(data[:length].hex()))
        if self.operation == BEGIN_CLEAR:
            identifier = self.identifier
            return FAILED if identifier in (0, LAST) else self.plan(lambda store: store.clear(str(identifier)))
        if self.operation == BEGIN_READ:
            return self.start_read()
        return SUCCESS if self.operation == BEGIN_DUMMY else FAILED

    def plan(self, command: Callable[[Store], str]) -> int:
        """The changes that a command makes on a copy of the store, to be made one by one."""
        self.store.settle()
        copy = Recorder(self.store.geometry)
        copy.slots = [bytearray(data) for data in self.store.slots]
        status = OF_REFUSALS.get(command(copy), SUCCESS)
        self.changes = copy.made
        return status

    def start_read(self) -> int:
        found = self.store.settle()
        if not found:
            return EMPTY
        identifier = self.identifier or min(found)
        if identifier not in found:
            self.store.cursor = 0
            return NOT_FOUND
        body = found[identifier].body
        if self.offset + len(body) > len(self.range):
            return FAILED
        self.reading = (identifier, body)
        return SUCCESS

    def step(self) -> int:
        """One step of the execution, and whether it still runs."""
        if self.reading:
            self.store.cursor, body = self.reading
            self.range[self.offset : self.offset + len(body)] = body
            self.reading = None
        elif self.changes:
            try:
                self.store.change(*self.changes.pop(0))
            except FlashFailed:
                self.store.in_doubt, self.status, self.changes = True, HARDWARE, []
        return int(self.is_running)
