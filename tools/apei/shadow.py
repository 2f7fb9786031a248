"""A plain model of a client that runs the programs of either of the machine's tables, the one whose programs move the record among them.

It is the device with scratch memory and a count of steps; each step of a move stands by itself (docs/FORMATS.md).
"""

from apei.bridge import BridgedMachine
from apei.bytes import LAST, number, spell
from apei.device import (
    BEGIN_CLEAR, BEGIN_DUMMY, BEGIN_READ, BEGIN_WRITE, CHECK_BUSY, END, EXECUTE, GET_COUNT, GET_IDENTIFIER, GET_RANGE, GET_RANGE_ATTRIBUTES,
    GET_RANGE_LENGTH, GET_STATUS, GET_TIMINGS, LOG_RANGE, SET_IDENTIFIER, SET_OFFSET, Device,
)
from apei.flash import FlashFailed, Options
from apei.frames import identifier_of

SCRATCH = 0x1000
OFFSET, SOURCE, TARGET, LENGTH = 0x1F80, 0x1F88, 0x1F90, 0x1F98
PIECE = 128
CODES = [code for code in range(0x11) if code != 0xC]
WITHOUT_ANSWER = (BEGIN_WRITE, BEGIN_READ, BEGIN_CLEAR, END, SET_OFFSET, EXECUTE, SET_IDENTIFIER, BEGIN_DUMMY)
STATUSES = {1: "no-space", 2: "hardware", 3: "failed", 4: "empty", 5: "not-found"}
# The steps of what a command does at its end, however it went.
ENDING_STEPS = 64


class Stopped(Exception):
    """The steps of a run are used up."""


class Ended(Exception):
    """The flash failed in a restart, which ends the run."""


class Refused(Exception):
    """A command that was carried out, whose status is not success."""


class ShadowMachine:
    """A device with its log range, scratch memory, and a client of one of two tables."""

    def __init__(self, options: Options) -> None:
        self.store = BridgedMachine(options.geometry, options.fault)
        self.most = PIECE * min(31, self.store.reach // PIECE)
        self.restart()
        self.scratch = bytearray(4096)
        self.steps = min(1024 + 8 * (self.device.most_changes + 2), 2**20) if options.steps is None else options.steps
        self.left = self.steps

    def restart(self) -> None:
        self.device, self.value, self.moves = Device(self.store), 0, False

    # Memory.

    def at(self, address: int) -> tuple[bytearray, int]:
        return (self.scratch, address - SCRATCH) if address < LOG_RANGE else (self.device.range, address - LOG_RANGE)

    def load(self, address: int, size: int = 8) -> bytes:
        area, at = self.at(address)
        return bytes(area[at : at + size])

    def put(self, address: int, data: bytes) -> None:
        area, at = self.at(address)
        area[at : at + len(data)] = data

    # Programs.

    def spend(self, steps: int) -> None:
        if self.left < steps:
            self.left = 0
            raise Stopped
        self.left -= steps

    def set(self, register: int, value: int) -> None:
        self.spend(1)
        self.put(register, spell(value, 8))

    def move(self, source: int, target: int) -> None:
        for register, value in [(SOURCE, source), (TARGET, target), (LENGTH, PIECE), (OFFSET, 0)]:
            self.set(register, value)
        # The two bases and VAR2.
        self.spend(3)
        for done in range(0, self.most, PIECE):
            # MOVE_DATA, which takes a step, and one more for each 64 bytes.
            self.spend(1)
            self.spend(PIECE // 64)
            self.put(target + done, self.load(source + done, PIECE))
            # LOAD_VAR1, ADD, and STORE_VAR1.
            self.spend(2)
            self.set(OFFSET, done + PIECE)
            # SKIP_NEXT_INSTRUCTION_IF_TRUE, and GOTO if it didn't skip.
            self.spend(1 if done + PIECE == self.most else 2)

    def perform(self, code: int, given: int = 0) -> int:
        """Runs the program of an action by the table in use."""
        constant = {GET_RANGE: (SOURCE, SCRATCH), GET_RANGE_LENGTH: (LENGTH, self.most), GET_RANGE_ATTRIBUTES: (OFFSET, 0)}.get(code)
        if self.moves and constant:
            self.set(*constant)
            self.spend(1)
            return constant[1]
        if self.moves and code == EXECUTE:
            self.move(SCRATCH, LOG_RANGE)
        if self.moves and code == GET_STATUS:
            self.move(LOG_RANGE, SCRATCH)
        if code in (SET_OFFSET, SET_IDENTIFIER):
            self.spend(1)
            self.value = given
        self.spend(1)
        self.value = self.device.act(code, self.value)
        if code in WITHOUT_ANSWER:
            return given
        self.spend(1)
        return int(self.value == 1) if code == CHECK_BUSY else self.value & {GET_STATUS: 0xFF, GET_COUNT: 2**32 - 1}.get(code, LAST)

    # A client.

    def sequence(self, *requests: tuple[int, int]) -> None:
        """The actions of a command up to its end, which has steps of its own."""
        try:
            for code, given in [*requests, (EXECUTE, 0)]:
                self.perform(code, given)
            while self.perform(CHECK_BUSY):
                pass
            status = self.perform(GET_STATUS)
        finally:
            self.left = ENDING_STEPS
            self.perform(END)
        if status:
            raise Refused(STATUSES[status])

    def window(self) -> tuple[int, int]:
        return (SCRATCH, self.most) if self.moves else (LOG_RANGE, self.store.reach)

    def write(self, text: str) -> str:
        data = bytes.fromhex(text)
        place, most = self.window()
        if len(data) > most:
            raise Refused(f"too-long {len(data)} {most}")
        self.put(place, data)
        self.put(place + 108, b"ER")
        self.sequence((BEGIN_WRITE, 0), (SET_OFFSET, 0))
        return f"wrote {identifier_of(data)} {len(data)}"

    def read(self, text: str) -> str:
        place, most = self.window()
        self.sequence((BEGIN_READ, 0), (SET_OFFSET, 0), (SET_IDENTIFIER, int(text)))
        length = number(self.load(place + 20, 4))
        if not 128 <= length <= most:
            raise Refused(f"bad-length {length}")
        data = self.load(place, length)
        return f"record {identifier_of(data)} {length} {data.hex()}"

    def clear(self, text: str) -> str:
        self.sequence((BEGIN_CLEAR, 0), (SET_IDENTIFIER, int(text)))
        return f"cleared {text}"

    def dummy(self) -> str:
        self.sequence((BEGIN_DUMMY, 0), (SET_OFFSET, 0))
        return "dummy ok"

    def count(self) -> str:
        answer = self.perform(GET_COUNT)
        if answer == 2**32 - 1:
            raise Refused("hardware")
        return f"count {answer}"

    def next(self) -> str:
        answer = self.perform(GET_IDENTIFIER)
        if answer == 0:
            raise Refused("hardware")
        return "next end" if answer == LAST else f"next {answer}"

    # Lines.

    def action(self, code: str, given: str) -> str:
        if int(code) not in CODES:
            raise Refused(f"stopped no-action {code}")
        return f"result {self.perform(int(code), int(given))}"

    def peek(self, address: str, size: str) -> str:
        return f"bytes {self.load(int(address), int(size)).hex()}"

    def table(self, which: str) -> str:
        self.moves = which == "shadow"
        if not self.moves:
            return "table 26"
        self.left = ENDING_STEPS
        for code in (GET_RANGE, GET_RANGE_LENGTH, GET_RANGE_ATTRIBUTES, GET_TIMINGS):
            self.perform(code)
        return "table 52"

    def reset(self, word: str = "reset") -> str:
        self.device.abandon()
        kept = self.device.range
        try:
            reply = self.store.power() if word == "power" else self.store.reset()
        except FlashFailed:
            raise Ended from None
        self.restart()
        self.device.range[:] = kept
        return reply

    def power(self) -> str:
        self.device.range[:] = bytes(len(self.device.range))
        self.scratch[:] = bytes(len(self.scratch))
        return self.reset("power")

    def play(self, line: str) -> str:
        if not line or line.startswith("#"):
            return ""
        word, *rest = line.split()
        self.left = self.steps
        try:
            reply = str(getattr(self, word)(*rest))
        except Stopped:
            reply = "refused stopped budget"
        except Refused as refused:
            reply = f"refused {refused}"
        return f"{reply} @{self.store.steps}\n"


def played(options: Options, lines: list[str]) -> tuple[int, str]:
    """The exit status of a run, and what it writes."""
    machine, said = ShadowMachine(options), ""
    try:
        for line in lines:
            said += machine.play(line)
    except Ended:
        return 5, said
    return 0, said
