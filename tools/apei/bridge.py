"""A plain model of a machine whose error status blocks go over a bridge into its record store (docs/BRIDGE.md).

It keeps each block as bytes, and makes the record of a block from the formats alone.
"""

from apei.bytes import LAST
from apei.flash import FlashFailed, Fault, Geometry
from apei.frames import Header, Section, block, record_of, severity_of
from apei.handover import CLEARED, READING, WANTS, Handover, wants
from apei.store import Store, Stored

BLOCKS = [block(2, bytes(range(1, 9))), block(1, b"\x33" * 300), block(0, b""), block(7, b"\x44" * 20)]
OFF, AWAITS, HOLDS, RELEASES = "off", "awaits", "holds", "releases"


def bridged(body: bytes, identifier: int) -> bytes:
    """The record of a block (UEFI 2.8, appendix N): one section, whose body is the block."""
    severity = min(severity_of(body), 3)
    section = Section(body, b"APEIBLOCK".ljust(16, b"\0"), severity)
    return record_of(Header(identifier, severity, creator=b"APEIBRIDGE".ljust(16, b"\0")), section)


class BridgedMachine(Store):
    """A machine with a bridge that is off, awaits a block, holds one, or releases it."""

    def __init__(self, geometry: Geometry, fault: Fault | None = None) -> None:
        super().__init__(geometry, fault)
        self.is_lost = False
        self.told = [0, 0, 0]
        self.restart()

    def restart(self) -> None:
        self.handover = Handover()
        self.stage, self.next_identifier = OFF, 0

    def change(self, slot: int, at: int, data: bytes) -> None:
        try:
            super().change(slot, at, data)
        except FlashFailed:
            self.is_lost = self.fault is not None and self.fault.is_loss
            raise

    def settle(self) -> dict[int, Stored]:
        if self.is_lost:
            raise FlashFailed
        return super().settle()

    def offer(self, body: bytes) -> str:
        """A turn of a bridge that holds a block: a write of its record."""
        if self.next_identifier == LAST:
            return "out"
        try:
            reply = self.write(bridged(body, self.next_identifier).hex())
        except FlashFailed:
            self.in_doubt = True
            reply = "refused hardware"
        if reply.startswith("refused "):
            return f"kept {self.steps} {reply[8:]}"
        self.stage, self.next_identifier = RELEASES, self.next_identifier + 1
        return f"stored {self.next_identifier - 1} {self.steps}"

    def tell(self, body: bytes) -> str:
        """The reply on a block that was taken, of which the listeners are told."""
        severity = severity_of(body)
        self.told = [count + wants(mask, severity) for count, mask in zip(self.told, WANTS)]
        return f"block {severity} {len(body)} {body.hex()} @{self.steps}\n"

    def turns(self, letters: str) -> str:
        said, events = "", ["turns"]
        for letter in letters:
            if letter == "F":
                events.append(self.handover.firmware())
                continue
            body = self.handover.block or b""
            event = self.offer(body) if self.stage == HOLDS else self.handover.reader()
            events.append(event)
            if event == "took":
                said += self.tell(body)
            if self.stage != OFF and event in ("took", "ack"):
                self.stage = HOLDS if event == "took" else AWAITS
        return said + " ".join(events)

    def bridge(self, text: str) -> str:
        identifier = int(text)
        if identifier in (0, LAST):
            return "refused id"
        if self.stage != OFF:
            return "refused on"
        if self.handover.situation in (READING, CLEARED):
            return "refused reading"
        self.stage, self.next_identifier = AWAITS, identifier
        return f"bridge {identifier}"

    def error(self, text: str) -> str:
        return self.handover.submit(bytes.fromhex(text))

    def heard(self) -> str:
        return " ".join(["heard", *map(str, self.told)])

    def table(self, _name: str) -> str:
        return "table 26"

    def power(self) -> str:
        self.is_lost, self.in_doubt = False, True
        return self.reset("power")

    def reset(self, word: str = "reset") -> str:
        found = self.settle()
        self.cursor = 0
        self.restart()
        return f"{word} {len(found)}"

    def play(self, line: str) -> str:
        return "" if not line or line.startswith("#") else super().play(line)
