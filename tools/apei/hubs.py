"""A plain model of error sources of types 9 and 10 over one memory, each with its own handover.

docs/SCRIPT.md says why no hub is opened for some.
"""

from collections.abc import Sequence
from dataclasses import dataclass

from apei import tables
from apei.bytes import joined, number, spell
from apei.frames import block_of, severity_of
from apei.handover import WANTS, Handover, wants

PLAIN, ACKNOWLEDGED = 9, 10
MOST_SOURCES, LEAST_BLOCK, MOST_BLOCK = 16, 20, 4096
# Where the firmware's buffers of blocks stand, one after another.
BUFFERS, BUFFER_STRIDE = 0x10000000, 0x10000


@dataclass(frozen=True)
class Source:
    """A generic hardware error source of a table (ACPI 6.4, 18.3.2.7 and 18.3.2.8)."""

    kind: int
    status: bytes
    ack: bytes = b""
    write: int = 1
    length: int = MOST_BLOCK
    preserve: int = 2**64 - 2

    @property
    def data(self) -> bytes:
        body = joined((self.kind, 2), (1, 2)) + b"\xff\xff\0\1" + joined((1, 4), (4, 4), (4096, 4)) + self.status
        body += bytes.fromhex("001c0000e8030000") + bytes(20) + spell(self.length, 4)
        return body + (self.ack + joined((self.preserve, 8), (self.write, 8)) if self.kind == ACKNOWLEDGED else b"")


def acknowledged() -> Source:
    return Source(ACKNOWLEDGED, tables.address(0x300000), tables.address(0x300008))


def hest(sources: Sequence[Source], others: int = 0) -> bytes:
    """A table of these sources, after some structures of type 6."""
    return tables.hest((b"\6\0" + bytes(46)) * others + b"".join(source.data for source in sources), others + len(sources))


def raw_block(severity: int, size: int) -> bytes:
    """A block of N bytes, all of them raw data but the head."""
    raw = bytes(at & 255 for at in range(size - 20))
    return block_of(0x11, severity, b"", raw, 20 if raw else 0)


@dataclass(frozen=True)
class Register:
    """Where a register lies, the bits before it, and how wide an access is."""

    space: int
    place: int
    offset: int
    width: int


def register(data: bytes) -> Register | None:
    """The register that a Generic Address Structure describes, if any."""
    space, width, offset, access = data[:4]
    if space > 1 or access > 4 or width == 0 or offset + width > 64:
        return None
    least = max(offset + width, {1: 8, 2: 16, 3: 32, 4: 64}.get(access, 0))
    return Register(space, number(data, 4, 8), offset, next(bits for bits in (8, 16, 32, 64) if least <= bits))


# A space, a place in it, and a number of bytes.
Range = tuple[int, int, int]


def ranges(at: int, source: Source) -> list[Range] | str:
    """What a source takes of memory and ports, or the words of what is wrong with it."""
    if not LEAST_BLOCK <= source.length <= MOST_BLOCK:
        return f"block-len {at} {source.length}"
    status = register(source.status)
    if status is None or (status.space, status.offset, status.width) != (tables.MEMORY, 0, 64):
        return f"status {at}"
    found = [(tables.MEMORY, status.place, 8)]
    if source.kind == ACKNOWLEDGED:
        ack = register(source.ack)
        if ack is None or source.write == 0 or source.write << ack.offset >= 1 << ack.width:
            return f"ack {at}"
        found.append((ack.space, ack.place, ack.width // 8))
    return [*found, (tables.MEMORY, BUFFERS + BUFFER_STRIDE * at, source.length)]


def refusal(sources: Sequence[Source]) -> str | None:
    """The words of the first reason why no hub is opened for these sources."""
    if not sources:
        return "no-source"
    if len(sources) > MOST_SOURCES:
        return f"many {len(sources)}"
    taken: list[Range] = []
    for at, source in enumerate(sources):
        found = ranges(at, source)
        if isinstance(found, str):
            return found
        for space, begin, size in found:
            if begin + size >= 2**64 or any(s == space and b < begin + size and begin < b + n for s, b, n in taken):
                return f"clash {at}"
            taken.append((space, begin, size))
    return None


class Hub:
    """What a script of these sources says."""

    def __init__(self, sources: Sequence[Source]) -> None:
        self.sources = sources
        self.handovers = [Handover(source.kind == ACKNOWLEDGED) for source in sources]
        # Of each source its listeners: what each wants, and how often it was told.
        self.chains = [[[mask, 0] for at, mask in enumerate(WANTS) if at % len(sources) == source] for source in range(len(sources))]

    def tell(self, at: int, body: bytes) -> str:
        """The reply on a block that was taken from a source, of which its listeners are told."""
        severity = severity_of(body)
        for listener in self.chains[at]:
            listener[1] += wants(listener[0], severity)
        return f"block {at} {severity} {len(body)} {body.hex()}"

    def turns(self, pairs: str) -> list[str]:
        turns = [(int(digit, 16), side) for digit, side in zip(pairs[::2], pairs[1::2])]
        if any(at >= len(self.sources) for at, _ in turns):
            return ["refused none"]
        said, events = [], ["turns"]
        for at, side in turns:
            handover = self.handovers[at]
            events.append(handover.firmware() if side == "F" else handover.reader())
            if events[-1] == "took":
                said.append(self.tell(at, handover.block or b""))
        return [*said, " ".join(events)]

    def error(self, at: int, body: bytes) -> str:
        if len(body) > self.sources[at].length:
            return f"refused long {len(body)}"
        return self.handovers[at].submit(body)

    def play(self, line: str) -> list[str]:
        """The replies to a line."""
        word, *parts = line.split(" ")
        if word == "turns":
            return self.turns(parts[0])
        at = int(parts[0])
        if at >= len(self.sources):
            return ["refused none"]
        if word == "error":
            return [self.error(at, bytes.fromhex(parts[1]))]
        if word == "heard":
            return [" ".join(["heard", *(str(count) for _, count in self.chains[at])])]
        if int(parts[1]) >= len(self.chains[at]):
            return ["refused none"]
        del self.chains[at][int(parts[1])]
        return [f"dropped {at} {parts[1]}"]
