"""Error records (UEFI 2.8, appendix N) and error status blocks (ACPI 6.4, 18.3.2.7.1), made from their fields."""

from dataclasses import dataclass

from apei.bytes import joined, number, spell

# The type of a section on platform memory.
MEMORY = bytes.fromhex("1411bca5646fde4eb8633e83ed7c83b1")
HEADER, DESCRIPTOR = 128, 72


@dataclass(frozen=True)
class Section:
    """A section of a record, and what its descriptor says of it (UEFI 2.8, N.2.2)."""

    body: bytes
    kind: bytes = MEMORY
    severity: int = 2
    revision: int = 0x0300
    # The validation bits, a reserved byte, and the flags.
    bits: bytes = bytes(6)
    # The identifier and the text of the field replaceable unit.
    unit: bytes = bytes(16)
    text: bytes = bytes(20)

    def descriptor(self, at: int) -> bytes:
        fields = joined((at, 4), (len(self.body), 4), (self.revision, 2))
        return fields + self.bits + self.kind + self.unit + spell(self.severity, 4) + self.text


@dataclass(frozen=True)
class Header:
    """The fields of a record's header that its sections do not give (UEFI 2.8, N.2.1)."""

    identifier: int
    severity: int = 2
    valid: int = 0
    time: bytes = bytes(8)
    platform: bytes = bytes(16)
    partition: bytes = bytes(16)
    creator: bytes = bytes(16)
    notification: bytes = bytes(16)
    flags: int = 0
    persistence: bytes = bytes(8)

    def of(self, sections: int, length: int) -> bytes:
        """The header of a record of N sections and M bytes in all."""
        start = b"CPER\1\1" + b"\xff" * 4 + joined((sections, 2), (self.severity, 4), (self.valid, 4), (length, 4))
        names = self.platform + self.partition + self.creator + self.notification
        return start + self.time + names + joined((self.identifier, 8), (self.flags, 4)) + self.persistence + bytes(12)


def record_of(header: Header, *sections: Section) -> bytes:
    """A record: the header, a descriptor of each section, and the sections, one after another."""
    at, descriptors = HEADER + DESCRIPTOR * len(sections), b""
    for section in sections:
        descriptors += section.descriptor(at)
        at += len(section.body)
    return header.of(len(sections), at) + descriptors + b"".join(section.body for section in sections)


def record(identifier: int, length: int) -> bytes:
    """A record without sections, and zeros up to its length."""
    return Header(identifier).of(0, length).ljust(length, b"\0")


def marked(data: bytes) -> bytes:
    """A record as it is stored: with the mark of the store that keeps it, in the persistence information."""
    return data[:108] + b"ER" + data[110:]


def identifier_of(data: bytes | bytearray) -> int:
    return number(data, 96, 8)


@dataclass(frozen=True)
class Entry:
    """An entry of a block, by default of a revision without a timestamp."""

    body: bytes
    kind: bytes = MEMORY
    severity: int = 2
    revision: int = 0x0201
    # The validation bits and the flags.
    bits: bytes = bytes(2)
    # The identifier and the text of the field replaceable unit.
    unit: bytes = bytes(16)
    text: bytes = bytes(20)
    time: bytes = bytes(8)

    @property
    def data(self) -> bytes:
        """The entry's bytes: its head, of which older revisions have no time, and its body."""
        head = self.kind + joined((self.severity, 4), (self.revision, 2)) + self.bits + spell(len(self.body), 4) + self.unit + self.text
        return head + (self.time if self.revision >= 0x0300 else b"") + self.body


def block_of(status: int, severity: int, entries: bytes, raw: bytes = b"", raw_offset: int = 0, gap: bytes = b"") -> bytes:
    """A block: its head, the bytes of its entries, and raw data after a gap."""
    head = joined((status, 4), (raw_offset, 4), (len(raw), 4), (len(entries), 4), (severity, 4))
    return head + entries + gap + raw


def block(severity: int, data: bytes) -> bytes:
    """A block with one entry."""
    return block_of(0x12, severity, Entry(data, severity=severity % 4).data)


def severity_of(data: bytes) -> int:
    """The severity of a block."""
    return number(data, 16, 4)
