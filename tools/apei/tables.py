"""Tables of ACPI (ACPI 6.4, 5.2.6 and chapter 18), made from their fields."""

from apei.bytes import joined, spell

# The address space of memory.
MEMORY = 0


def seal(data: bytes | bytearray) -> bytes:
    """The table with the checksum that makes the sum of its bytes zero."""
    sealed = bytearray(data)
    sealed[9] = (sealed[9] - sum(sealed)) % 256
    return bytes(sealed)


def table(signature: bytes, body: bytes) -> bytes:
    """A table with this body after the header that all tables share."""
    names = b"\1\0APEIPRAPEISIM " + spell(1, 4) + b"APEI" + spell(1, 4)
    return seal(signature + spell(36 + len(body), 4) + names + body)


def address(place: int = 0, space: int = MEMORY, width: int = 64, offset: int = 0, access: int = 4) -> bytes:
    """A Generic Address Structure (ACPI 6.4, 5.2.3.2); by default a register of 64 bits in memory."""
    return bytes([space, width, offset, access]) + spell(place, 8)


def instruction(action: int, code: int, place: int, width: int, value: int = 0) -> bytes:
    """An instruction entry on a register in memory of 32 or 64 bits, with a mask of all its bits (ACPI 6.4, table 18.19)."""
    register = address(place, width=width, access=3 if width == 32 else 4)
    return bytes([action, code, 0, 0]) + register + joined((value, 8), (2**width - 1, 8))


def erst(entries: bytes, count: int | None = None, header_size: int = 48) -> bytes:
    """An ERST of these instruction entries (ACPI 6.4, 18.5.1)."""
    counted = len(entries) // 32 if count is None else count
    return table(b"ERST", spell(header_size, 4) + bytes(4) + spell(counted, 4) + entries)


def hest(sources: bytes, count: int) -> bytes:
    """A HEST of N error sources (ACPI 6.4, 18.3.2)."""
    return table(b"HEST", spell(count, 4) + sources)
