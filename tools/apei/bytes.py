"""Numbers and GUIDs in bytes, the least significant byte first."""

import uuid

LAST = 2**64 - 1


def number(data: bytes | bytearray, at: int = 0, size: int | None = None) -> int:
    """The number in `size` bytes from a place on, or in all of them."""
    return int.from_bytes(data[at:] if size is None else data[at : at + size], "little")


def spell(value: int, size: int) -> bytes:
    return value.to_bytes(size, "little")


def joined(*fields: tuple[int, int]) -> bytes:
    """Numbers one after another, each with its size in bytes."""
    return b"".join(spell(value, size) for value, size in fields)


def guid(data: bytes | bytearray, at: int = 0) -> str:
    """The text of the GUID in 16 bytes."""
    return str(uuid.UUID(bytes_le=bytes(data[at : at + 16])))


def guid_bytes(text: str) -> bytes:
    return uuid.UUID(text).bytes_le
