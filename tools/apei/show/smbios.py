"""Tables of System Management BIOS structures (DSP0134, 3.6): drawn at random, put into files, and read plainly."""

import random
import struct
from collections.abc import Iterator

END = bytes([127, 4, 0xFF, 0xFE, 0, 0])


def entry_point_32(table: bytes, at: int) -> bytes:
    """An entry point of 32 bits (DSP0134, 5.2.1) of a table at an address."""
    inner = b"_DMI_" + b"\0" + struct.pack("<HIHB", len(table), at, count_of(table), 0x28)
    inner = inner[:5] + bytes([-sum(inner) % 256]) + inner[6:]
    outer = b"_SM_" + bytes([0, 31, 2, 8]) + struct.pack("<HB5x", 0x200, 0) + inner
    return (outer[:4] + bytes([-sum(outer) % 256]) + outer[5:]).ljust(32, b"\0")


def entry_point_64(table: bytes, at: int) -> bytes:
    """An entry point of 64 bits (DSP0134, 5.2.2)."""
    head = b"_SM3_" + bytes([0, 24, 3, 6, 0, 1, 0]) + struct.pack("<IQ", len(table), at)
    return (head[:5] + bytes([-sum(head) % 256]) + head[6:]).ljust(32, b"\0")


def count_of(table: bytes) -> int:
    return sum(1 for _ in structures(table))


def structures(table: bytes) -> Iterator[bytes]:
    """The formatted areas of a well-formed table, one after another."""
    at = 0
    while at + 4 <= len(table):
        yield table[at : at + table[at + 1]]
        at = table.index(b"\0\0", at + table[at + 1]) + 2


def structure(kind: int, handle: int, rest: bytes, *texts: bytes) -> bytes:
    strings = b"".join(it + b"\0" for it in texts) or b"\0"
    return bytes([kind, 4 + len(rest)]) + struct.pack("<H", handle) + rest + strings + b"\0"


class Drawn:
    """Structures that are drawn at random. The texts are those of real boards, with odd ones among them."""

    def __init__(self, seed: int) -> None:
        self.of = random.Random(seed)

    def text(self) -> bytes:
        words = [b"DIMM_A2", b"P0_Node0_Channel1_Dimm0", b"Samsung", b"M393A4K40CB2-CTD", b"3A5B1C2D", b"NO DIMM", b"A", b"x y  z"]
        return self.of.choice(words) if self.of.randrange(4) else bytes(self.of.randrange(33, 127) for _ in range(1 + self.of.randrange(20)))

    def numbered(self, texts: list[bytes]) -> int:
        """The number of a text that is added to a structure's, or 0 for none."""
        if self.of.randrange(8) == 0:
            return 0
        texts.append(self.text())
        return len(texts)

    def device(self, handle: int, array: int) -> bytes:
        """A memory device (7.18)."""
        texts: list[bytes] = []
        size = self.of.choice([0, 512, 8192, 16384, 32767, 32767, 0xFFFF, 0x8000 | 640])
        speed = self.of.choice([0, 1600, 2933, 3200, 0xFFFF])
        place, bank = self.numbered(texts), self.numbered(texts)
        rest = struct.pack("<HHHHHBBBBBHH", array, 0xFFFE, 72, 64, size, 9, 0, place, bank, 26, 0x80, speed)
        rest += bytes([self.numbered(texts), self.numbered(texts), self.numbered(texts), self.numbered(texts), 2])
        rest += struct.pack("<IHHHH", self.of.choice([32768, 65536, 131072]), speed, 1200, 1200, 1200)
        if self.of.randrange(2):
            rest += bytes(0x54 - 4 - len(rest)) + struct.pack("<II", self.of.choice([6400, 70000]), 0)
        return structure(17, handle, rest, *texts)

    def array(self, handle: int) -> bytes:
        """A memory array (7.17)."""
        rest = bytes([self.of.randrange(1, 11), 3, self.of.randrange(1, 8)]) + struct.pack("<IHH", 0x4000000, 0xFFFE, self.of.randrange(1, 33))
        return structure(16, handle, rest)

    def slot(self, handle: int, number: int) -> bytes:
        """A system slot (7.10)."""
        texts: list[bytes] = []
        label = self.numbered(texts)
        return structure(9, handle, bytes([label, 0xA5, 0x0D, 4, 3]) + struct.pack("<HBBHBB", number, 4, 1, 0, 0x3B, 0), *texts)

    def naming(self, numbers: list[tuple[int, int]]) -> bytes:
        """A table with about half of the structures of these types and numbers, and others, some of them twice."""
        some = [self.table()[: -len(END)]]
        for kind, number in numbers:
            if self.of.randrange(2) or number > 0xFFFF:
                continue
            makes = {17: self.device, 16: self.array, 9: lambda number, _=0: self.slot(self.of.randrange(0x10000), number)}[kind]
            some += [makes(number, 0) if kind == 17 else makes(number) for _ in range(1 + self.of.randrange(2))]
        self.of.shuffle(some)
        return b"".join(some) + END + self.device(numbers[0][1] % 0x10000 if numbers else 0, 0)

    def table(self) -> bytes:
        handles = self.of.sample(range(0xFE00), 40)
        array = handles.pop()
        some = [self.array(array)] + [self.device(handles.pop(), array) for _ in range(1 + self.of.randrange(8))]
        some += [self.slot(handles.pop(), number) for number in self.of.sample(range(1, 60), self.of.randrange(5))]
        some += [structure(11, handles.pop(), bytes([2]), self.text(), self.text())]
        self.of.shuffle(some)
        return b"".join(some) + END


def texts_of(table: bytes) -> Iterator[tuple[bytes, list[bytes]]]:
    """Each structure's formatted area and its texts, up to the one that ends the table or the first that isn't all there."""
    at = 0
    while at + 4 <= len(table) and table[at + 1] >= 4:
        end = at + table[at + 1]
        zeros = table.find(b"\0\0", end)
        if end > len(table) or zeros < 0:
            return
        yield table[at:end], table[end:zeros].split(b"\0") if zeros > end else []
        if table[at] == 127:
            return
        at = zeros + 2


def text_at(area: bytes, texts: list[bytes], at: int) -> str | None:
    """The text whose number stands there, as JSON has it."""
    count = area[at] if at < len(area) else 0
    return texts[count - 1].decode("latin-1") if 0 < count <= len(texts) else None


def number_at(area: bytes, at: int, width: int, unknown: int | None) -> int | None:
    return int.from_bytes(area[at : at + width], "little") if at + width <= len(area) else unknown


def module(area: bytes, texts: list[bytes]) -> dict[str, str | int | None]:
    """What a memory device says of itself (7.18)."""
    size, speed = number_at(area, 12, 2, 0xFFFF), number_at(area, 21, 2, 0)
    large, quick = number_at(area, 28, 4, 0), number_at(area, 84, 4, 0)
    assert size is not None and large is not None and quick is not None
    kilobytes = size & 0x7FFF if size & 0x8000 else size << 10
    return {
        "device locator": text_at(area, texts, 16),
        "bank locator": text_at(area, texts, 17),
        "manufacturer": text_at(area, texts, 23),
        "serial number": text_at(area, texts, 24),
        "part number": text_at(area, texts, 26),
        "size in KiB": None if size == 0xFFFF else (large & 0x7FFFFFFF) << 10 if size == 0x7FFF else kilobytes,
        "speed in MT/s": (quick & 0x7FFFFFFF if speed == 0xFFFF else speed) or None,
    }


def array(area: bytes, texts: list[bytes]) -> dict[str, str | int | None]:
    """And a memory array (7.17)."""
    return {"memory array location": number_at(area, 4, 1, None), "memory array sockets": number_at(area, 13, 2, None)}


def slot(area: bytes, texts: list[bytes]) -> dict[str, str | int | None]:
    """And a system slot (7.10)."""
    return {"slot designation": text_at(area, texts, 4)}
