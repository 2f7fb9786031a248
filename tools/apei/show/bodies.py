"""Tables, records, blocks and section bodies that are drawn at random, for apei-show and others to read.

A body mostly says what its standard allows: numbers that have names, counts that fit. Its validation bits are drawn too, and all of them
are set often.
"""

import random
from dataclasses import dataclass

from apei import frames, names, tables
from apei.bytes import guid_bytes, number, spell
from apei.frames import Entry, Header, Section
from apei.names import LINUX



@dataclass
class Chance:
    """Draws numbers."""

    of: random.Random

    def below(self, count: int) -> int:
        return self.of.randrange(count)

    def number(self, width: int) -> bytes:
        """A number: any, a small one, or none or all of its bits."""
        kind = self.below(6)
        few = [bytes(width), b"\xff" * width, spell(self.below(16), width)]
        return few[kind] if kind < len(few) else self.of.randbytes(width)

    def few(self, count: int, width: int) -> bytes:
        """Mostly a number below `count`."""
        return self.of.randbytes(width) if self.below(8) == 0 else spell(self.below(count), width)

    def bits(self, count: int, width: int) -> bytes:
        """Validation bits: all of the standard's, some, or any."""
        kind = self.below(8)
        if kind == 0:
            return self.of.randbytes(width)
        return spell((1 << count) - 1 if kind < 4 else self.below(1 << count), width)

    def text(self, width: int) -> bytes:
        """Text that ends in zeros, or fills its place."""
        letters = bytes(self.of.choice(b"DIMM_ABC 0123#-") for _ in range(self.below(width + 1)))
        return letters.ljust(width, b"\0")


def numbers(chance: Chance, count: int, width: int) -> bytes:
    return b"".join(chance.number(width) for _ in range(count))


def processor(chance: Chance) -> bytes:
    few = [chance.few(it, 1) for it in (4, 6, 9, 5, 16, 8)]
    return chance.bits(13, 8) + b"".join(few) + bytes(2) + chance.number(8) + chance.text(128) + numbers(chance, 5, 8)


def memory(chance: Chance) -> bytes:
    status = bytes(1) + chance.few(27, 1) + chance.number(6)
    body = chance.bits(22, 8) + status + numbers(chance, 2, 8) + numbers(chance, 8, 2)
    return body + numbers(chance, 3, 8) + chance.few(17, 1) + chance.number(1) + numbers(chance, 3, 2)


def memory_2(chance: Chance) -> bytes:
    status = bytes(1) + chance.few(27, 1) + chance.number(6)
    body = chance.bits(22, 8) + status + numbers(chance, 2, 8) + numbers(chance, 4, 2)
    body += numbers(chance, 5, 4) + chance.number(1) + chance.few(17, 1) + chance.few(2, 1) + bytes(1)
    return body + numbers(chance, 3, 8) + numbers(chance, 2, 4)


def pcie(chance: Chance) -> bytes:
    body = chance.bits(8, 8) + chance.few(12, 4) + chance.number(2) + bytes(2) + chance.number(4) + bytes(4)
    body += chance.of.randbytes(15) + bytes(1)
    return body + chance.number(8) + chance.number(4) + chance.of.randbytes(60) + chance.of.randbytes(96)


def pci_bus(chance: Chance) -> bytes:
    body = chance.bits(9, 8) + chance.number(8) + chance.few(9, 2) + chance.number(2) + bytes(4)
    return body + numbers(chance, 6, 8)


def pci_component(chance: Chance) -> bytes:
    pairs = [chance.below(4), chance.below(4)]
    body = chance.bits(5, 8) + chance.number(8) + chance.of.randbytes(11) + bytes(5) + spell(pairs[0], 4) + spell(pairs[1], 4)
    return body + chance.of.randbytes(16 * sum(pairs))


def firmware(chance: Chance) -> bytes:
    revision = chance.below(4)
    body = chance.few(4, 1) + spell(revision, 1) + bytes(6) + chance.number(8) + chance.of.randbytes(16)
    return body + chance.of.randbytes(chance.below(3) * 8)


def dmar(chance: Chance) -> bytes:
    return chance.number(4) + chance.few(12, 1) + chance.few(3, 1) + chance.few(3, 1) + chance.few(3, 1) + chance.number(8) + bytes(16)


def vtd(chance: Chance) -> bytes:
    return chance.number(2) + chance.text(6) + chance.of.randbytes(28) + bytes(12) + chance.of.randbytes(96)


def iommu(chance: Chance) -> bytes:
    body = chance.number(1) + bytes(7) + chance.number(8) + chance.number(8) + bytes(8)
    return body + chance.of.randbytes(16) + bytes(16) + chance.of.randbytes(80)


def ccix(chance: Chance) -> bytes:
    log = chance.of.randbytes(20 + 4 * chance.below(4))
    return spell(16 + len(log), 4) + chance.bits(3, 8) + chance.number(1) + chance.number(1) + bytes(2) + log


def check(chance: Chance, bits: int, width: int) -> bytes:
    """A check structure: its validation bits, in some of them none, and what they speak of."""
    return spell(chance.below(1 << bits) * (chance.below(8) > 0) | chance.below(1 << width) << 16, 8)


def ia32_error(chance: Chance, kind: int) -> bytes:
    name = guid_bytes(names.CHECKS[kind]) if kind < 4 else chance.of.randbytes(16)
    return name + chance.bits(5, 8) + check(chance, 6 if kind == 3 else 11, 19) + numbers(chance, 4, 8)


def ia32_context(chance: Chance, kind: int) -> bytes:
    size = {2: 92, 3: 244, 4: 512, 5: 32, 6: 64}.get(kind, 8 * chance.below(5))
    return spell(kind, 2) + spell(size, 2) + chance.number(4) + chance.number(8) + chance.of.randbytes(size)


def ia32_of(chance: Chance, errors: list[int], contexts: list[int]) -> bytes:
    """A section of errors and contexts of these kinds."""
    valid = chance.below(4) | len(errors) << 2 | len(contexts) << 8
    parts = [ia32_error(chance, it) for it in errors] + [ia32_context(chance, it) for it in contexts]
    return spell(valid, 8) + chance.number(8) + chance.of.randbytes(48) + b"".join(parts)


def ia32(chance: Chance) -> bytes:
    return ia32_of(chance, [chance.below(5) for _ in range(chance.below(5))], [chance.below(9) for _ in range(chance.below(4))])


ARM_SIZES = [64, 96, 64, 8, 256, 136, 120, 80, 10]


def arm_error(chance: Chance, kind: int) -> bytes:
    head = bytes([0, 32]) + chance.bits(5, 2) + bytes([kind]) + chance.few(3, 2) + chance.few(16, 1)
    return head + check(chance, 12, 28) + numbers(chance, 2, 8)


def arm_context(chance: Chance, kind: int) -> bytes:
    size = ARM_SIZES[kind] if chance.below(4) else 8 * chance.below(5)
    return spell(0, 2) + spell(kind, 2) + spell(size, 4) + chance.of.randbytes(size)


def arm_of(chance: Chance, errors: list[int], contexts: list[int]) -> bytes:
    """A section of errors and contexts of these kinds, and what its vendor puts behind them."""
    parts = [arm_error(chance, it) for it in errors] + [arm_context(chance, it) for it in contexts]
    out = b"".join(parts) + chance.of.randbytes(8 * chance.below(3))
    head = chance.bits(4, 4) + spell(len(errors), 2) + spell(len(contexts), 2) + spell(40 + len(out), 4) + chance.few(4, 1) + bytes(3)
    return head + chance.number(8) + chance.number(8) + chance.few(2, 4) + chance.number(4) + out


def arm(chance: Chance) -> bytes:
    kinds = [chance.of.choice([2, 4, 8, 16, 6, 0, 1, 32]) if chance.below(6) else chance.below(256) for _ in range(chance.below(4))]
    return arm_of(chance, kinds, [chance.below(9) for _ in range(chance.below(4))])


def machine_check(chance: Chance) -> bytes:
    time = spell(chance.of.choice([0, 1764195334, 4102444799, 253402300799]) if chance.below(3) else chance.below(1 << 33), 8)
    body = numbers(chance, 6, 8) + time + chance.few(12, 1) + chance.number(1) + chance.few(8, 1) + bytes(1) + chance.number(4)
    body += numbers(chance, 4, 1) + numbers(chance, 3, 4) + numbers(chance, 4, 8)
    return body + chance.number(4) + bytes(4) + chance.number(8)


def dmesg(chance: Chance) -> bytes:
    said = "Kernel panic", 'a "quoted" \\ line', "end"
    lines = [f"<{chance.below(8)}>[{chance.below(10000):5}.{chance.below(10**6):06}] {it}\n" for it in said]
    return (f"Panic#{1 + chance.below(9)} Part{1 + chance.below(3)}\n" + "".join(lines[: 1 + chance.below(3)])).encode()


def cxl(chance: Chance) -> bytes:
    """What a CXL device reports, whose fields are not shown."""
    return chance.of.randbytes(8 * chance.below(20))


BODIES = {
    names.PROCESSOR: processor,
    names.IA32: ia32,
    names.ARM: arm,
    names.MEMORY: memory,
    names.MEMORY_2: memory_2,
    names.PCIE: pcie,
    names.PCI_BUS: pci_bus,
    names.PCI_COMPONENT: pci_component,
    names.FIRMWARE: firmware,
    names.DMAR: dmar,
    names.VTD: vtd,
    names.IOMMU: iommu,
    names.CCIX: ccix,
    names.MACHINE_CHECK: machine_check,
    names.DMESG: dmesg,
    names.CXL_PROTOCOL: cxl,
    names.CXL_MEDIA: cxl,
    names.CXL_DRAM: cxl,
    names.CXL_MODULE: cxl,
}


def in_digits(value: int) -> int:
    return int(str(value), 16)


def stamp(chance: Chance) -> bytes:
    """A time as the standard writes it (N.2.1), precise or not."""
    second, minute, hour = chance.below(60), chance.below(60), chance.below(24)
    day, month, year = 1 + chance.below(28), 1 + chance.below(12), chance.below(100)
    century = chance.of.choice([19, 20, 21, 99])
    return bytes([*map(in_digits, (second, minute, hour)), chance.below(2), *map(in_digits, (day, month, year, century))])


def data_entry(chance: Chance, kind: str, body: bytes) -> Entry:
    revision = chance.of.choice([0x201, 0x300, 0x300, 0x301])
    bits = chance.bits(3 if revision >= 0x300 else 2, 1) + chance.few(4, 1)
    return Entry(body, guid_bytes(kind), chance.below(4), revision, bits, chance.of.randbytes(16), chance.text(20), stamp(chance))


def block(chance: Chance, *parts: tuple[str, bytes], raw: bytes = b"") -> bytes:
    """An error status block of such sections, and raw data behind them."""
    entries = b"".join(data_entry(chance, kind, body).data for kind, body in parts)
    status = 1 + chance.below(15) | len(parts) << 4
    return frames.block_of(status, chance.below(4), entries, raw, 20 + len(entries) if raw else 0)


def section(chance: Chance, kind: str, body: bytes) -> Section:
    bits = chance.bits(2, 1) + bytes(1) + chance.few(256, 4)
    revision = chance.of.choice([0x100, 0x300])
    return Section(body, guid_bytes(kind), chance.below(4), revision, bits, chance.of.randbytes(16), chance.text(20))


def record(chance: Chance, *parts: tuple[str, bytes], identifier: int = 0, linux: bool = False) -> bytes:
    """An error record of such sections; one of Linux's has seconds where the standard has a time."""
    header = Header(
        identifier or chance.below(2**64),
        severity=chance.below(4),
        valid=number(chance.bits(3, 4)),
        time=spell(chance.below(1 << 33), 8) if linux else stamp(chance),
        platform=chance.of.randbytes(16),
        partition=chance.of.randbytes(16),
        creator=guid_bytes(LINUX) if linux else chance.of.randbytes(16),
        notification=guid_bytes(chance.of.choice(names.NOTIFICATIONS)) if chance.below(4) else chance.of.randbytes(16),
        flags=number(chance.few(8, 4)),
        persistence=chance.number(8),
    )
    return frames.record_of(header, *(section(chance, kind, body) for kind, body in parts))


def sealed(table: bytes) -> bytes:
    """A table with its length and its checksum."""
    return tables.seal(table[:4] + spell(len(table), 4) + table[8:])


def table_header(chance: Chance, signature: bytes) -> bytes:
    names_of_maker = b"APEI  " + b"EXAMPLE " + chance.number(4) + b"TEST" + chance.number(4)
    return signature + bytes(4) + spell(1 + chance.below(2), 1) + bytes(1) + names_of_maker


def register(chance: Chance) -> bytes:
    """One that Linux takes, or one drawn at random."""
    if chance.below(3):
        return bytes([0, 64, 0, 4]) + chance.of.randbytes(6) + bytes(2)
    space, address = chance.few(4, 1), chance.number(8) if chance.below(2) else chance.of.randbytes(5) + bytes(3)
    return space + spell(chance.of.choice([0, 8, 16, 32, 64]), 1) + chance.few(2, 1) + chance.few(5, 1) + address


def erst(chance: Chance) -> bytes:
    count = chance.below(30)
    entries = b""
    for _ in range(count):
        entries += chance.few(18, 1) + chance.few(20, 1) + chance.few(2, 1) + bytes(1) + register(chance) + numbers(chance, 2, 8)
    return sealed(table_header(chance, b"ERST") + spell(48, 4) + bytes(4) + spell(count, 4) + entries)


def notification(chance: Chance) -> bytes:
    kind = chance.few(13, 1) if chance.below(4) else bytes(1)
    return kind + spell(28, 1) + chance.few(64, 2) + chance.few(3, 4) + numbers(chance, 5, 4)


def bank(chance: Chance) -> bytes:
    return chance.number(1) + chance.few(2, 1) + chance.few(4, 1) + bytes(1) + chance.number(4) + chance.number(8) + numbers(chance, 3, 4)


def source(chance: Chance, kind: int) -> bytes:
    """An error source structure of a type (ACPI 6.4, 18.3.2)."""
    head = spell(kind, 2) + chance.number(2)
    enabled = chance.few(8, 1) + chance.few(2, 1) + chance.number(4) + chance.number(4)
    if kind in (0, 1, 11):
        banks = b"".join(bank(chance) for _ in range(chance.below(4)))
        count = spell(len(banks) // 28, 1)
        if kind == 0:
            return head + bytes(2) + enabled + chance.number(8) + chance.number(8) + count + bytes(7) + banks
        return head + bytes(2) + enabled + notification(chance) + count + bytes(3) + banks
    if kind == 2:
        return head + bytes(4) + numbers(chance, 3, 4)
    if kind in (6, 7, 8):
        common = head + bytes(2) + enabled + chance.number(4) + chance.number(2) + chance.number(2) + chance.number(2) + bytes(2)
        return common + numbers(chance, {6: 5, 7: 4, 8: 7}[kind], 4)
    generic = head + chance.number(2) + bytes(1) + chance.few(2, 1) + numbers(chance, 3, 4) + register(chance)
    generic += notification(chance) + chance.number(4)
    return generic if kind == 9 else generic + register(chance) + chance.number(8) + chance.number(8)


SOURCES = [0, 1, 2, 6, 7, 8, 9, 10, 11]


def hest(chance: Chance, kinds: list[int]) -> bytes:
    return sealed(table_header(chance, b"HEST") + spell(len(kinds), 4) + b"".join(source(chance, kind) for kind in kinds))


def bert(chance: Chance) -> bytes:
    return sealed(table_header(chance, b"BERT") + chance.number(4) + chance.number(8))
