"""The first line that apei-show writes of a well-formed item: what happened, how severe, where, when."""

import datetime
from collections.abc import Iterator, Sequence
from typing import NamedTuple

from apei import names
from apei.bytes import guid, number
from apei.names import LINUX, SEVERITIES
from apei.show.reading import refused

SUBJECTS = {
    names.PROCESSOR: "processor error",
    names.IA32: "processor error",
    names.ARM: "processor error",
    names.MEMORY: "memory error",
    names.MEMORY_2: "memory error",
    names.PCIE: "PCI Express error",
    names.PCI_BUS: "error, PCI/PCI-X Bus",
    names.PCI_COMPONENT: "error, PCI Component",
    names.FIRMWARE: "error, Firmware Error Record Reference",
    names.DMAR: "error, DMAr Generic",
    names.VTD: "error, Intel VT for Directed I/O",
    names.IOMMU: "error, IOMMU",
    names.CCIX: "error, CCIX PER Log",
    names.MACHINE_CHECK: "machine check",
    names.DMESG: "error, the kernel's log of it",
    names.CXL_PROTOCOL: "error, CXL Protocol Error",
    names.CXL_MEDIA: "error, CXL General Media Event",
    names.CXL_DRAM: "error, CXL DRAM Event",
    names.CXL_MODULE: "error, CXL Memory Module Event",
}


# The severities from the worst on (UEFI 2.8, N.2.1), and the flag of a section that a record is about (N.2.2).
WORST = [1, 0, 2, 3]
PRIMARY = 1


def severity(found: int) -> str:
    return SEVERITIES[found] + " " if found < 4 else ""


# What each byte of a time may be in its two decimal digits, but for the fourth, which has flags: seconds, minutes, hours, day, month, year, century.
RANGES = {0: (0, 59), 1: (0, 59), 2: (0, 23), 4: (1, 31), 5: (1, 12), 6: (0, 99), 7: (0, 99)}


def is_time(stamp: bytes) -> bool:
    return all(f"{stamp[at]:02x}".isdigit() and low <= int(f"{stamp[at]:02x}") <= high for at, (low, high) in RANGES.items())


def when(stamp: bytes) -> str:
    if not is_time(stamp):
        return "no valid time"
    second, minute, hour, flags, day, month, year, century = stamp
    about = "" if flags & 1 else " or about then"
    return f"{century:02x}{year:02x}-{month:02x}-{day:02x} {hour:02x}:{minute:02x}:{second:02x}{about}"


def when_of_linux(seconds: int) -> str:
    try:
        time = datetime.datetime(1970, 1, 1) + datetime.timedelta(seconds=seconds)
    except OverflowError:
        return f"{seconds} seconds since 1970 (Linux)"
    return f"{time.isoformat(' ')} (Linux)"


# The kinds of memory errors (UEFI 2.8, N.2.5), some of which stand before the words, and the others behind them.
WIDTHS = {2: "single-bit ", 3: "multi-bit ", 4: "single-symbol ", 5: "multi-symbol "}
MEMORY_CAUSES = """master abort, target abort, parity error, watchdog timeout, invalid address, mirror broken, memory sparing, scrub corrected error,
scrub uncorrected error, physical memory map-out event""".replace("\n", " ").split(", ")
PROCESSOR_CAUSES = {0: "cache error", 1: "TLB error", 2: "bus error", 3: "micro-architectural error"}
# The bits of the statuses of Advanced Error Reporting (PCI Express 5.0, 7.8.4).
UNCORRECTABLE = {
    4: "data link protocol error", 5: "surprise down error", 12: "poisoned TLP", 13: "flow control protocol error", 14: "completion timeout",
    15: "completer abort", 16: "unexpected completion", 17: "receiver overflow", 18: "malformed TLP", 19: "ECRC error", 20: "unsupported request",
    21: "ACS violation", 22: "uncorrectable internal error", 23: "MC blocked TLP", 24: "AtomicOp egress blocked", 25: "TLP prefix blocked",
    26: "poisoned TLP egress blocked",
}
CORRECTABLE = {
    0: "receiver error", 6: "bad TLP", 7: "bad DLLP", 8: "REPLAY_NUM rollover", 12: "replay timer timeout", 13: "advisory non-fatal error",
    14: "corrected internal error", 15: "header log overflow",
}
# Where a part of a memory is, by its word, its place, its width and its validation bit.
PARTS = {
    names.MEMORY: [
        ("node", 32, 2, 3), ("card", 34, 2, 4), ("module", 36, 2, 5), ("rank", 74, 2, 15), ("bank", 38, 2, 6), ("bank group", 39, 1, 19),
        ("bank address", 38, 1, 20), ("device", 40, 2, 7), ("row", 42, 2, 8), ("extended row", 73, 1, 18), ("column", 44, 2, 9),
    ],
    names.MEMORY_2: [
        ("node", 32, 2, 3), ("card", 34, 2, 4), ("module", 36, 2, 5), ("rank", 52, 4, 10), ("bank", 38, 2, 6), ("bank group", 39, 1, 20),
        ("bank address", 38, 1, 21), ("device", 40, 4, 7), ("row", 44, 4, 8), ("column", 48, 4, 9),
    ],
}
HANDLES = {names.MEMORY: (78, 2, 17), names.MEMORY_2: (92, 4, 19)}
KINDS = {names.MEMORY: (72, 14), names.MEMORY_2: (61, 13)}


class Body:
    """The body of a section: a number of it is there where it is within the body and its validation bit is set."""

    def __init__(self, kind: str, data: bytes) -> None:
        self.kind, self.data = kind, data
        self.valid = number(data, 0, 4 if kind == names.ARM else 8)

    def seen(self, at: int, width: int, bit: int | None = None) -> int | None:
        there = at + width <= len(self.data) and (bit is None or self.valid >> bit & 1)
        return number(self.data, at, width) if there else None

    def memory_kind(self) -> int | None:
        at, bit = KINDS.get(self.kind, (0, 0))
        return self.seen(at, 1, bit) if at else None

    def width(self) -> str:
        found = self.memory_kind()
        return WIDTHS.get(found, "") if found is not None else ""

    def causes(self, corrected: bool) -> list[str]:
        found = self.memory_kind()
        if found is not None:
            return MEMORY_CAUSES[found - 6 : found - 5] if found > 5 else []
        if self.kind == names.PROCESSOR:
            bits, table = self.seen(10, 1, 2), PROCESSOR_CAUSES
        elif self.kind == names.PCIE:
            bits, table = self.seen(128 if corrected else 116, 4, 7), CORRECTABLE if corrected else UNCORRECTABLE
        else:
            return []
        return [it for bit, it in table.items() if (bits or 0) >> bit & 1]

    def parts(self) -> list[str]:
        if self.kind in PARTS:
            found = [(word, self.seen(at, width, bit)) for word, at, width, bit in PARTS[self.kind]]
            return [f"{word} {it & 3 if word == 'extended row' else it}" for word, it in found if it is not None]
        one = {names.PROCESSOR: (152, 8), names.IA32: (8, 0), names.ARM: (16, 0)}.get(self.kind)
        if one is not None:
            it = self.seen(one[0], 8, one[1])
            words = {names.PROCESSOR: "processor {:#x}", names.IA32: "APIC {}", names.ARM: "MPIDR {:#x}"}[self.kind]
            return [] if it is None else [words.format(it)]
        if self.kind == names.MACHINE_CHECK:
            return [f"{word} {it}" for word, it in (("processor", self.seen(68, 4)), ("bank", self.seen(65, 1))) if it is not None]
        return []

    def addresses(self) -> list[str]:
        if self.kind in HANDLES:
            words = [("handle", self.seen(*HANDLES[self.kind])), ("physical", self.seen(16, 8, 1))]
        elif self.kind == names.PROCESSOR:
            words = [("address", self.seen(160, 8, 9))]
        elif self.kind == names.MACHINE_CHECK and (self.seen(0, 8) or 0) >> 58 & 1:
            words = [("address", self.seen(16, 8))]
        else:
            words = []
        found = [f"{word} {it:#x}" for word, it in words if it is not None]
        if self.kind == names.PCIE and self.seen(35, 1, 3) is not None:
            function, device, segment, bus = (number(self.data, at, width) for at, width in ((31, 1), (32, 1), (33, 2), (35, 1)))
            found.append(f"device {segment:04x}:{bus:02x}:{device:02x}.{function:x}")
        return found


def label_of(text: bytes) -> str:
    """The words before the first zero, with one space between them."""
    words = text.split(b"\0")[0].decode("latin-1").split(" ")
    return " ".join("".join(it if " " < it < "\x7f" else "." for it in word) for word in words if word)


def place(body: Body, label: str) -> str:
    parts = " ".join(body.parts())
    if not label:
        return f", {parts}" if parts else ""
    return f", {label}" + (f" ({parts})" if parts else "")


class Section(NamedTuple):
    """What is said of a section, and its body."""

    kind: str
    severity: int
    flags: int
    label: bytes
    body: bytes


def of_section(it: Section) -> str:
    body = Body(it.kind, it.body)
    said = severity(it.severity) + body.width() + SUBJECTS.get(it.kind, f"error of the unknown type {it.kind}")
    behind = [*body.causes(it.severity == 2)]
    said += "".join(f", {word}" for word in behind) + place(body, label_of(it.label)) + "".join(f", {word}" for word in body.addresses())
    return said + (", threshold exceeded" if it.flags >> 3 & 1 else "")


def worst(sections: Sequence[Section]) -> int:
    """Which one is the worst. Of those that are equally bad it is a primary one, and of these the first."""

    def order(index: int) -> tuple[int, bool, int]:
        it = sections[index]
        badness = WORST.index(it.severity) if it.severity in WORST else len(WORST)
        return badness, not it.flags & PRIMARY, index

    return min(range(len(sections)), key=order)


def more(sections: Sequence[Section]) -> str:
    return f", and {len(sections) - 1} more" if len(sections) > 1 else ""


def sections_of(data: bytes) -> Iterator[Section]:
    for at in range(128, 128 + 72 * number(data, 10, 2), 72):
        it = data[at : at + 72]
        body_at = number(it, 0, 4)
        yield Section(guid(it[16:32]), number(it, 48, 4), number(it, 12, 4), it[52:72] if it[10] & 2 else b"", data[body_at : body_at + number(it, 4, 4)])


def of_record(data: bytes) -> str:
    """Of its worst section, with that section's severity."""
    sections = list(sections_of(data))
    if sections:
        text = of_section(sections[worst(sections)]) + more(sections)
    else:
        text = severity(number(data, 12, 4)) + "error record without sections"
    flags = number(data, 104, 4)
    text += (", of an earlier boot" if flags >> 1 & 1 else "") + (", simulated" if flags >> 2 & 1 else "")
    if number(data, 16, 4) & 2 == 0:
        return text
    return text + ", " + (when_of_linux(number(data, 24, 8)) if guid(data[64:80]) == LINUX else when(data[24:32]))


def entries_of(data: bytes) -> Iterator[tuple[Section, bytes]]:
    """The data entries of a block, each with its time, if it has one."""
    at, end = 20, 20 + number(data, 12, 4)
    while at < end:
        head = data[at : at + 72]
        has_time = number(head, 20, 2) >= 0x300
        body_at = at + (72 if has_time else 64)
        at = body_at + number(head, 24, 4)
        time = head[64:72] if has_time and head[22] & 4 else b""
        label = head[44:64] if head[22] & 2 else b""
        yield Section(guid(head[:16]), number(head, 16, 4), head[23], label, data[body_at:at]), time


def of_block(data: bytes) -> str:
    """Of its worst entry, with that entry's severity."""
    entries = list(entries_of(data))
    if not entries:
        return severity(number(data, 16, 4)) + "error status block without entries"
    sections = [section for section, _ in entries]
    section, time = entries[worst(sections)]
    return of_section(section) + more(sections) + (", " + when(time) if time else "")


def counted(count: int, one: str, many: str) -> str:
    return f"{count} {one if count == 1 else many}"


def of_table(data: bytes) -> str:
    """What it is, and whether Linux takes all of it."""
    return table_title(data) + ("; Linux does not take all of it" if refused(data) else "")


def table_title(data: bytes) -> str:
    if data[:4] == b"ERST":
        return f"Error Record Serialization Table, {counted(number(data, 44, 4), 'instruction entry', 'instruction entries')}"
    if data[:4] == b"HEST":
        return f"Hardware Error Source Table, {counted(number(data, 36, 4), 'error source', 'error sources')}"
    if data[:4] == b"BERT":
        return f"Boot Error Record Table, a region of {number(data, 36, 4)} bytes at {number(data, 40, 8):#x}"
    return f"table {data[:4].decode()}, {len(data)} bytes, none of those of errors"


def sentence(kind: str, data: bytes) -> str:
    return {"record": of_record, "block": of_block, "table": of_table}[kind](data)
