"""What apei-look shows of an image, written plainly.

Kinds of slots are told by the words of docs/FORMATS.md, records by the model of the store, and the fields of an error record by their
places (UEFI 2.8, N.2.1 and N.2.2). Only the names that the tools' images need stand here.
"""

import datetime
from dataclasses import dataclass
from typing import Any, NamedTuple

from apei import names
from apei.bytes import guid, joined, number
from apei.flash import Geometry
from apei.names import LINUX, SEVERITIES
from apei.store import GATE_CLOSED, GATE_FURTHER, GATE_OPEN, NOT_KILLED, TAIL_MARK, Store

Json = dict[str, Any]
# The bytes of a sector, and the sectors of a slot, of the images that are shown.
SECTOR, PER_SLOT = 256, 2
SIZE = SECTOR * PER_SLOT
LETTERS = {"first": "R", "further": "+", "second-copy": "2", "orphan": "o", "filling": "w", "killed": "k", "erased": ".", "unknown": "?"}
LEGEND = (
    "R first slot of a record  + further slot of a record  2 second copy  o orphan\n"
    "w being filled or erased  k killed  . erased  ? unknown\n\n"
)
NOTIFICATIONS = {"2dce8bb1-bdd7-450e-b9ad-9cf4ebd4f890": "Corrected Machine Check", "3d61a466-ab40-409a-a698-f362d464b38f": "Boot"}
SECTIONS = {names.MEMORY: "Platform Memory", names.IOMMU: "IOMMU"}
SIGNATURE = b"APEIERST"


def flash_of(image: bytes) -> Geometry:
    """The geometry of an image of N bytes."""
    return Geometry(SECTOR, PER_SLOT, len(image) // SIZE)


def heads_in(image: bytes, sector: int, per_slot: int) -> int:
    """How many slots of this form have the head of a record's first slot, be it killed or not; none if the length is another."""
    size = sector * per_slot
    slots, rest = divmod(len(image), size)
    if rest or not 2 <= slots <= 1024 or size > 65536 + 64 or len(image) > 2**26:
        return 0
    store = Store(Geometry(sector, per_slot, slots))
    store.put(image)
    for slot in store.slots:
        slot[1] = NOT_KILLED
    return sum(store.upright(slot) is not None for slot in range(slots))


class Form(NamedTuple):
    """A geometry that an image seems to have, and how many heads stand where its slots begin."""

    heads: int
    sector: int
    per_slot: int


def seeming(image: bytes) -> Form:
    """The form of which an image has most heads; no heads if it seems to have none."""
    best = Form(0, 0, 0)
    for per_slot in range(2, 17):
        for sector in [256 << bit for bit in range(8)]:
            heads = heads_in(image, sector, per_slot)
            if heads > best.heads:
                best = Form(heads, sector, per_slot)
    return best


def file_kind(heads: int, most: int, unknown: int) -> str:
    if most > heads:
        return "other-geometry"
    return "foreign" if most == 0 and unknown > 2 else "store"


def kind_of(store: Store, firsts: set[int], taken: set[int], slot: int) -> str:
    """What a slot is."""
    data = store.slots[slot]
    if slot in firsts:
        return "first"
    if store.upright(slot):
        return "second-copy"
    if slot in taken:
        return "further"
    if all(byte == 0xFF for byte in data):
        return "erased"
    if data[0] == GATE_OPEN:
        return "unknown" if data[1] == NOT_KILLED else "killed"
    if data[0] == GATE_FURTHER and number(data, 2, 2) == 3:
        return "orphan" if data[-1] == TAIL_MARK else "filling"
    return "filling" if data[0] == GATE_CLOSED else "unknown"


def medium_header(sector: int, per_slot: int, slots: int, version: int = 1) -> bytes:
    """The first sector of a library's medium (docs/EMBED.md, "The medium")."""
    size = sector * (1 + per_slot * slots)
    head = SIGNATURE + joined((version, 4), (64, 4), (sector, 4), (per_slot, 4), (slots, 4), (0, 4), (size, 8)) + bytes(8)
    total = sum(number(head, at, 4) for at in range(0, 48, 4))
    head = head[:40] + joined((-total % 2**32, 4)) + head[44:]
    return (head + b"\x3c").ljust(sector, b"\xff")


@dataclass(frozen=True)
class Record:
    """A record that a boot finds."""

    identifier: int
    generation: int
    body: bytes
    slots: list[int]


class Shown:
    """The kinds of an image's slots, its records by their first slots, its totals, and what kind of file it is, of which N bytes are
    there: a flash alone, or a library's medium."""

    def __init__(self, image: bytes, held: int | None = None, is_medium: bool = False) -> None:
        store = Store(flash_of(image))
        store.put(image)
        self.is_medium, self.flash_at = is_medium, SECTOR if is_medium else 0
        self.size = len(image)
        self.held = self.flash_at + self.size if held is None else held
        found = [Record(it, record.generation, record.body, record.slots) for it, record in store.records().items()]
        self.records = sorted(found, key=lambda record: record.slots[0])
        firsts, taken = {record.slots[0] for record in found}, {slot for record in found for slot in record.slots}
        self.slots = store.slots
        self.kinds = [kind_of(store, firsts, taken, slot) for slot in range(len(store.slots))]
        self.free = len(store.slots) - len(taken)
        self.copies = self.kinds.count("second-copy")
        self.bytes = sum(len(record.body) for record in found)
        self.heads = heads_in(image, SECTOR, PER_SLOT)
        self.form = seeming(image)
        self.file = "medium" if is_medium else file_kind(self.heads, self.form.heads, self.kinds.count("unknown"))

    def place_of(self, slot: int) -> int:
        """Where a slot stands in the file."""
        return self.flash_at + slot * SIZE

    def file_text(self) -> str:
        out, whole = "", self.flash_at + self.size
        if self.is_medium:
            slots = f"{len(self.slots)} slots of {PER_SLOT} sectors of {SECTOR}"
            out += f"a medium of the library, version 1: {slots}, from byte {self.flash_at} on\n"
        if self.held < whole:
            place = f"slot {(self.held - self.flash_at) // SIZE}" if self.held >= self.flash_at else "its first sector"
            out += f"the image ends at byte {self.held}, in {place}; what is behind it is shown as erased\n"
        if self.held > whole:
            out += f"the file has {self.held} bytes; those from byte {whole} on are not shown\n"
        if self.file == "other-geometry":
            _, sector, per_slot = self.form
            words = " ".join(Geometry(sector, per_slot, self.size // (sector * per_slot)).words)
            out += f"heads stand where slots of {per_slot} sectors of {sector} begin: {words}\n"
        if self.file == "foreign":
            out += "no head of a record stands in it: it is none of ours\n"
        return out

    def geometry_json(self, sector: int, per_slot: int) -> Json:
        return {"sector": sector, "per_slot": per_slot, "slots": self.size // (sector * per_slot)}

    def file_json(self) -> Json:
        seems = self.geometry_json(self.form.sector, self.form.per_slot) if self.form.heads else None
        medium = {"version": 1, "flash_at": self.flash_at} if self.is_medium else None
        geometry = self.geometry_json(SECTOR, PER_SLOT)
        return {"geometry": geometry, "held": self.held, "file": self.file, "medium": medium, "heads": self.heads, "seems": seems}

    def text(self) -> str:
        out = f"slots {len(self.slots)} free {self.free} records {len(self.records)} second copies {self.copies} bytes {self.bytes}\n"
        out += self.file_text()
        letters = "".join(LETTERS[kind] for kind in self.kinds)
        for at in range(0, len(letters), 64):
            out += f"\n{at:>5} {letters[at : at + 64]}"
        out += "\n\n" + LEGEND
        for slot, kind in enumerate(self.kinds):
            if kind != "erased":
                out += f"slot {slot} {kind}{self.slot_text(slot, kind)}\n"
        for record in self.records:
            numbers = " ".join(map(str, record.slots))
            out += f"\nrecord {record.identifier} generation {record.generation} bytes {len(record.body)} slots {numbers}\n"
            out += frame_text(record.body)
        return out

    def slot_text(self, slot: int, kind: str) -> str:
        head = head_of(self.slots[slot])
        if kind == "unknown":
            return f" gate {head['gate']:#04x} kill {head['kill']:#04x} format {head['format']} tail {head['tail']:#04x}"
        is_further = head["gate"] == GATE_FURTHER
        if kind == "filling" and not is_further and head["format"] == 0xFFFF:
            return " no head"
        numbers = f" id {head['id']} generation {head['generation']} bytes {head['bytes']}"
        if kind in ("further", "orphan") or kind == "filling" and is_further:
            return numbers + f" part {head['next'][0]} of slot {head['next'][1]}"
        further = head["next"][: max(Geometry(SECTOR, PER_SLOT).parts(head["bytes"]) - 1, 0)]
        return numbers + (" further " + " ".join(map(str, further)) if further else "")

    def json(self) -> Json:
        slots = [
            {"kind": kind, "at": self.place_of(slot), **(head_of(data) if kind != "erased" else {})}
            for slot, (kind, data) in enumerate(zip(self.kinds, self.slots))
        ]
        stored = [
            {"id": str(it.identifier), "generation": it.generation, "bytes": len(it.body), "slots": it.slots, "frame": frame_of(it.body)}
            for it in self.records
        ]
        totals = {"free": self.free, "records": len(self.records), "second_copies": self.copies, "bytes": self.bytes}
        return {**self.file_json(), **totals, "slots": slots, "stored": stored}


def head_of(data: bytearray) -> Json:
    """The marks and the head of a slot."""
    return {
        "gate": data[0],
        "kill": data[1],
        "tail": data[-1],
        "format": number(data, 2, 2),
        "id": str(number(data, 8, 8)),
        "generation": number(data, 4, 4),
        "bytes": number(data, 16, 4),
        "next": [number(data, at, 2) for at in (20, 22, 24)],
    }


def severity_name(severity: int) -> str | None:
    return SEVERITIES[severity] if severity < len(SEVERITIES) else None


def frame_of(body: bytes) -> Json | None:
    """What an error record says of itself; none if the bytes are none."""
    if body[:4] != b"CPER":
        return None
    severity, notification = number(body, 12, 4), guid(body, 80)
    return {
        "severity": severity,
        "severity_name": severity_name(severity),
        **time_of(body),
        "creator": guid(body, 64),
        "notification": notification,
        "notification_name": NOTIFICATIONS.get(notification),
        "sections": [section_of(body[at : at + 72]) for at in range(128, 128 + 72 * number(body, 10, 2), 72)],
    }


def time_of(body: bytes) -> Json:
    """A record's time, whether it is that of the error, and the bytes in its place if they are none."""
    none = {"time": None, "precise": False, "time_bytes": None}
    if number(body, 16, 4) & 2 == 0:
        return none
    stamp, is_of_linux = body[24:32], guid(body, 64) == LINUX
    try:
        time = linux_time(stamp) if is_of_linux else standard_time(stamp)
    except (ValueError, OverflowError):
        return {**none, "time_bytes": stamp.hex()}
    return {"time": time.isoformat(), "precise": is_of_linux or stamp[3] & 1 != 0, "time_bytes": None}


def linux_time(stamp: bytes) -> datetime.datetime:
    """A time of Linux: seconds since 1970."""
    return datetime.datetime(1970, 1, 1) + datetime.timedelta(seconds=number(stamp))


def standard_time(stamp: bytes) -> datetime.datetime:
    """A time as the standard writes it, two digits a byte."""
    second, minute, hour, _, day, month, year, century = (int(f"{byte:02x}") for byte in stamp)
    return datetime.datetime(100 * century + year, month, day, hour, minute, second)


def section_of(descriptor: bytes) -> Json:
    kind = guid(descriptor, 16)
    return {"type": kind, "name": SECTIONS.get(kind), "bytes": number(descriptor, 4, 4), "severity": number(descriptor, 48, 4)}


def named(value: object, name: str | None) -> str:
    return f"{value} ({name})" if name else f"{value}"


def frame_text(body: bytes) -> str:
    frame = frame_of(body)
    if not frame:
        return "  no error record\n"
    time = frame["time"] or (f"bytes {frame['time_bytes']}" if frame["time_bytes"] else "none")
    out = f"  severity {named(frame['severity'], frame['severity_name'])}\n"
    out += f"  time {time}{' or about then' if frame['time'] and not frame['precise'] else ''}\n"
    out += f"  creator {frame['creator']}\n  notification {named(frame['notification'], frame['notification_name'])}\n"
    for index, section in enumerate(frame["sections"]):
        severity = named(section["severity"], severity_name(section["severity"]))
        out += f"  section {index} {named(section['type'], section['name'])} bytes {section['bytes']} severity {severity}\n"
    return out
