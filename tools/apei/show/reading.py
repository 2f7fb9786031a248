"""What apei-show says of well-formed items, read plainly by layouts of its own.

An item is a dictionary as apei-show's JSON has it (docs/SHOW.md), without its sentences. A field is a Cell: where it stands in the item,
and its value, of which numbers are numbers and not digits, and have no names.
"""

from collections.abc import Callable
from typing import Any, NamedTuple

from apei.bytes import guid, number
from apei.names import LINUX
from apei.show import layouts
from apei.show.layouts import Field, Layout, Part
from apei.show.refusals import Refusal, refusals

Group = dict[str, Any]


class Cell(NamedTuple):
    at: int
    value: Any


def time_of(data: bytes) -> str:
    """A time as the standard writes it: each byte has two digits, and the fourth says whether the time is precise."""
    second, minute, hour, precise, day, month, year, century = data
    digits = f"{century:02x}{year:02x}-{month:02x}-{day:02x} {hour:02x}:{minute:02x}:{second:02x}"
    return digits + " precise" * (precise & 1)


def register_of(data: bytes) -> dict[str, int]:
    return {"space": data[0], "width": data[1], "offset": data[2], "access": data[3], "address": number(data, 4, 8)}


READ: dict[str, Callable[[bytes], Any]] = {
    "number": number,
    "seconds": number,
    "guid": guid,
    "time": time_of,
    "register": register_of,
    "text": lambda data: data.split(b"\0")[0].decode("latin-1"),
    "lines": lambda data: data.decode("latin-1"),
    "bytes": bytes.hex,
}


def read(fields: tuple[Field, ...], body: bytes, base: int, valid_at: int, valid_width: int) -> Group:
    """Each field that is valid and within the body, which begins at `base`."""
    valid = number(body, valid_at, valid_width)
    found: Group = {}
    for it in fields:
        width = it.width or max(len(body) - it.at, 1)
        if it.at + width > len(body) or not (it.bit is None or valid >> it.bit & 1):
            continue
        data = body[it.at : it.at + width]
        value = number(data) >> it.low & (1 << it.count) - 1 if it.kind == "bits" else READ[it.kind](data)
        found[it.name] = Cell(base + it.at, value)
    return found


def value_of(fields: Group, name: str) -> Any:
    return fields[name].value if name in fields else None


def named(name: str, at: int, its: Group) -> Group:
    """A structure inside another one: left out where it has no field."""
    return {name: {"offset": at, **its}} if its else {}


def of_bits(cell: Cell, table: list[tuple[int, int, int, str]]) -> Group:
    """The fields of a number whose low bits say which of them are valid."""
    at, bits = cell
    return {it: Cell(at, bits >> low & (1 << count) - 1) for bit, low, count, it in table if bits >> bit & 1}


def in_error(layout: Layout, fields: Group) -> Group:
    """The bits of a check, or of an ARM error of one kind."""
    if layout is layouts.IA32:
        kind, bits = layouts.CHECKS.get(value_of(fields, "error structure type")), fields.get("check information")
    else:
        kind, bits = layouts.ARM_ERRORS.get(value_of(fields, "type")), fields.get("error information")
    return named(kind[0], bits.at, of_bits(bits, kind[1])) if kind and bits else {}


def in_context(layout: Layout, fields: Group, data: bytes, base: int) -> Group:
    """The registers of a context."""
    contexts, behind = (layouts.IA32_CONTEXTS, 16) if layout is layouts.IA32 else (layouts.ARM_CONTEXTS, 8)
    rows = contexts.get(value_of(fields, "register context type"), ())
    return named("registers", base + behind, read(rows, data[behind:], base + behind, 0, 8))


def inside(layout: Layout, part: Part, fields: Group, data: bytes, base: int) -> Group:
    if part.name == "error information":
        return in_error(layout, fields)
    return in_context(layout, fields, data, base) if part.name == "context" else {}


def count_of(count: Field, body: bytes) -> int:
    value = number(body, count.at, count.width) if count.at + count.width <= len(body) else 0
    return value >> count.low & (1 << count.count) - 1 if count.kind == "bits" else value


def size_of(part: Part, data: bytes) -> int:
    if part.told is None:
        return part.size
    end = part.told.at + part.told.width
    return part.more + (number(data, part.told.at, part.told.width) if end <= len(data) else 0)


def parts(layout: Layout, body: bytes, base: int) -> dict[str, list[Group]]:
    """The structures that repeat, one kind behind another: as many as the body says, up to its end."""
    at, found = layout.parts_at, {}
    for part in layout.parts:
        some: list[Group] = []
        while len(some) < count_of(part.count, body) and at < len(body):
            data = body[at : at + size_of(part, body[at:])]
            fields = read(part.fields, data, base + at, part.valid_at, part.valid_width)
            some.append({"offset": base + at, **fields, **inside(layout, part, fields, data, base + at)})
            at += len(data)
        if some:
            found[part.name] = some
    return found


def group(name: str, layout: Layout, data: bytes, base: int, index: int | None = None, kind: str | None = None) -> Group:
    """A group of fields, whose bytes begin at `base` in the item."""
    fields = read(layout.fields, data, base, layout.valid_at, layout.valid_width)
    return {"offset": base, "group": name, "index": index, "guid": kind, **fields, **parts(layout, data, base)}


def raw(name: str, data: bytes, base: int, index: int | None = None, kind: str | None = None) -> Group:
    """A group that has no fields but its bytes."""
    return {"offset": base, "group": name, "index": index, "guid": kind, "bytes": Cell(base, data.hex())}


def section(index: int, kind: str, body: bytes, base: int) -> Group:
    known = layouts.NAMES.get(kind)
    return group("section", known[1], body, base, index, kind) if known else raw("section", body, base, index, kind)


def record_groups(data: bytes) -> list[Group]:
    header = group("header", layouts.RECORD_HEADER, data[:128], 0)
    if value_of(header, "creator ID") == LINUX and "timestamp" in header:
        header["timestamp"] = Cell(24, number(data, 24, 8))
    found = [header]
    for index in range(number(data, 10, 2)):
        at = 128 + 72 * index
        descriptor = data[at : at + 72]
        body_at, length = number(descriptor, 0, 4), number(descriptor, 4, 4)
        found.append(group("descriptor", layouts.DESCRIPTOR, descriptor, at, index))
        found.append(section(index, guid(descriptor[16:32]), data[body_at : body_at + length], body_at))
    return found


def block_groups(data: bytes) -> list[Group]:
    found = [group("header", layouts.BLOCK_STATUS, data[:20], 0)]
    at, end, index = 20, 20 + number(data, 12, 4), 0
    while at < end:
        revision, length, kind = number(data, at + 20, 2), number(data, at + 24, 4), guid(data[at : at + 16])
        body_at = at + (72 if revision >= 0x300 else 64)
        found.append(group("entry", layouts.data_entry(revision), data[at:body_at], at, index, kind))
        found.append(section(index, kind, data[body_at : body_at + length], body_at))
        at, index = body_at + length, index + 1
    raw_at, raw_length = number(data, 4, 4), number(data, 8, 4)
    return found + [raw("raw", data[raw_at : raw_at + raw_length], raw_at)] if raw_length else found


def table_groups(data: bytes) -> list[Group]:
    found = [group("header", layouts.TABLE_HEADER, data[:36], 0)]
    own = {b"ERST": layouts.ERST_HEADER, b"HEST": layouts.HEST_HEADER, b"BERT": layouts.BERT}.get(data[:4])
    if own:
        found.append(group("table", own, data, 0))
    if data[:4] == b"ERST":
        found += [group("entry", layouts.ERST_ENTRY, data[at : at + 32], at, index) for index, at in enumerate(entries(data))]
    if data[:4] == b"HEST":
        found += sources(data)
    return found + refused_groups(data)


def entries(data: bytes) -> range:
    return range(48, 48 + 32 * number(data, 44, 4), 32)


def source_places(data: bytes) -> list[tuple[int, int]]:
    """Where each error source begins and ends."""
    at, found = 40, []
    for _ in range(number(data, 36, 4)):
        size, layout = layouts.SOURCES[number(data, at, 2)]
        size += sum(part.size * count_of(part.count, data[at:]) for part in layout.parts)
        found.append((at, at + size))
        at += size
    return found


def sources(data: bytes) -> list[Group]:
    each = enumerate(source_places(data))
    return [group("source", layouts.SOURCES[number(data, at, 2)][1], data[at:end], at, index) for index, (at, end) in each]


def refused(data: bytes) -> list[Refusal]:
    """What Linux will not take of a table."""
    is_erst, is_hest = data[:4] == b"ERST", data[:4] == b"HEST"
    return refusals(data, list(entries(data)) if is_erst else [], source_places(data) if is_hest else [])


def refused_groups(data: bytes) -> list[Group]:
    return [{"offset": it.at, "group": it.group, "index": it.index, "guid": None, "by Linux": Cell(it.at, it.why)} for it in refused(data)]


def record_length(data: bytes) -> int:
    return number(data, 20, 4)


def block_length(data: bytes) -> int:
    raw_length = number(data, 8, 4)
    return max(20 + number(data, 12, 4), number(data, 4, 4) + raw_length if raw_length else 0)


def table_length(data: bytes) -> int:
    return number(data, 4, 4)


READERS = {"record": (record_length, record_groups), "block": (block_length, block_groups), "table": (table_length, table_groups)}


def item(kind: str, data: bytes, index: int = 0, at: int | None = 0) -> Group:
    return {"item": index, "at": at, "bytes": len(data), "kind": kind, "data": data, "groups": READERS[kind][1](data)}


def items(kind: str, data: bytes) -> list[Group]:
    """The items of a file that holds well-formed items of one kind, one after another; a status of 0 ends blocks."""
    found, at = list[Group](), 0
    while at < len(data) and not (kind == "block" and number(data, at, 4) == 0):
        length = READERS[kind][0](data[at:])
        found.append(item(kind, data[at : at + length], len(found), at))
        at += length
    return found
