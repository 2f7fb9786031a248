"""The parts of a machine that sections name, read plainly: memory modules and their cards by handles, slots by numbers (UEFI 2.8, N.2.5 to N.2.7)."""

from collections.abc import Callable, Iterator

from apei import names
from apei.bytes import number
from apei.show import smbios
from apei.show.reading import Cell, Group
from apei.show.sentences import entries_of, sections_of

# For each type of section: the type of a structure, the validation bit of the number that names it, where that stands and how wide it is, how many of
# its low bits are none of it, where the number stands in the structure, and how the structure is read.
Says = dict[str, str | int | None]
Reads = Callable[[bytes, list[bytes]], Says]
NAMED: dict[str, list[tuple[int, int, int, int, int, int, Reads]]] = {
    names.MEMORY: [(17, 17, 78, 2, 0, 2, smbios.module), (16, 16, 76, 2, 0, 2, smbios.array)],
    names.MEMORY_2: [(17, 19, 92, 4, 0, 2, smbios.module), (16, 18, 88, 4, 0, 2, smbios.array)],
    names.PCIE: [(9, 3, 37, 2, 3, 9, smbios.slot)],
}
NO_NUMBER: dict[int, Says] = {17: {"module": "the section has no module handle"}, 16: {}, 9: {"slot": "the section has no slot number"}}
NONE_HAS_IT: dict[int, Says] = {
    17: {"module": "no memory device has this module handle"},
    16: {"card": "no memory array has this card handle"},
    9: {"slot": "no system slot has this number"},
}


def told(table: bytes, kind: str, body: bytes) -> Says | None:
    """What is told of the part that a section names; None where a section of its type names none."""
    if kind not in NAMED:
        return None
    out: Says = {}
    for wanted, bit, at, width, low, place, reads in NAMED[kind]:
        if at + width > len(body) or not number(body, 0, 8) >> bit & 1:
            out |= NO_NUMBER[wanted]
            continue
        asked = number(body, at, width) >> low
        some = (it for it in smbios.texts_of(table) if it[0][0] == wanted and smbios.number_at(it[0], place, 2, None) == asked)
        found = next(some, None)
        out |= reads(*found) if found else NONE_HAS_IT[wanted]
    return {name: it for name, it in out.items() if it is not None}


def bodies_of(item: Group) -> list[tuple[Group, str, bytes]]:
    """The groups of an item's sections, each with its type and its bytes."""
    data = item["data"]
    found = list(sections_of(data)) if item["kind"] == "record" else [it for it, _ in entries_of(data)]
    groups = [it for it in item["groups"] if it["group"] == "section"]
    return [(group, it.kind, it.body) for group, it in zip(groups, found)]


def numbers_of(item: Group) -> Iterator[tuple[int, int]]:
    """What the sections of an item name: types of structures, and their numbers."""
    for _, kind, body in bodies_of(item):
        for wanted, _, at, width, low, _, _ in NAMED.get(kind, []):
            if at + width <= len(body):
                yield wanted, number(body, at, width) >> low


def part_groups(table: bytes, item: Group) -> list[Group]:
    """The groups of the parts that the sections of an item name."""
    out = []
    for group, kind, body in bodies_of(item):
        says = told(table, kind, body)
        if says is not None:
            at = group["offset"]
            head = {"offset": at, "group": "part", "index": group["index"], "guid": None}
            out.append(head | {name: Cell(at, it) for name, it in says.items()})
    return out
