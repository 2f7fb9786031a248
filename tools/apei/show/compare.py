"""Compares what apei-show says of an item, in JSON and as text, with what is read of it plainly."""

import json
import re
from collections.abc import Iterator
from typing import Any

from apei.show.reading import Cell, Group
from apei.show.sentences import sentence

OWN = ("offset", "group", "index", "guid")
ITEM = ["file", "item", "at", "bytes", "kind", "summary", "groups", "bad"]


def plain(value: Any) -> Any:
    """A number, a text or a register, without the names of numbers."""
    if isinstance(value, dict):
        if "address" in value:
            return {name: plain(it) for name, it in value.items()}
        return plain(value.get("value", value.get("seconds")))
    if isinstance(value, str) and re.fullmatch(r"0x[0-9a-f]+", value):
        return int(value, 16)
    return value


def differences(where: str, wanted: Group, found: Group) -> Iterator[str]:
    """Where the fields of a group, a part or what is inside one are others: each once, in their order, with their values."""
    names = [it for it in found if it not in OWN]
    if [it for it in wanted if it not in OWN] != names:
        yield f"{where}: fields {names}, wanted {[it for it in wanted if it not in OWN]}"
        return
    for name, value in wanted.items():
        if isinstance(value, list):
            if len(value) != len(found[name]):
                yield f"{where}: {len(found[name])} of {name}, wanted {len(value)}"
                continue
            for index, (part, its) in enumerate(zip(value, found[name])):
                yield from differences(f"{where} {name} {index}", part, its)
        elif isinstance(value, dict):
            yield from differences(f"{where} {name}", value, found[name])
        elif isinstance(value, Cell):
            if plain(found[name]) != value.value:
                yield f"{where}: {name} {found[name]!r}, wanted {value.value!r}"
        elif found[name] != value:
            yield f"{where}: {name} {found[name]!r}, wanted {value!r}"


def wrong_of(wanted: Group, found: Group) -> Iterator[str]:
    """What is wrong of a well-formed item."""
    if list(found) != ITEM:
        yield f"keys {list(found)}"
        return
    for name in ("item", "at", "bytes", "kind"):
        if found[name] != wanted[name]:
            yield f"{name} {found[name]}, wanted {wanted[name]}"
    if found["bad"] is not None:
        yield f"bad {found['bad']}"
    said = sentence(wanted["kind"], wanted["data"])
    if found["summary"] != said:
        yield f"summary {found['summary']!r}, wanted {said!r}"
    if len(wanted["groups"]) != len(found["groups"]):
        yield f"groups {[it['group'] for it in found['groups']]}, wanted {[it['group'] for it in wanted['groups']]}"
    for group, its in zip(wanted["groups"], found["groups"]):
        yield from differences(f"{group['group']} {'' if group['index'] is None else group['index']}", group, its)


def as_text(value: Any) -> str:
    """A value of the JSON as the text has it."""
    if not isinstance(value, dict):
        return str(value)
    if "address" in value:
        return register_text(value)
    if "seconds" in value:
        return str(value["seconds"]) + (f" ({value['time']})" if "time" in value else "")
    if "names" in value:
        return " ".join([str(value["value"]), *value["names"]])
    return str(value["value"]) + (f" ({value['name']})" if "name" in value else "")


# ACPI 6.4, 5.2.3.2.
SPACES = {
    0: "memory",
    1: "I/O",
    2: "PCI configuration",
    3: "embedded controller",
    4: "SMBus",
    5: "CMOS",
    6: "PCI BAR target",
    7: "IPMI",
    8: "general purpose I/O",
    9: "generic serial bus",
    10: "platform communications channel",
    127: "fixed hardware",
}


def register_text(value: dict[str, Any]) -> str:
    space = SPACES.get(value["space"], f"space {value['space']}")
    bit = f" from bit {value['offset']}" if value["offset"] else ""
    access = f" access {value['access']}" if value["access"] else ""
    return f"{space} {value['width']} bits{bit}{access} at {value['address']}"


def lines_of(depth: int, wanted: Group, found: Group) -> Iterator[tuple[int, int, str]]:
    """The lines of a group's fields, as text: how deep each stands, its place in the item, and what it says."""
    for name, value in wanted.items():
        if isinstance(value, list):
            for index, (part, its) in enumerate(zip(value, found[name])):
                yield depth, part["offset"], f"{name} {index}"
                yield from lines_of(depth + 2, part, its)
        elif isinstance(value, dict):
            yield depth, value["offset"], name
            yield from lines_of(depth + 2, value, found[name])
        elif isinstance(value, Cell):
            yield depth, value.at, f"{name}: {as_text(found[name])}"


def is_plain(found: Group) -> bool:
    """Whether all of an item's values stand in the text as they do in the JSON: no text has lines, or a byte that can't be printed."""
    return re.search(r"\\u00|\\n", json.dumps(found["groups"])) is None


def wrong_text(text: list[str], wanted: Group, found: Group) -> Iterator[str]:
    """Where the text of an item, with places, is another than its JSON."""
    rest = text[1:]
    if not text or text[0] != found["summary"]:
        yield f"the first line is {text[:1]}, the summary {found['summary']!r}"
        return
    for group, its in zip(wanted["groups"], found["groups"]):
        if not rest or not re.match(r"  \S", rest[0]):
            yield f"{rest[:1]} in the place of a heading of {group['group']}"
            return
        fields = [f"{' ' * depth}[{at}] {says}" for depth, at, says in lines_of(4, group, its)]
        if rest[1 : 1 + len(fields)] != fields:
            other = next((pair for pair in zip(rest[1:], fields) if pair[0] != pair[1]), None)
            yield f"{group['group']}: as text {other}"
            return
        rest = rest[1 + len(fields) :]
    if rest and rest != [""]:
        yield f"behind its last group {rest[:2]}"
