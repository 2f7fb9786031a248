#!/usr/bin/env python3
"""Has Linux and apei-show print the same error status blocks, and compares each value.

    tests/linux/cper/compare.py PRINT PROGRAM [BODIES] [SEED]

PRINT is Linux's own code, compiled by `build`; PROGRAM is the built apei-show. BODIES of each section type that Linux knows are drawn at random, 200
if it is not said. Each line that Linux prints has to be known here, and each value in it has to be that of apei-show's field of the standard's name.
Nor does apei-show have a field that Linux prints in other blocks of this type and not in this one. The last line is 'N values of M blocks, K wrong'; the
exit status is 0 if none is.
"""

import json
import random
import re
import struct
import subprocess
import sys
import tempfile
from typing import Any, Iterator, Optional

# It says where the package of the tools is.
from linux_lines import Place, Value, values

from apei import names
from apei.show import bodies

KINDS = [names.PROCESSOR, names.IA32, names.ARM, names.MEMORY, names.PCIE, names.FIRMWARE, names.MACHINE_CHECK]
ERRORS = ("cache error", "TLB error", "bus error")
# What Linux leaves out by its value, or by that of another field: a word that it does not have, a bit that is not set.
BY_VALUE = {
    "transaction type", "operation", "participation type", "restartable PC", "time out", "flags", "multiple error", "address space",
    "memory access attributes", "access mode", "record identifier", "record identifier GUID extension", "error structure type", "row", "extended row",
    "MSR address", "MM register address",
}  # fmt: skip
Item = dict[str, Any]


def plain(value: Any) -> Any:
    """A number or a text, however apei-show's JSON wraps it."""
    if isinstance(value, dict):
        return plain(value.get("value", value.get("seconds", value.get("time"))))
    if isinstance(value, str) and re.fullmatch(r"0x[0-9a-f]+", value):
        return int(value, 16)
    return value


class Shown:
    """What apei-show says of a block of one section."""

    def __init__(self, item: Item) -> None:
        self.groups = {group["group"]: group for group in item["groups"]}

    def at(self, place: Place) -> Item:
        """The fields at a place; none if there is no such place."""
        found: Any = self.groups.get(place[0], {})
        for step in place[1:]:
            if isinstance(found, list):
                found = found[step] if step < len(found) else {}
            else:
                found = found.get(step, {})
        return found if isinstance(found, dict) else {}

    def found(self, place: Place, name: str) -> list[Any]:
        """The values under a name: mostly one, or that of the one kind of error which stands inside an ARM part."""
        if place[-1] != "*" and place[-1] not in ERRORS:
            return [plain(self.at(place).get(name))]
        part = self.at(place[:-1])
        inside = [part[it] for it in (ERRORS if place[-1] == "*" else place[-1:]) if it in part]
        # Linux prints the parts of an error of several kinds, or of none, too: the standard names only those of one kind.
        return [plain(it.get(name)) for it in inside] if inside or plain(part.get("type")) not in (2, 4, 8) else [None]

    def fields(self) -> Iterator[tuple[Place, str]]:
        """Each field of the entry and of the section: where it stands, and its name."""
        for name in ("entry", "section"):
            yield from fields_of((name,), self.groups.get(name, {}))


def fields_of(place: Place, fields: Item) -> Iterator[tuple[Place, str]]:
    for name, value in fields.items():
        if isinstance(value, list):
            for index, part in enumerate(value):
                yield from fields_of((*place, name, index), part)
        elif isinstance(value, dict) and "offset" in value and "space" not in value:
            yield from fields_of((*place, name), value)
        else:
            yield place, name


def differs(shown: Shown, value: Value) -> Optional[str]:
    """Why a value of Linux's is not apei-show's."""
    place, name, wanted = value
    where = "/".join(map(str, place))
    if wanted is None:
        return None
    if name == "row and its extension":
        return row_differs(shown.at(place), wanted)
    if place[-1] == "flag":
        flags = plain(shown.at(place[:-1]).get(name))
        return None if flags is not None and flags >> wanted & 1 else f"{where}: flags {flags}, Linux has bit {wanted}"
    found = shown.found(place, name)
    if name == "multiple error" and found == [None]:
        # Linux prints the number of errors also if the validation bits say that there is none.
        return None
    return None if all(it == wanted for it in found) else f"{where}: {name} {found}, Linux has {wanted}"


def row_differs(fields: Item, wanted: int) -> Optional[str]:
    """Linux joins the row and its two further bits, and prints a row that is not valid if these bits are."""
    row, further = plain(fields.get("row")), plain(fields.get("extended row")) or 0
    joined = further << 16 | (wanted % 2**16 if row is None else row)
    return None if joined == wanted else f"row {row}, further bits {further}: Linux has {wanted:#x}"


def kept(place: Place) -> Place:
    """A place without the numbers of its parts."""
    return tuple(it for it in place if not isinstance(it, int))


def printed(program: str, blocks: list[bytes]) -> list[list[str]]:
    """The lines that Linux prints of each block."""
    given = b"".join(struct.pack("<I", len(it)) + it for it in blocks)
    text = subprocess.run([program], input=given, stdout=subprocess.PIPE, check=True).stdout.decode("latin-1")
    return [it.split("\n")[1:] for it in ("\n" + text).split("\nend")[:-1]]


def shown(program: str, blocks: list[bytes]) -> list[Item]:
    """What apei-show says of each block of a file that has them one after another."""
    with tempfile.NamedTemporaryFile() as file:
        file.write(b"".join(blocks))
        file.flush()
        lines = subprocess.run([program, "--json", file.name], stdout=subprocess.PIPE, check=True).stdout.decode().splitlines()
    return [json.loads(it) for it in lines]


def compare(kind: str, lines: list[list[str]], items: list[Item]) -> tuple[int, list[str]]:
    """How many values Linux printed of blocks of a type, and which of them apei-show has not."""
    said = [list(values(kind, it)) for it in lines]
    known = {(kept(place), name) for it in said for place, name, _ in it if name not in BY_VALUE}
    wrong = [] if len(items) == len(said) else [f"{len(items)} items of {len(said)} blocks"]
    for index, (of_linux, item) in enumerate(zip(said, items)):
        read = Shown(item)
        wrong += [f"block {index}: {it}" for it in (differs(read, value) for value in of_linux) if it]
        there = {(place, name) for place, name, _ in of_linux}
        wrong += [
            f"block {index}: {'/'.join(map(str, place))}: {name} {plain(read.at(place).get(name))}, which Linux does not print"
            for place, name in read.fields()
            if (kept(place), name) in known and (place, name) not in there
        ]
    return sum(map(len, said)), wrong


def main(words: list[str]) -> int:
    printer, program = words[:2]
    count = int(words[2]) if len(words) > 2 else 200
    chance = bodies.Chance(random.Random(int(words[3]) if len(words) > 3 else 1))
    total = wrong = 0
    for kind in KINDS:
        blocks = [bodies.block(chance, (kind, bodies.BODIES[kind](chance))) for _ in range(count)]
        found, differences = compare(kind, printed(printer, blocks), shown(program, blocks))
        total += found
        wrong += len(differences)
        for text in differences[:10]:
            print(f"{kind}: {text}", file=sys.stderr)
    print(f"{total} values of {len(KINDS) * count} blocks, {wrong} wrong")
    return 1 if wrong else 0


if __name__ == "__main__":
    sys.exit(main(sys.argv[1:]))
