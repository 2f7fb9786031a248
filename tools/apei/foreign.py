"""What each of our rows is called by foreign sources (tests/facts/names.txt), and whether they say of it what the row says."""

import re
from dataclasses import dataclass, field
from functools import cache

from apei import TOP
from apei.facts import Place, facts
from apei.rows import Row

NAMES = TOP / "tests" / "facts" / "names.txt"
# Facts that say where a row stands, and not only whether it is valid.
VALID = "valid:"
ALONE = "alone "
# What has the formats of the standards, and no numbers of its own.
CRATES = "field_lines", "cper_frame", "ghes_block", "hest_sources", "erst_entries", "apei_tables"
FORMATS = *(f"crates/{name}/" for name in CRATES), "crates/smbios/specs/", "crates/machine_parts/specs/", "tools/apei/show/layouts.py", "tools/apei/names.py", "docs/FORMATS.md"


@dataclass
class Table:
    """A table: whether its numbers are those of bits, what says it if nothing foreign does, and the facts of each row."""

    bits: bool = False
    own: bool = False
    alone: str | None = None
    rows: dict[str, list[str]] = field(default_factory=dict)


@cache
def tables() -> dict[str, Table]:
    found: dict[str, Table] = {}
    table = Table()
    for line in NAMES.read_text(encoding="utf-8").splitlines():
        if head := re.match(r"\[(.*)\](?: (bits|own|alone (.*)))?$", line):
            table = Table(head[2] == "bits", head[2] == "own", head[3])
            found.update({name: table for name in head[1].split(", ")})
        elif " = " in line and not line.startswith("#"):
            name, said = line.split(" = ", 1)
            table.rows[name] = said.split(" | ")
    return found


def alone() -> dict[str, str]:
    """Tables and rows that nothing foreign says, each with its clause."""
    found = {}
    for name, table in tables().items():
        if table.alone:
            found[name] = table.alone
        for row, said in table.rows.items():
            found.update({f"{name}: {row}": fact.removeprefix(ALONE) for fact in said if fact.startswith(ALONE)})
    return found


def moved(name: str) -> tuple[str, int]:
    """The name of a fact, and by how many bytes it is moved."""
    name, _, by = name.partition("+")
    return name, int(by or 0)


def numbers(name: str) -> set[int]:
    """What a name says: the size of a structure, the place of a member, or a number."""
    if name in facts().sizes:
        return {facts().sizes[name]}
    if name in facts().members:
        return {facts().members[name].at}
    return facts().numbers.get(name, set())


def is_at(row: Row, name: str, within: bool = False) -> bool:
    """Whether the row has the place of a member, or stands within it."""
    name, by = moved(name)
    place = facts().members.get(name)
    if place is None:
        return False
    at, width = row.at - by, row.width or 0
    if place.in_bits:
        return (at, row.low, row.count) == (0, place.at, place.size)
    return place.at <= at and at + width <= place.at + place.size if within else place == Place(at, width)


def mask(row: Row) -> int:
    return (1 << (row.count or 0)) - 1


def is_number(row: Row, fact: str, bits: bool) -> bool:
    """Whether the number of a name is that of a fact."""
    if found := re.fullmatch(r"(\w+)\{(.*)\}", fact):
        return facts().texts.get(found[1], {}).get(str(row.at)) == found[2]
    name, by = moved(fact)
    return numbers(name) == {1 << row.at if bits else row.at - by}


def is_so(row: Row, fact: str, bits: bool) -> bool:
    """Whether a fact says what a row says."""
    if fact.startswith(ALONE):
        return True
    if row.width is None:
        return is_number(row, fact, bits)
    kind, _, of = fact.rpartition(":")
    if kind in ("", "within"):
        return is_at(row, of, within=kind == "within")
    name, by = moved(of)
    if kind == "at":
        return numbers(name) == {row.at - by}
    if kind == "valid":
        return row.bit is not None and numbers(name) == {1 << row.bit}
    wanted = {"low": row.low, "mask": mask(row), "bits": mask(row) << (row.low or 0)}[kind]
    return row.at == by and numbers(name) == {wanted}


def unknown(rows: list[Row]) -> list[str]:
    """What names.txt names, and no source has."""
    have = {(id(tables()[row.table]), row.name) for row in rows if row.table in tables()}
    return [
        f"tests/facts/names.txt names {table}, {name}, which no source has"
        for table, of in tables().items()
        for name in of.rows
        if (id(of), name) not in have and (table.startswith(FORMATS) or not table.startswith("crates/"))
    ]


def said_of(row: Row) -> list[str]:
    table = tables().get(row.table)
    return table.rows.get(row.name, []) if table else []


def is_alone(row: Row) -> bool:
    """Whether nothing foreign says where the row stands."""
    return not said_of(row) or any(fact.startswith(ALONE) for fact in said_of(row))


def said_by(fact: str) -> set[str]:
    """What of a row a fact says: its place, its width, its bits."""
    kind, _, of = fact.rpartition(":")
    if kind == "" and (place := facts().members.get(moved(of)[0])):
        return {"at", "low", "count"} if place.in_bits else {"at", "width"}
    return {"": {"at"}, "at": {"at"}, "low": {"at", "low"}, "mask": {"at", "count"}, "bits": {"at", "low", "count"}}.get(kind, set())


def compared(row: Row) -> set[str]:
    """What of a row is compared with a foreign source."""
    found = set() if is_alone(row) else {word for fact in said_of(row) for word in said_by(fact)}
    return found | ({"bit"} if said_of(row) and row.width is not None else set())


def faults_of(row: Row) -> list[str]:
    """What is wrong with a row. In crates that are of a format of the standards each row has to be known."""
    table = tables().get(row.table, Table())
    if table.own or table.alone:
        return []
    said = table.rows.get(row.name)
    if said is None:
        is_of_format = row.file.startswith(FORMATS)
        return [f"{row.where}: no foreign name for it is in tests/facts/names.txt: {row}"] if is_of_format else []
    wrong = [f"{row.where}: {fact} says something else than {row}" for fact in said if not is_so(row, fact, table.bits)]
    if all(fact.startswith(VALID) for fact in said) or (row.bit is not None) != any(fact.startswith(VALID) for fact in said):
        wrong.append(f"{row.where}: no foreign fact says its place, or its validation bit")
    return wrong
