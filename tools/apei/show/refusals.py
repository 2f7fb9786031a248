"""What Linux 6.12 will not take of a table, read plainly after its drivers in drivers/acpi/apei: which entry, source or region, where, and why."""

from typing import NamedTuple

from apei.bytes import number

# What the instructions of an ERST do that access no register: NOOP, ADD, SUBTRACT, STALL, GOTO (`erst_ins_type` in erst.c).
WITHOUT_REGISTER = (4, 8, 9, 0xC, 0xF)
INSTRUCTIONS = 19
# The notifications that `ghes_probe` in ghes.c has a case for.
POLLED, EXTERNAL, SCI, NMI, GPIO, SEA, GSIV, SDEI = 0, 1, 3, 4, 7, 8, 10, 11
TAKEN = (POLLED, EXTERNAL, SCI, NMI, GPIO, SEA, GSIV, SDEI)
MEMORY, IO = 0, 1
# The bytes of a status block's head.
HEAD = 20
# How many reasons there are.
REASONS = 11


class Refusal(NamedTuple):
    """A group of the table: its name, its number, where what is refused stands, and why Linux refuses it."""

    group: str
    index: int | None
    at: int
    why: str


def register(data: bytes) -> str | None:
    """`apei_check_gar` and `apei_map_generic_address` of apei-base.c, `acpi_os_map_generic_address` of osl.c, `ioremap`."""
    space, width, offset, code = data[:4]
    address = number(data, 4, 8)
    if address == 0:
        return "the register's address is 0"
    if code not in (1, 2, 3, 4):
        return "the register's access size is none of 8, 16, 32 and 64 bits"
    access = 1 << code + 2
    for whole in (32, 64):
        if (width, offset, address % (whole // 8)) == (whole, 0, 0):
            access = max(access, whole)
    if width + offset > access:
        return "the register has more bits than one access"
    if space not in (MEMORY, IO):
        return "the register is neither in memory nor in I/O space"
    if space == MEMORY and width == 0:
        return "the register has no bits"
    if space == MEMORY and address >> 52:
        return "the address has more than 52 bits"
    return None


def of_entry(entry: bytes) -> tuple[int, str] | None:
    """`apei_exec_for_each_entry` and what it calls for each entry."""
    if entry[1] >= INSTRUCTIONS:
        return 1, "the instruction is none of the standard's"
    if entry[1] in WITHOUT_REGISTER:
        return None
    why = register(entry[4:16])
    return (4, why) if why else None


def of_source(source: bytes) -> tuple[int, str] | None:
    """`ghes_probe`, `ghes_new` and `ghes_add_timer` of ghes.c: of a generic source that is enabled."""
    kind = number(source, 0, 2)
    if kind not in (9, 10) or source[7] == 0:
        return None
    if source[32] not in TAKEN:
        return 32, "Linux has no driver for this notification"
    if number(source, 60, 4) < HEAD:
        return 60, "the error status block is shorter than its head of 20 bytes"
    for at in (64, 20) if kind == 10 else (20,):
        why = register(source[at : at + 12])
        if why:
            return at, why
    return (36, "the poll interval is 0") if source[32] == POLLED and number(source, 36, 4) == 0 else None


def of_region(table: bytes) -> tuple[int, str] | None:
    """`bert_check_table` and `bert_init` of bert.c."""
    if number(table, 36, 4) < HEAD:
        return 36, "the region is shorter than the head of a block, 20 bytes"
    return (40, "the address has more than 52 bits") if number(table, 40, 8) >> 52 else None


def refusals(table: bytes, entries: list[int], sources: list[tuple[int, int]]) -> list[Refusal]:
    """Of a table whose entries begin at these places, or whose sources stand between these."""
    told: list[tuple[str, int | None, int, tuple[int, str] | None]] = []
    if table[:4] == b"ERST":
        told = [("refused entry", index, at, of_entry(table[at : at + 32])) for index, at in enumerate(entries)]
    elif table[:4] == b"HEST":
        told = [("refused source", index, at, of_source(table[at:end])) for index, (at, end) in enumerate(sources)]
    elif table[:4] == b"BERT":
        told = [("refused region", None, 0, of_region(table))]
    return [Refusal(name, index, at + it[0], it[1]) for name, index, at, it in told if it]
