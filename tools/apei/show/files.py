"""Files for apei-show: well-formed ones, each with the items that it holds, and such as no program makes."""

import itertools
import re
from collections.abc import Iterator, Sequence
from dataclasses import dataclass

from apei import TOP, frames, made, names
from apei.bytes import guid_bytes, number, spell
from apei.flash import Geometry
from apei.items import ITEMS, Bad
from apei.looks import PER_SLOT, SECTOR, Shown, flash_of, medium_header, seeming
from apei.show import bodies, layouts, reading
from apei.show.bodies import Chance
from apei.store import Store


# A type of section that the standard does not have.
UNKNOWN = "00112233-4455-6677-8899-aabbccddeeff"


@dataclass(frozen=True)
class Wanted:
    """A file by its name, what is in it, and the items that are shown of it, behind those of the file itself, of which only the kinds stand
    here."""

    name: str
    data: bytes
    items: list[reading.Group]
    own: Sequence[str] = ()


def of_kind(kind: str, data: bytes, name: str = "file") -> Wanted:
    return Wanted(name, data, reading.items(kind, data))


def of_sections(chance: Chance, count: int) -> Iterator[Wanted]:
    """Records and blocks of each type of section, alone and together, and of a type that the standard does not have."""
    for kind, make in bodies.BODIES.items():
        yield of_kind("record", b"".join(bodies.record(chance, (kind, make(chance)), linux=chance.below(2) == 0) for _ in range(count)))
        yield of_kind("block", b"".join(bodies.block(chance, (kind, make(chance))) for _ in range(count)))
    for _ in range(count):
        kinds = [chance.of.choice(list(bodies.BODIES)) for _ in range(chance.below(5))]
        some = [(kind, bodies.BODIES[kind](chance)) for kind in kinds] + [(UNKNOWN, chance.of.randbytes(chance.below(30)))]
        yield of_kind("record", bodies.record(chance, *some))
        yield of_kind("block", bodies.block(chance, *some, raw=chance.of.randbytes(chance.below(40))) + bytes(100))
        cut = [(kind, body[: chance.below(len(body) + 1)]) for kind, body in some]
        yield of_kind("record", bodies.record(chance, *cut))
        yield of_kind("block", bodies.block(chance, *cut))


def of_severities(chance: Chance) -> Iterator[Wanted]:
    """Records and blocks of up to three sections of different types: of each severity, also of one that is none, and with each of the flags."""
    kinds = [names.MEMORY, names.PCIE, names.PROCESSOR]
    for count in (1, 2, 3):
        records, blocks = b"", b""
        for severities in itertools.product(range(5), repeat=count):
            for flags in itertools.product((0, 1, 8), repeat=count):
                told = list(zip(chance.of.sample(kinds, count), severities, flags))
                sections = [
                    frames.Section(bodies.BODIES[kind](chance), guid_bytes(kind), severity, bits=bytes(2) + spell(flag, 4))
                    for kind, severity, flag in told
                ]
                entries = [frames.Entry(it.body, it.kind, it.severity, bits=bytes([0, it.bits[2]])) for it in sections]
                records += frames.record_of(frames.Header(1, chance.below(4)), *sections)
                blocks += frames.block_of(1 | count << 4, chance.below(4), b"".join(it.data for it in entries))
        yield of_kind("record", records)
        yield of_kind("block", blocks)


def cut_sections(chance: Chance) -> Iterator[Wanted]:
    """Sections that end at each of their bytes: of processors, also within a structure that stands inside another one, and of memory."""
    ia32 = [bodies.ia32_of(chance, [it], []) for it in range(4)] + [bodies.ia32_of(chance, [], [it]) for it in layouts.IA32_CONTEXTS]
    arm = [bodies.arm_of(chance, [it], []) for it in layouts.ARM_ERRORS] + [bodies.arm_of(chance, [], [it]) for it in layouts.ARM_CONTEXTS]
    memory = [b"\xff" * 8 + bodies.memory(chance)[8:] for _ in range(2)]
    memory_2 = [b"\xff" * 8 + bodies.memory_2(chance)[8:] for _ in range(2)]
    for kind, some in ((names.IA32, ia32), (names.ARM, arm), (names.MEMORY, memory), (names.MEMORY_2, memory_2)):
        for body in some:
            yield of_kind("record", b"".join(bodies.record(chance, (kind, body[:end])) for end in range(len(body) + 1)))


def of_tables(chance: Chance, count: int) -> Iterator[Wanted]:
    yield of_kind("table", bodies.hest(chance, bodies.SOURCES))
    yield of_kind("table", bodies.hest(chance, [9, 10] * 300))
    for _ in range(count):
        kinds = [chance.of.choice(bodies.SOURCES) for _ in range(chance.below(9))]
        some = [bodies.erst(chance), bodies.hest(chance, kinds), bodies.bert(chance)]
        some.append(bodies.sealed(bodies.table_header(chance, b"FACP") + chance.of.randbytes(chance.below(99))))
        yield from (of_kind("table", it) for it in some)
        yield of_kind("table", b"".join(some))
        yield of_dump(chance.of.sample(some, 3))


def of_dump(tables: list[bytes]) -> Wanted:
    """Tables as acpidump writes them."""
    text, items = b"", list[reading.Group]()
    for table in tables:
        items.append(reading.item("table", table, len(items), len(text)))
        text += dump(table, 1 + len(table) % 2)
    return Wanted("acpi.txt", text, items)


def dump(table: bytes, group: int = 1) -> bytes:
    """With a space behind each group of so many bytes."""
    lines = [f"{table[:4].decode()} @ 0x{0xBFFE2B12:016X}"]
    for at in range(0, len(table), 16):
        row = table[at : at + 16]
        shown = "".join(chr(it) if 32 <= it < 127 else "." for it in row)
        lines.append(f"    {at:04X}: " + "".join(f"{row[it : it + group].hex().upper()} " for it in range(0, len(row), group)).ljust(48) + " " + shown)
    return ("\n".join(lines) + "\n\n").encode()


def checked_items() -> Iterator[tuple[str, bytes]]:
    """The items that scripts of checks have: examples/ and tests/scripts."""
    for path in sorted([*TOP.glob("examples/*/script"), *TOP.glob("tests/scripts/*/*/script")]):
        text = path.read_bytes().decode("latin-1")
        for found in re.finditer(r"^(erst|hest|bert|record|block|write|table) ((?:[0-9a-fA-F]{2})+)$", text, re.MULTILINE):
            yield found[1], bytes.fromhex(found[2])


def of_scripts() -> Iterator[Wanted]:
    """The well-formed ones among them."""
    for word, data in checked_items():
        kind = {"record": "record", "write": "record", "block": "block"}.get(word, "table")
        if is_well(data[:4].decode("latin-1").lower() if kind == "table" else kind, data):
            yield of_kind(kind, data)


def of_makers() -> Iterator[Wanted]:
    """What the library's makers make."""
    yield of_kind("block", made.block())
    yield of_kind("record", made.record())


def is_well(word: str, data: bytes) -> bool:
    """Whether an item is what its standard says up to its last byte, and its numbers are some that the standard names."""
    try:
        length, _, _ = ITEMS[word](data)
    except (KeyError, Bad):
        return False
    if word == "erst":
        has_names = number(data, 36, 4) == 48 and all(data[at] < 17 and data[at + 1] < 19 for at in reading.entries(data))
    elif word == "bert":
        has_names = length == 48
    else:
        has_names = word == "hest" or number(data, {"record": 12, "block": 16}[word], 4) < len(names.SEVERITIES)
    return length == len(data) and has_names


def of_pstore(chance: Chance) -> Iterator[tuple[str, bytes]]:
    """Files by the names that Linux gives them in pstore."""
    yield "dmesg-erst-6310243155473383425", bodies.dmesg(chance)
    yield "mce-erst-6310243155473383426", bodies.machine_check(chance)
    yield "dmesg-erst-6310243155473383427.enc.z", chance.of.randbytes(200)
    yield "dmesg-erst-6310243155473383428", bodies.record(chance, (names.DMESG, bodies.dmesg(chance)), linux=True)


def store_images(chance: Chance) -> Iterator[bytes]:
    """Flash images of records whose sections have fields."""
    for slots in (5, 9):
        played = Store(Geometry(SECTOR, PER_SLOT, slots))
        for identifier in range(1, slots - 1):
            kind = chance.of.choice([names.MEMORY, names.PCIE, names.PROCESSOR])
            played.play("write " + bodies.record(chance, (kind, bodies.BODIES[kind](chance)), identifier=identifier).hex())
        yield played.image
    for path in sorted(TOP.glob("tests/scripts/*/*/image")):
        image = path.read_bytes()
        if seeming(image)[1:] == (SECTOR, PER_SLOT):
            yield image


def records_of(image: bytes) -> list[bytes]:
    """The records that a boot finds on an image."""
    return [record.body for record in Shown(image).records]


def qemu_storage(records: list[bytes], size: int = 0x2000, slots: int = 32) -> bytes:
    """The storage file of QEMU's device acpi-erst (hw/acpi/erst.c): a header with a map of identifiers by slots, which is in the first of
    them, and records."""
    head = b"ERSTSTOR" + spell(size, 4) + spell(size, 4) + spell(0x100, 2) + bytes(2) + spell(len(records), 4) + bytes(8)
    head += b"".join(it[96:104] for it in records)
    return b"".join([head.ljust(size, b"\0"), *(it.ljust(size, b"\xff") for it in records)]).ljust(size * slots, b"\0")


def of_stores(chance: Chance) -> Iterator[Wanted]:
    """Flash images, media of the library and QEMU's storage: an item that says what they are, and the records in them."""
    for image in store_images(chance):
        records = records_of(image)
        items = [reading.item("record", it, index + 1, None) for index, it in enumerate(records)]
        yield Wanted("image", image, items, ["image"])
        medium = medium_header(SECTOR, PER_SLOT, flash_of(image).slots) + image
        yield Wanted("medium", medium, [{**it, "item": it["item"] + 1} for it in items], ["medium", "image"])
    each = enumerate(bodies.BODIES.items(), 9)
    records = [bodies.record(chance, (kind, make(chance)), identifier=identifier) for identifier, (kind, make) in each]
    storage = qemu_storage(records)
    items = [reading.item("record", it, index + 1, storage.find(it)) for index, it in enumerate(records)]
    yield Wanted("storage", storage, items, ["qemu"])


def well_formed(chance: Chance, count: int) -> Iterator[Wanted]:
    yield from of_sections(chance, count)
    yield from of_severities(chance)
    yield from cut_sections(chance)
    yield from of_tables(chance, count)
    yield from of_scripts()
    yield from of_makers()
    yield from of_stores(chance)


# What files begin with, for those that are drawn at random.
BEGINNINGS = [
    b"", b"CPER", b"ERST", b"HEST", b"BERT", b"FACP", b"ERSTSTOR", b"APEIERST", b"ERST @ 0x00000000\n    0000: ",
    b"\x5a\xff\3\0", bytes(20),
]


def mutated(chance: Chance, data: bytes) -> bytes:
    """A file some of whose bytes are others, or which is cut, longer, or joined with itself."""
    out = bytearray(data)
    for _ in range(1 + chance.below(6)):
        at = chance.below(len(out) + 1)
        kind = chance.below(8)
        if kind < 3:
            width = chance.of.choice([1, 2, 4, 8])
            out[at : at + width] = chance.number(width)
        elif kind == 3:
            del out[at:]
        elif kind == 4:
            out[at:at] = chance.of.randbytes(chance.below(40))
        elif kind == 5:
            del out[at : at + chance.below(40)]
        elif kind == 6:
            out[at : at + 4] = spell(chance.of.choice([0, 1, 2**31, 2**32 - 1, len(out), len(out) + 1, 128]), 4)
        else:
            out += out[: chance.below(100)]
    return bytes(out[:70_000])


def any_file(chance: Chance, whole: list[bytes]) -> tuple[str, bytes]:
    """A file by its name: mostly one of these with faults in it, else bytes at random."""
    name = chance.of.choice(["file"] * 6 + ["dmesg-erst-7", "mce-erst-8", "dmesg-erst-9.enc.z"])
    if chance.below(4):
        return name, mutated(chance, chance.of.choice(whole))
    return name, chance.of.choice(BEGINNINGS) + chance.of.randbytes(chance.below(300))
