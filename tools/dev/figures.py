"""Writes into docs/EMBED.md, between two marks, what fits on a flash, what a write takes, and how the erases spread; and the picture of these.

    tools/run figures [--check] [--erases WRITES]

The tables are worked out by the plain model of the store, which the gate compares with the program. With --check nothing is written, and
the exit status is 1 if the page has other figures. With --erases the picture docs/pictures/erases.svg is made anew, of N writes
(100,000, which takes minutes).
"""

import argparse
import random
from collections.abc import Iterator

from apei import TOP
from apei.flash import Geometry
from apei.frames import record
from apei.scripts import write
from apei.store import LEAST, PIECE, Store

PAGE, PICTURE = TOP / "docs/EMBED.md", TOP / "docs/pictures/erases.svg"
BEGIN, END = "<!-- begin: tools/dev/figures.py -->\n", "<!-- end: tools/dev/figures.py -->\n"
GEOMETRIES = [
    Geometry(256, 2, 1024), Geometry(4096, 2, 32), Geometry(4096, 2, 128), Geometry(4096, 16, 32), Geometry(32768, 2, 1024),
]
LENGTHS = [128, 512, 2048, 8128, 16384, 65536]
WRITTEN = [128, 2048, 16384]
# Microseconds of an erase of 4,096 bytes and of a program of 256, of a common SPI flash; of a sector of another size in proportion.
ERASE, PROGRAM, MARK = 45_000, 400, 30
IDENTIFIERS, SLOTS = 20, 32
# The bytes that the store's lists have for each slot.
LISTED = 8 + 20 + 4 + 40


def fits(store: Store, length: int) -> int:
    """How many records of a length a store takes: the last of them needs one slot beside its own."""
    return max((store.geometry.slots - 1) // store.geometry.parts(length), 0) if length <= store.reach else 0


class Counted(Store):
    """A store that counts its erases, by sectors, and its other changes, by the bytes that they program."""

    def __init__(self, geometry: Geometry) -> None:
        super().__init__(geometry)
        self.forget()

    def forget(self) -> None:
        self.erases = [0] * (self.geometry.slots * self.geometry.per_slot)
        self.programs: list[int] = []
        self.steps = 0

    def change(self, slot: int, at: int, data: bytes) -> None:
        sector = self.geometry.sector
        if len(data) == sector and data.count(0xFF) == len(data):
            self.erases[slot * self.geometry.per_slot + at // sector] += 1
        else:
            self.programs.append(len(data))
        super().change(slot, at, data)


def of_write(geometry: Geometry, length: int, replaces: bool) -> Counted:
    """The changes of one write, with an older record in the way or not."""
    store = Counted(geometry)
    if replaces:
        store.play(write(1, length))
        store.forget()
    store.play(write(1, length))
    return store


def milliseconds(store: Counted) -> float:
    erase = ERASE * store.geometry.sector / 4096
    programs = sum(MARK if size == 1 else PROGRAM * max(size, 64) / PIECE for size in store.programs)
    return (sum(store.erases) * erase + programs) / 1000


def row(*cells: object) -> str:
    return "| " + " | ".join(map(str, cells)) + " |\n"


def head(*names: str) -> str:
    return row(*names) + "|" + "---|" * len(names) + "\n"


def named(geometry: Geometry) -> str:
    return f"{geometry.slots:,} slots of {geometry.per_slot} sectors of {geometry.sector:,}"


def fitting() -> Iterator[str]:
    yield head("geometry", "flash", "longest record", *(f"of {length:,}" for length in LENGTHS), "the store's memory")
    for geometry in GEOMETRIES:
        store, size = Store(geometry), geometry.size
        flash = f"{size >> 20} MiB" if size >= 1 << 20 else f"{size >> 10} KiB"
        taken = store.reach + LISTED * geometry.slots
        yield row(named(geometry), flash, f"{store.reach:,}", *(fits(store, length) or "none" for length in LENGTHS), f"{taken:,}")


def writing() -> Iterator[str]:
    yield head("sectors of a slot", "record", "parts", "erases", "programs", "milliseconds of a replacement")
    for geometry in (Geometry(256, 2, 16), Geometry(4096, 2, 16)):
        for length in WRITTEN:
            store = of_write(geometry, length, False)
            if length <= store.reach:
                again = of_write(geometry, length, True)
                slot = f"{geometry.per_slot} of {geometry.sector:,}"
                yield row(slot, f"{length:,}", geometry.parts(length), sum(store.erases), len(store.programs), f"{milliseconds(again):,.1f}")


def section() -> str:
    return f"""How many records of one length fit, and the bytes of memory that the store takes when it is opened:

{"".join(fitting())}
A slot has room for its bytes less 64. A record takes as many slots as it needs parts of that room, at most four. S slots hold (S - 1) / parts records of
one length, since a write of a new identifier wants one free slot more than the record has parts. So each of them can be replaced.

{"".join(writing())}
A write erases each sector of its slots, and programs for each part the head, the bytes in pieces of up to {PIECE}, and the tail mark. One more program
opens the gate, and a replacement ends the older record by one more:

    erases   = parts * sectors of a slot
    programs = parts * 2 + (pieces of {PIECE} bytes of each part) + 1, and 1 more if an older record is replaced

The times are by {ERASE // 1000} ms for the erase of 4,096 bytes (a sector of another size in proportion), {PROGRAM / 1000} ms for a program of {PIECE} bytes
(a shorter one in proportion, down to a fourth) and {MARK / 1000} ms for a mark of one byte. Put your own flash's times in. A clear is one program of
one byte. A read and a count change nothing. A boot makes one program for each second copy, of which lost power leaves at most one.

![erases of each sector over 100,000 writes](pictures/erases.svg)

The store takes the free slots of least number, and does not level wear. W writes of K records of one slot erase each sector of K + 1 slots about
W / (K + 1) times, and the others never: here of {IDENTIFIERS} records on {SLOTS} slots 4,700 to 4,931 times. So more slots than the records need do not make
a flash last longer.
"""


def erases(writes: int) -> list[int]:
    """The erases of each sector over N writes of records of 128 to 448 bytes under a few identifiers."""
    chance = random.Random(1)
    store = Counted(Geometry(256, 2, SLOTS))
    records = [record(it, length).hex() for it in range(1, IDENTIFIERS + 1) for length in (LEAST, 300, store.room)]
    for _ in range(writes):
        store.write(chance.choice(records))
    return store.erases


def picture(counts: list[int], writes: int) -> str:
    """Bars, one for each sector."""
    width, height, left, most = 12, 220, 60, max(counts)
    bars = ""
    for at, count in enumerate(counts):
        tall, says = height * count / most, f"<title>sector {at}: {count} erases</title>"
        bars += f'<rect x="{left + at * width}" y="{20 + height - tall:.1f}" width="{width - 2}" height="{tall:.1f}">{says}</rect>'
    whole = left + len(counts) * width + 20
    below = f"over {writes:,} writes under {IDENTIFIERS} identifiers on {SLOTS} slots of two sectors: {min(counts):,} to {most:,}"
    return f"""<svg xmlns="http://www.w3.org/2000/svg" viewBox="0 0 {whole} {height + 70}" role="img" font-family="sans-serif" font-size="13">
<title>Erases of each sector over {writes:,} writes: {min(counts):,} to {most:,}</title>
<rect width="100%" height="100%" fill="#fdfdfb"/><g fill="#1f5f8b">{bars}</g>
<text x="{left - 8}" y="28" text-anchor="end">{most:,}</text><text x="{left - 8}" y="{height + 20}" text-anchor="end">0</text>
<text x="{left}" y="{height + 40}">sector 0</text><text x="{whole - 20}" y="{height + 40}" text-anchor="end">sector {len(counts) - 1}</text>
<text x="{left}" y="{height + 60}">erases of each sector, {below}</text>
</svg>
"""


def main(words: list[str]) -> int:
    parser = argparse.ArgumentParser(prog="tools/run figures")
    parser.add_argument("--check", action="store_true")
    parser.add_argument("--erases", type=int, metavar="WRITES")
    given = parser.parse_args(words)
    if given.erases:
        PICTURE.parent.mkdir(exist_ok=True)
        PICTURE.write_text(picture(erases(given.erases), given.erases))
    before, _, rest = PAGE.read_text().partition(BEGIN)
    said, _, after = rest.partition(END)
    if given.check:
        return 0 if said == section() else 1
    PAGE.write_text(before + BEGIN + section() + END + after)
    return 0
