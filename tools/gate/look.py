"""Has apei-look show images, and compares it with a plain model of the slots.

    tools/run look [PROGRAM] [IMAGES] [SEED] [PLAYER]

PROGRAM is the built program, by default crates/apei_look/out/apei_look, and PLAYER the one that plays scripts, by default
crates/apei/out/apei. PROGRAM is run on an erased image, on images that scripts leave by the model of the store, on one after each change
of a replacement and on one that power lost in it left, on the images of tests/scripts and on those written by hand, slots of the old
format among them, and on IMAGES more, 60 where it is not said, of slots and of bytes that are drawn at random. It is also run on the
images that PLAYER leaves: behind each line of a script of writes, replacements, clears and losses of power, behind scripts that are drawn
at random, and behind those of examples/. The kinds of the slots, the totals, the records and the kind of file are those of the model, the
bytes of each record are its own, and the file is as before, with its times but that of access. Images that are cut off are shown as far as
they go, and the geometry of others is guessed. The same images behind the first sector of a library's medium are shown without any
options, wherever such a medium ends; one of another version and one whose first sector is damaged are said to be so. Then what is no image
of the geometry is refused: a file of another length, a folder, a pipe, a file that is not there, one that another run holds and one
without the right to read it; a file without the right to write is shown.
"""

import fcntl
import json
import os
import random
import shutil
from collections.abc import Iterator
from pathlib import Path
from typing import Any

from apei import TOP, names, slot_images
from apei.bytes import guid_bytes
from apei.flash import Geometry
from apei.frames import Header, Section, record_of
from apei.harness import Ended, Given, Program, Tally, given, scratch, script
from apei.looks import PER_SLOT, SECTOR, SIZE, Shown, flash_of, medium_header, seeming
from apei.names import LINUX
from apei.scripts import REPLACEMENT, some_line, write
from apei.store import Store, cut_image, images_of

SIX, NINE = Geometry(SECTOR, PER_SLOT, 6), Geometry(SECTOR, PER_SLOT, 9)
EXAMPLES = ("two-records", "several-slots", "replaced-and-cleared", "crash-in-a-replacement", "kept-in-a-file")
FORMS = [
    Geometry(256, 2, 6), Geometry(512, 2, 8), Geometry(256, 3, 7), Geometry(1024, 4, 5), Geometry(4096, 2, 4), Geometry(256, 16, 3),
]
NOBODY = 65534
Kept = tuple[int, ...]


def kept(path: Path) -> Kept:
    """What of a file stays: its times but that of access, its length, place and rights."""
    stat = path.stat()
    return stat.st_mtime_ns, stat.st_ctime_ns, stat.st_size, stat.st_ino, stat.st_mode


class Look:
    """Runs of apei-look."""

    def __init__(self, program: Program) -> None:
        self.program = program

    def at(self, path: Path | str, *words: str, **options: Any) -> Ended:
        """A run by the path alone, or with these words."""
        return self.program.run(path, *words, timeout=60, **options)

    def by(self, geometry: Geometry, path: Path | str, *words: str, **options: Any) -> Ended:
        """A run by a geometry."""
        return self.program.run(f"--image={path}", *geometry.words, *words, timeout=60, **options)


def wrong_of(look: Look, path: Path, image: bytes) -> Iterator[str]:
    """What the program shows of an image that is not so."""
    path.write_bytes(image)
    before, flash, wanted = kept(path), flash_of(image), Shown(image)
    facts = look.by(flash, path, "--json")
    if facts.status:
        yield f"status {facts.status}, {facts.said!r}"
        return
    if json.loads(facts.text) != wanted.json() or facts.text.count("\n") != 1:
        yield f"JSON {facts.text}, wanted {wanted.json()}"
    text = look.by(flash, path).text
    if text != wanted.text():
        yield f"text {text}, wanted {wanted.text()}"
    for record in wanted.records:
        if look.by(flash, path, f"--record={record.identifier}").written != record.body:
            yield f"other bytes of record {record.identifier}"
    known = {record.identifier for record in wanted.records}
    missing = next(it for it in range(1, 1000) if it not in known)
    none = look.by(flash, path, f"--record={missing}")
    if (none.status, none.written) != (10, b""):
        yield f"record {missing}, which is not there: status {none.status}"
    if path.read_bytes() != image or kept(path) != before:
        yield "the file is another"


def named_record(identifier: int, severity: int, time: bytes | None, notification: str, *kinds: str, creator: str = "") -> bytes:
    """A record with a section of eight bytes for each type, and with a time where one is given."""
    header = Header(
        identifier,
        severity,
        valid=2 if time else 0,
        time=time or bytes(8),
        creator=guid_bytes(creator or "03020100-0504-0706-0809-0a0b0c0d0e0f"),
        notification=guid_bytes(notification),
    )
    return record_of(header, *(Section(bytes(8), guid_bytes(kind), severity + index, revision=0) for index, kind in enumerate(kinds)))


def named_image() -> bytes:
    """An image of records whose fields have names, a time and sections, and of one without."""
    memory, iommu, other = names.MEMORY, names.IOMMU, "00112233-4455-6677-8899-aabbccddeeff"
    check, boot = "2dce8bb1-bdd7-450e-b9ad-9cf4ebd4f890", "3d61a466-ab40-409a-a698-f362d464b38f"
    records = [
        named_record(3, 0, bytes.fromhex("0015060128112620"), check, memory, iommu),
        named_record(4, 1, bytes.fromhex("5959230031129919"), boot, other, memory, memory, memory, memory),
        named_record(5, 7, None, other),
        named_record(6, 1, bytes.fromhex("0060281106152620"), check, other),
        named_record(7, 1, bytes.fromhex("866df76900000000"), check, other, creator=LINUX),
        named_record(8, 1, bytes.fromhex("ffffffffffffff7f"), check, other, creator=LINUX),
        named_record(9, 1, bytes.fromhex("595923002902002a"), check, other),
    ]
    return images_of(Geometry(SECTOR, PER_SLOT, 20), ["write " + record.hex() for record in records])[-1]


def cut_images() -> Iterator[bytes]:
    """The images that power lost in each change of a replacement leaves, by what is left of the change."""
    for change in range(len(images_of(SIX, REPLACEMENT))):
        for tear in range(4):
            yield cut_image(SIX, REPLACEMENT, change, tear)


def some_images(count: int, chance: random.Random) -> Iterator[bytes]:
    yield SIX.erased
    yield named_image()
    yield from images_of(SIX, REPLACEMENT)
    yield from cut_images()
    yield from images_of(NINE, [write(5, 900), write(5, 1300), write(7, 200), "clear 5"])[::3]
    for path in sorted(TOP.glob("tests/scripts/*/*/image")):
        image = path.read_bytes()
        if len(image) % SIZE == 0 and len(image) >= 2 * SIZE:
            yield image
    yield from (known.image for known in slot_images.BY_HAND)
    yield from slot_images.drawn(chance, count)
    yield chance.randbytes(SIZE * 70)


def played_images(player: Program, folder: Path, chance: random.Random) -> Iterator[bytes]:
    """Images that the player leaves: behind each line of a script, behind scripts drawn at random, and behind the examples."""
    path = folder / "played"

    def left_by(slots: int, text: bytes) -> bytes:
        """The image that is left behind a script over the file, as it then stands."""
        player.run("play", f"--image={path}", *Geometry(SECTOR, PER_SLOT, slots).words, given=text, timeout=60)
        return path.read_bytes()

    for line in [*REPLACEMENT, "power", write(7, 900), write(7, 1300), "reset", "clear 1", "power", "clear 7"]:
        yield left_by(9, script([line]))
    for slots in (3, 5, 9):
        path.unlink()
        for _ in range(4):
            lines = [chance.choice(["power", "reset"]) if chance.random() < 0.1 else some_line(chance) for _ in range(6)]
            yield left_by(slots, script(lines))
    for name in EXAMPLES:
        path.unlink()
        yield left_by(8, (TOP / "examples" / name / "script").read_bytes())


def cut_off(look: Look, path: Path) -> Iterator[str]:
    """What is wrong of images that are cut off."""
    whole = images_of(SIX, REPLACEMENT)[-2]
    for held in (0, 1, SIZE - 1, SIZE, SIZE + 300, len(whole) - 1):
        path.write_bytes(whole[:held])
        wanted = Shown(whole[:held].ljust(len(whole), b"\xff"), held)
        text, facts = look.by(SIX, path), look.by(SIX, path, "--json")
        if (text.status, text.text) != (6, wanted.text()) or f"has {held} bytes" not in text.said:
            yield f"an image of {held} bytes: {text}"
        if facts.status != 6 or json.loads(facts.text) != wanted.json():
            yield f"an image of {held} bytes: {facts.text}, wanted {wanted.json()}"


def guessed(look: Look, path: Path) -> Iterator[str]:
    """What is wrong of images whose geometry is guessed."""
    for geometry in FORMS:
        store = Store(geometry)
        for line in [*REPLACEMENT, write(7, 300), write(9, 140)][: geometry.slots - 1]:
            store.play(line)
        path.write_bytes(store.image)
        form = seeming(store.image)
        # By its path alone, as a word by itself.
        facts = json.loads(look.at(path, "--guess", "--json").text)
        found = facts["geometry"]["sector"], facts["geometry"]["per_slot"]
        is_right = found == form[1:] and facts["heads"] == form.heads and facts["file"] == "store"
        if not is_right or form.sector * form.per_slot != geometry.slot_size:
            yield f"{geometry}: {found} are guessed, {facts['heads']} heads"
        if facts["records"] != len(store.records()):
            yield f"{geometry}: {facts['records']} records are found"
    path.write_bytes(Geometry().erased)
    facts = json.loads(look.at("--guess", str(path), "--json").text)
    if (facts["geometry"], facts["seems"], facts["file"]) != ({"sector": 4096, "per_slot": 2, "slots": 32}, None, "store"):
        yield f"an erased flash: {facts['geometry']}, {facts['seems']}, {facts['file']}"


def wrong_medium(look: Look, path: Path, what: str, data: bytes, wanted: Shown, status: int = 0, *words: str) -> Iterator[str]:
    """What the program shows of a library's medium that is not so."""
    path.write_bytes(data)
    text, facts = look.at(path, *words), look.at(path, "--json", *words)
    if (text.status, text.text) != (status, wanted.text()) or bool(status) != bool(text.said):
        yield f"{what}: {text}, wanted {wanted.text()}"
    if facts.status != status or json.loads(facts.text) != wanted.json():
        yield f"{what}: {facts.text}, wanted {wanted.json()}"
    for record in wanted.records:
        shown = look.at(path, f"--record={record.identifier}")
        if (shown.status, shown.written) != (status, record.body):
            yield f"{what}: record {record.identifier}: {shown}"


def mediums(look: Look, path: Path, chance: random.Random) -> Iterator[str]:
    """What is wrong of images behind the first sector of a library's medium."""
    images = [SIX.erased, *images_of(SIX, REPLACEMENT)[::4], named_image(), chance.randbytes(SIZE * 5)]
    for at, image in enumerate(images):
        medium, what = medium_header(SECTOR, PER_SLOT, len(image) // SIZE) + image, f"medium {at}"
        yield from wrong_medium(look, path, what, medium, Shown(image, is_medium=True))
        # Options on the geometry don't count where the first sector tells it.
        yield from wrong_medium(look, path, f"{what}, with options", medium, Shown(image, is_medium=True), 0, "--slots=9", "--guess")
        for held in (64, 255, SECTOR, SECTOR + 1, SECTOR + SIZE + 300, len(medium) - 1):
            left = medium[:held][SECTOR:].ljust(len(image), b"\xff")
            yield from wrong_medium(look, path, f"{what}, {held} bytes", medium[:held], Shown(left, held, is_medium=True), 6)
        longer = Shown(image, len(medium) + 100, is_medium=True)
        yield from wrong_medium(look, path, f"{what} with bytes behind it", medium + bytes(100), longer, 6)


def wrong_unread(look: Look, path: Path, what: str, data: bytes, kind: str, version: int | None, said: str) -> Iterator[str]:
    """What is wrong where a medium can't be shown."""
    path.write_bytes(data)
    text, facts, record = look.at(path), look.at(path, "--json", "--guess"), look.at(path, "--record=1")
    if (text.status, text.said) != (6, "apei-look: " + text.text) or not text.text.startswith(said):
        yield f"{what}: {text}"
    wanted = {"held": len(data), "file": kind, "medium": {"version": version}}
    if facts.status != 6 or json.loads(facts.text) != wanted:
        yield f"{what}: {facts}, wanted {wanted}"
    if (record.status, record.written, record.said) != (6, b"", text.said):
        yield f"{what}: {record}"


def unread_mediums(look: Look, path: Path) -> Iterator[str]:
    """Mediums of other versions, and such as are damaged."""
    image, header = images_of(SIX, REPLACEMENT)[0], medium_header(SECTOR, PER_SLOT, 6)
    for version in (0, 2, 2**32 - 1):
        what, other = f"version {version}", medium_header(SECTOR, PER_SLOT, 6, version) + image
        yield from wrong_unread(look, path, what, other, "other-version", version, f"a medium of the library, {what}: ")
    damaged = {f"byte {at}": header[:at] + bytes([header[at] ^ 1]) + header[at + 1 :] for at in range(8, 50)}
    # The checksum is right, and the geometry is none: a slot of one sector.
    damaged["no geometry"] = medium_header(SECTOR, 1, 12)
    said = "a medium of the library whose first sector is damaged"
    for what, first in damaged.items():
        yield from wrong_unread(look, path, f"{what} is another", first + image, "damaged-medium", None, said)
    for held in (8, 40, 63):
        yield from wrong_unread(look, path, f"{held} bytes of a medium", header[:held], "damaged-medium", None, said)
    # One byte of the signature is another: a file like others. So is one of seven bytes.
    for data in (bytes([header[0] ^ 1]) + header[1:] + image[: SIZE * 5 + SECTOR], header[:7]):
        path.write_bytes(data)
        facts = look.by(SIX, path, "--json")
        if json.loads(facts.text)["medium"] is not None:
            yield f"a file without the signature: {facts}"


class Refusals:
    """What is no image of the geometry, each with its status."""

    def __init__(self, look: Look, folder: Path) -> None:
        self.look, self.folder = look, folder
        self.flash = Geometry(SECTOR, PER_SLOT, 3)
        self.image = folder / "image"
        self.image.write_bytes(self.flash.erased)
        self.wrong: list[str] = []

    def refused(self, what: str, path: Path | str, status: int, said: str, *words: str, slots: int = 3, **options: Any) -> None:
        file = Path(path) if str(path) else None
        before = kept(file) if file and file.exists() else None
        ran = self.look.by(Geometry(SECTOR, PER_SLOT, slots), path, *words, **options)
        if (ran.status, ran.written) != (status, b"") or said not in ran.said:
            self.wrong.append(f"{what}: status {ran.status}, {ran.said!r}")
        if (kept(file) if file and file.exists() else None) != before:
            self.wrong.append(f"{what}: it is another")

    def by_its_kind(self) -> None:
        self.refused("a greater length", self.image, 6, "has 1536 bytes", slots=2)
        self.refused("a geometry outside its limits", self.image, 6, "limits", slots=1)
        self.refused("a folder", self.folder, 5, "regular file")
        self.refused("no file", self.folder / "none", 5, "no such image")
        pipe = self.folder / "pipe"
        os.mkfifo(pipe)
        self.refused("a pipe", pipe, 5, "regular file")

    def by_the_words(self) -> None:
        for what, words in [
            ("an option twice", ["--slots=3"]), ("a path twice", [str(self.image)]), ("a flag with a value", ["--guess=1"]),
            ("a record and JSON", ["--json", "--record=1"]), ("a number with a sign", ["--record=+1"]), ("a job", ["play"]),
        ]:
            self.refused(what, self.image, 1, "bad words", *words)
        self.refused("an empty path", "", 1, "bad words")

    def by_its_locks(self) -> None:
        with open(self.image, "rb+") as holder:
            fcntl.flock(holder, fcntl.LOCK_EX)
            self.refused("a file that another run holds", self.image, 5, "another run holds")
        with open(self.image, "rb") as reader:
            fcntl.flock(reader, fcntl.LOCK_SH)
            if self.look.by(self.flash, self.image).status:
                self.wrong.append("a file that another run reads is refused")

    def by_its_rights(self) -> None:
        """The rights of a file do not bind the system's user, who runs the program as nobody."""
        options: dict[str, Any] = {"user": NOBODY, "group": NOBODY, "extra_groups": []} if os.getuid() == 0 else {}
        self.folder.chmod(0o755)
        program = Path(shutil.copy(self.look.program.path, self.folder / "program"))
        program.chmod(0o755)
        self.look = Look(Program(program))
        self.image.chmod(0o444)
        if self.look.by(self.flash, self.image, **options).status:
            self.wrong.append("a file without the right to write is refused")
        self.image.chmod(0)
        self.refused("a file without the right to read", self.image, 5, "can't be read", **options)
        self.image.chmod(0o644)

    def all(self) -> list[str]:
        self.by_its_kind()
        self.by_the_words()
        self.by_its_locks()
        self.by_its_rights()
        if self.image.read_bytes() != self.flash.erased:
            self.wrong.append("the file that was refused is another")
        return self.wrong


def all_images(asked: Given, folder: Path) -> Iterator[bytes]:
    player = Program(Path(asked.rest[0]).resolve()) if asked.rest else Program.of("apei")
    yield from some_images(asked.more, asked.chance)
    yield from played_images(player, folder, asked.chance)


def main(words: list[str]) -> int:
    asked, tally = given(words, more=60, crate="apei_look"), Tally("images")
    look = Look(asked.program)
    with scratch() as folder:
        for at, image in enumerate(all_images(asked, folder)):
            tally.add(f"image {at}: {what}" for what in wrong_of(look, folder / f"image-{at}", image))
        tally.add(cut_off(look, folder / "other"))
        tally.add(guessed(look, folder / "other"))
        tally.add(mediums(look, folder / "medium", asked.chance))
        tally.add(unread_mediums(look, folder / "medium"))
        tally.add(Refusals(look, folder).all())
    return tally.end()
