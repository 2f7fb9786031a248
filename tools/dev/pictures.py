"""Writes six pictures into docs/CRASH.md, between its two marks: what apei-look shows in the course of a replacement.

    tools/run pictures [PROGRAM] [--check]

PROGRAM is the built program, by default crates/apei_look/out/apei_look. The images are those of the model of the store, which the gate
compares with the program. With --check nothing is written, and the exit status is 1 if the page has other pictures.
"""

from collections.abc import Iterator

from apei import TOP
from apei.flash import Geometry
from apei.harness import Program, given, image_file
from apei.looks import PER_SLOT, SECTOR
from apei.scripts import REPLACEMENT
from apei.store import booted, cut_image, images_of

PAGE = TOP / "docs" / "CRASH.md"
BEGIN, END = "<!-- begin: tools/dev/pictures.py -->\n", "<!-- end: tools/dev/pictures.py -->\n"
FLASH = Geometry(SECTOR, PER_SLOT, 6)
DONE = {
    2: "the head of slot 0 is written, behind a closed gate",
    5: "the gate of slot 0 is opened: the older record is stored",
    8: "the head of slot 1 is written, with generation 2",
    11: "the gate of slot 1 is opened: the newer record is stored, and the older one is a second copy",
    12: "slot 0 is killed",
}
# The picture of a loss of power: in which change, and which tear of `--torn` it left.
LOST, TEAR = 11, 2


def shown(look: Program, image: bytes) -> tuple[str, str]:
    """The legend, and the picture of an image with the lines of its slots."""
    with image_file(image) as path:
        text = look.run(f"--image={path}", *FLASH.words).text
    _, picture, legend, *rest = text.rstrip("\n").split("\n\n")
    lines = [*picture.splitlines(), *(rest[0].splitlines() if rest else [])]
    return legend, "".join(f"    {line}\n" for line in lines)


def states() -> Iterator[tuple[str, bytes]]:
    """What was done, and the image then."""
    images = images_of(FLASH, REPLACEMENT)
    for number, done in DONE.items():
        yield f"after change {number}: {done}", images[number]
        if number == LOST:
            yield f"power was lost in change {number}, which left zeros, and the machine booted", booted(FLASH, cut_image(FLASH, REPLACEMENT, number, TEAR))[0]


def pictures(look: Program) -> str:
    legend, _ = shown(look, FLASH.erased)
    text = "".join(f"    {line}\n" for line in legend.splitlines())
    for done, image in states():
        text += f"\n    {done}\n" + shown(look, image)[1]
    return text


def main(words: list[str]) -> int:
    asked = given([word for word in words if not word.startswith("--")], crate="apei_look")
    before, _, rest = PAGE.read_text(encoding="utf-8").partition(BEGIN)
    said, _, after = rest.partition(END)
    told = pictures(asked.program)
    if "--check" in words:
        return 0 if said == told else 1
    PAGE.write_text(before + BEGIN + told + END + after, encoding="utf-8")
    return 0
