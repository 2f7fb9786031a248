"""Has the program open images with all kinds of slots, and compares it with a plain model of the slots.

    tools/run slots [PROGRAM] [IMAGES] [SEED]

PROGRAM is the built program, by default crates/apei/out/apei. `play` opens each image, counts, walks and reads the records, and writes one
more. Of some images the records and the changes of the opening were worked out by hand; of these and of IMAGES more, 300 where it is not
said, whose slots are drawn at random, the replies, their steps and the image that is left are those of the model.
"""

from apei.bytes import LAST
from apei.harness import Program, Tally, given, image_file, script, side_by_side
from apei.scripts import write
from apei.slot_images import BY_HAND, FLASH, Known, drawn
from apei.store import Store

LINES = ["count", *["next"] * 4, "read 0", "read 5", "read 6", f"read {LAST - 1}", write(7, 449), "count", "clear 5", "count"]


def opened(image: bytes) -> Store:
    store = Store(FLASH)
    store.put(image)
    return store


def wrong_by_hand(known: Known) -> list[str]:
    """What the model makes otherwise than what was worked out by hand."""
    store = opened(known.image)
    held = {identifier: (record.slot, record.generation) for identifier, record in store.records().items()}
    store.settle()
    if (held, store.steps) == (known.records, known.ended):
        return []
    return [f"the model holds {held} after {store.steps} changes, by hand {known.records} after {known.ended}"]


def wrong_of(program: Program, image: bytes) -> list[str]:
    """What the program makes otherwise than the model."""
    store, found = opened(image), []
    store.settle()
    wanted = "".join(map(store.play, LINES))
    with image_file(image) as path:
        done = program.run("play", f"--image={path}", *FLASH.words, given=script(LINES))
        if (done.status, done.text) != (0, wanted):
            found.append(f"wanted {wanted!r}, found status {done.status}, {done.text!r}")
        if path.read_bytes() != store.image:
            found.append("another image is left")
    return found


def main(words: list[str]) -> int:
    asked, tally = given(words, more=300), Tally("images")
    by_hand: list[list[str]] = [wrong_by_hand(known) for known in BY_HAND] + [[]] * asked.more
    images = [*(known.image for known in BY_HAND), *drawn(asked.chance, asked.more)]
    found = side_by_side(lambda image: wrong_of(asked.program, image), images)
    for at, (of_model, of_program) in enumerate(zip(by_hand, found)):
        tally.add(f"image {at}: {what}" for what in of_model + of_program)
    return tally.end()
