"""Writes one page on a script and its flash: `tools/explore SCRIPT > page.html`.

The page needs nothing else, no network and no other file. A slider goes over the flash changes; after each the page shows the slots, the
range that the next change is on, what is left if power is lost in it, the records that a boot then finds, and what the boot changes.
What it shows of an image is what `apei-look` says of it, and the boots are those of `play`.
"""

import argparse
import hashlib
import json
import sys
from pathlib import Path
from typing import Any

import streams
from apei.flash import TEARS, Geometry
from apei.harness import Program, image_file, side_by_side
from apei.played import Change, Job, answered, built, changes, images, job_of, options
from installed import tool
from parser import Parser

PAGE = Path(__file__).resolve().parent / "explore.html"
DATA = "/*DATA*/"
Json = dict[str, Any]


class Looks:
    """What apei-look says of images, and what a boot makes of them, each image once."""

    def __init__(self, job: Job, look: Program) -> None:
        self.job, self.look = job, look
        self.views: list[Json] = []
        self.numbers: dict[bytes, int] = {}

    def look_at(self, image: bytes) -> Json:
        with image_file(image) as path:
            seen: Json = json.loads(self.look.run(f"--image={path}", *self.job.geometry.words, "--json").text)
            return seen

    def view(self, image: bytes) -> Json:
        """An image's slots and records, and the slots that a boot ends."""
        _, booted = self.job.play(image, b"")
        size = self.job.geometry.slot_size
        places = [(slot, slice(slot * size, (slot + 1) * size)) for slot in range(self.job.geometry.slots)]
        ended = [slot for slot, place in places if image[place] != booted[place]]
        seen = self.look_at(image)
        slots = [short(slot) for slot in seen["slots"]]
        records = [{"id": it["id"], "generation": it["generation"], "bytes": it["bytes"], "slots": it["slots"]} for it in seen["stored"]]
        return {"slots": slots, "records": records, "ended": ended}

    def add(self, wanted: list[bytes]) -> list[int]:
        """The numbers of the views of some images."""
        keys = [hashlib.sha256(image).digest() for image in wanted]
        missing = {key: image for key, image in zip(keys, wanted) if key not in self.numbers}
        for key, view in zip(missing, side_by_side(self.view, missing.values())):
            self.numbers[key] = self.number_of(view)
        return [self.numbers[key] for key in keys]

    def number_of(self, view: Json) -> int:
        if view not in self.views:
            self.views.append(view)
        return self.views.index(view)


def short(slot: Json) -> Json:
    """A slot without its marks if they say nothing more than its kind."""
    if slot["kind"] == "erased":
        return {"kind": "erased"}
    named = slot["kind"] not in ("unknown",) and slot["format"] != 0xFFFF
    head = {"id": slot["id"], "generation": slot["generation"], "bytes": slot["bytes"]} if named else {}
    return {"kind": slot["kind"], **head}


def line_of(change: Change, geometry: Geometry) -> Json:
    slot, at = divmod(change.at, geometry.slot_size)
    kind = "erase" if change.is_erase(geometry) else "program"
    return {"kind": kind, "slot": slot, "at": at, "length": len(change.data)}


def data_of(job: Job, look: Program) -> Json:
    """All that the page shows."""
    replies, made = changes(job)
    steps = images(job.geometry, made)
    looks = Looks(job, look)
    torn = [image for change, before in zip(made, steps) for image in (change.torn(before, tear) for tear in range(4))]
    numbers = looks.add([*steps, *torn])
    behind = numbers[: len(steps)]
    tears = [numbers[at : at + 4] for at in range(len(steps), len(numbers), 4)]
    geometry = job.geometry
    return {
        "geometry": {"sector": geometry.sector, "perSlot": geometry.per_slot, "slots": geometry.slots},
        "tears": TEARS,
        "lines": [{"line": it.line, "replies": it.said, "step": it.step} for it in answered(job.script, replies)],
        "changes": [{**line_of(change, geometry), "torn": torn_views} for change, torn_views in zip(made, tears)],
        "behind": behind,
        "views": looks.views,
    }


def page_of(data: Json) -> str:
    # A `<` within the data would end the script of the page.
    return PAGE.read_text().replace(DATA, json.dumps(data, separators=(",", ":")).replace("<", "\\u003c"))


def main() -> int:
    parser = Parser(prog=tool("explore"), description="writes one page on a script and its flash to standard output")
    options(parser)
    parser.add_argument("--look", type=Path, help="the built program that shows an image (crates/apei_look/out/apei_look)")
    given = parser.parse_args()
    job = job_of(given)
    look = Program(given.look.resolve()) if given.look else built("apei-look")
    sys.stdout.write(page_of(data_of(job, look)))
    return 0


def start() -> None:
    streams.end("explore", main)
