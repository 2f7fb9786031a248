"""Tries tools/sweep, tools/cut and tools/explore on a replacement.

    tools/run tears [PROGRAM] [LOOK] [--page FILE]

PROGRAM and LOOK are the built programs, by default crates/apei/out/apei and crates/apei_look/out/apei_look. The changes that the tools
see, the image of each loss of power, and what the page says of each image are compared with the plain models of the store and of what
apei-look shows, and a program that loses a record, or acknowledges what it has not stored, is found by the sweep. With --page the page is
left in a file. Without strace, a Debian package, only the sweep is tried, which is said.
"""

import argparse
import json
import os
import shutil
import subprocess
from pathlib import Path
from typing import Any

from apei import TOP
from apei.flash import Geometry
from apei.harness import Ended, Program, Tally, scratch, script
from apei.looks import PER_SLOT, SECTOR, Shown
from apei.scripts import REPLACEMENT
from apei.store import booted, cut_image, images_of

FLASH = Geometry(SECTOR, PER_SLOT, 6)
# A program whose reads show another record if power was lost, and one that says that it stored what it did not.
LIARS = {
    "a record is lost": "s/^record 1 200 [0-9a-f]*/refused not-found/",
    "a write is acknowledged early": "s/^refused hardware @12/wrote 1 200 @12/",
}


class Tried(Tally):
    """Runs of the tools."""

    def __init__(self, program: Path, look: Path, folder: Path) -> None:
        super().__init__("cases")
        self.program, self.look, self.folder = program, look, folder
        self.script = folder / "script"
        self.script.write_bytes(script(["# a replacement", *REPLACEMENT]))

    def tool(self, name: str, *words: str, program: Path | None = None) -> Ended:
        return Program(TOP / "tools" / name).run(f"--program={program or self.program}", *FLASH.words, *words, self.script)


def sweeps(tried: Tried) -> None:
    done = tried.tool("sweep")
    tried.expect((done.status, done.replies[-1:]) == (0, ["104 cases, 0 wrong"]), f"sweep: {done}")
    for what, edit in LIARS.items():
        liar = tried.folder / "liar"
        liar.write_text(f'#!/bin/bash\nset -o pipefail\n{tried.program} "$@" | sed "{edit}"\n')
        liar.chmod(0o755)
        kept = tried.folder / "kept"
        keep = [f"--keep={kept}"] if shutil.which("strace") else []
        done = tried.tool("sweep", *keep, program=liar)
        tried.expect(done.status == 1 and "sweep: sim" in done.said, f"{what}: {done}")
        if keep:
            tried.expect((kept / "words").exists() and (kept / "script").exists(), f"{what}: nothing is kept")


def cuts(tried: Tried) -> None:
    """The images of tools/cut are those of the model, for each change and each tear."""
    for at in (0, 2, 5, 11, 12):
        for torn in range(4):
            path = tried.folder / f"cut-{at}-{torn}"
            done = tried.tool("cut", f"--at={at}", f"--torn={torn}", f"--image={path}")
            right = done.status == 0 and path.read_bytes() == cut_image(FLASH, REPLACEMENT, at, torn)
            tried.expect(right, f"cut {at} {torn}: {done}")
    tried.expect(tried.tool("cut", "--at=13", f"--image={tried.folder / 'none'}").status == 1, "a change that is none is cut")


def view_of(image: bytes) -> dict[str, Any]:
    """What the page has to say of an image, by the models."""
    seen = Shown(image).json()
    left, _ = booted(FLASH, image)
    size = FLASH.slot_size
    ended = [slot for slot in range(FLASH.slots) if image[slot * size : (slot + 1) * size] != left[slot * size : (slot + 1) * size]]
    records = [{name: it[name] for name in ("id", "generation", "bytes", "slots")} for it in seen["stored"]]
    return {"kinds": [slot["kind"] for slot in seen["slots"]], "records": records, "ended": ended}


def pages(tried: Tried, kept: Path | None) -> None:
    """The page of tools/explore says of each image what the models say."""
    done = tried.tool("explore", f"--look={tried.look}")
    if kept:
        kept.write_text(done.text)
    if done.status:
        tried.expect(False, f"explore: {done.said}")
        return
    text = done.text.partition('<script id="data" type="application/json">')[2].partition("</script>")[0]
    data = json.loads(text)
    behind = [FLASH.erased, *images_of(FLASH, REPLACEMENT)]
    counts = len(data["changes"]), len(data["behind"])
    tried.expect(counts == (len(behind) - 1, len(behind)), f"the page has {counts[0]} changes")
    for step, image in enumerate(behind):
        compare(tried, data["views"][data["behind"][step]], image, f"the page behind {step} changes")
    for at, change in enumerate(data["changes"]):
        for torn in range(4):
            image = cut_image(FLASH, REPLACEMENT, at, torn)
            compare(tried, data["views"][change["torn"][torn]], image, f"the page, change {at} torn {torn}")
    lines = [(line["replies"], line["step"]) for line in data["lines"]]
    tried.expect(lines == [(["wrote 1 128"], 6), (["wrote 1 200"], 13)], f"the page's lines are {lines}")
    tried.expect("http:" not in done.text and "https:" not in done.text, "the page names a place in a network")


def compare(tried: Tried, view: dict[str, Any], image: bytes, what: str) -> None:
    found = {"kinds": [slot["kind"] for slot in view["slots"]], "records": view["records"], "ended": view["ended"]}
    tried.expect(found == view_of(image), f"{what}: {found}, wanted {view_of(image)}")


def main(words: list[str]) -> int:
    parser = argparse.ArgumentParser(prog="tools/run tears")
    parser.add_argument("program", nargs="?", default=Program.of("apei").path, type=Path)
    parser.add_argument("look", nargs="?", default=Program.of("apei_look").path, type=Path)
    parser.add_argument("--page", type=Path)
    given = parser.parse_args(words)
    with scratch() as folder:
        tried = Tried(given.program.resolve(), given.look.resolve(), folder)
        sweeps(tried)
        if shutil.which("strace") and not subprocess.run(["strace", "-qq", "-o", os.devnull, "true"], check=False).returncode:
            cuts(tried)
            pages(tried, given.page)
        else:
            print("tears: cut and explore were not tried, since there is no strace here (a Debian package), or it may not trace")
    return tried.end()
