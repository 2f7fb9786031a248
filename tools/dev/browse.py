"""Opens the page of tools/explore in Debian's Chromium, moves its slider by the keyboard, and compares what it says with apei-look.

    tools/run browse [PROGRAM] [LOOK] [--picture FILE] [--narrow FILE]

PROGRAM and LOOK are the built programs. The script is a replacement and a clear. After each change, and with power lost in each change
with each tear, the letters of the cells, the records and the sentence of the page are compared with what LOOK says of that image. On a screen
400 pixels wide, with 32 slots, the records are where the slider is, and nothing goes past the screen's edge. With --picture the page after
twelve changes is left as a PNG, and with --narrow the one on the narrow screen.
"""

import argparse
import base64
import json
import os
import subprocess
from pathlib import Path
from typing import Any

from apei import TOP
from apei.flash import Geometry
from apei.harness import Program, Tally, image_file, scratch, script
from apei.looks import LETTERS, PER_SLOT, SECTOR
from apei.played import Change, Job, changes, images
from apei.scripts import REPLACEMENT

Json = dict[str, Any]
FLASH = Geometry(SECTOR, PER_SLOT, 6)
LINES = [*REPLACEMENT, "count", "clear 1"]
# What the page shows: the letters of its cells, its sentence, and the first column of its records.
READ = """JSON.stringify({letters: [...document.querySelectorAll(".cell .letter")].map(it => it.textContent).join(""),
  said: document.getElementById("say").textContent, told: document.getElementById("step").getAttribute("aria-valuetext"),
  records: [...document.querySelectorAll("#records th[scope=row]")].map(it => it.textContent)})"""


# Where the slider ends and the records begin, in pixels from the page's top, and how wide the page is.
PLACES = """JSON.stringify({slider: document.getElementById("step").getBoundingClientRect().bottom + scrollY,
  records: document.getElementById("records").getBoundingClientRect().bottom + scrollY,
  cells: document.getElementById("cells").getBoundingClientRect().top + scrollY, wide: document.documentElement.scrollWidth})"""
NARROW, HIGH = 400, 800
KEYS = {"ArrowRight": 39, "Home": 36}


class Browser:
    """Chromium without a window, told what to do through a pipe."""

    def __init__(self, folder: Path) -> None:
        ours, self.sink = os.pipe()
        self.source, theirs = os.pipe()
        words = ["chromium", "--headless", "--no-sandbox", "--disable-gpu", "--remote-debugging-pipe", "--window-size=1000,860"]
        words.append(f"--user-data-dir={folder}")
        command = f'exec "$@" 3<&{ours} 4>&{theirs}'
        self.process = subprocess.Popen(["bash", "-c", command, "bash", *words], pass_fds=(ours, theirs), stderr=subprocess.DEVNULL)
        os.close(ours)
        os.close(theirs)
        self.count, self.rest, self.session = 0, b"", ""
        target = self.call("Target.createTarget", url="about:blank")["targetId"]
        self.session = self.call("Target.attachToTarget", targetId=target, flatten=True)["sessionId"]

    def call(self, method: str, **given: Any) -> Json:
        self.count += 1
        message = {"id": self.count, "method": method, "params": given, **({"sessionId": self.session} if self.session else {})}
        os.write(self.sink, json.dumps(message).encode() + b"\0")
        while True:
            answer = json.loads(self.line())
            if answer.get("id") == self.count:
                if "error" in answer:
                    raise SystemExit(f"{method}: {answer['error']}")
                result: Json = answer["result"]
                return result

    def line(self) -> bytes:
        while b"\0" not in self.rest:
            data = os.read(self.source, 1 << 16)
            if not data:
                raise SystemExit("Chromium has ended")
            self.rest += data
        line, _, self.rest = self.rest.partition(b"\0")
        return line

    def evaluate(self, text: str) -> Any:
        return self.call("Runtime.evaluate", expression=text, awaitPromise=True)["result"].get("value")

    def open(self, path: Path) -> None:
        self.call("Page.enable")
        self.call("Page.navigate", url=path.as_uri())
        self.evaluate("new Promise(done => document.readyState === 'complete' ? done() : addEventListener('load', done))")

    def press(self, key: str) -> None:
        for kind in ("keyDown", "keyUp"):
            self.call("Input.dispatchKeyEvent", type=kind, key=key, code=key, windowsVirtualKeyCode=KEYS[key])

    def picture(self, path: Path) -> None:
        path.write_bytes(base64.b64decode(self.call("Page.captureScreenshot", format="png")["data"]))

    def end(self) -> None:
        self.process.terminate()
        self.process.wait()


def looked_at(look: Program, image: bytes) -> Json:
    with image_file(image) as path:
        seen = json.loads(look.run(f"--image={path}", *FLASH.words, "--json").text)
    return {"letters": "".join(LETTERS[slot["kind"]] for slot in seen["slots"]), "records": [it["id"] for it in seen["stored"]]}


def page_of(job: Job, look: Program, folder: Path) -> Path:
    """The page of tools/explore on a script."""
    lines, page = folder / "script", folder / "page.html"
    lines.write_bytes(job.script)
    explore = Program(TOP / "tools" / "explore")
    page.write_bytes(explore.run(f"--program={job.program.path}", f"--look={look.path}", *job.geometry.words, lines).written)
    return page


def differs(browser: Browser, wanted: Json, at: int, tear: int, made: list[Change]) -> list[str]:
    """What the page says of a state that is not so."""
    found = json.loads(browser.evaluate(READ))
    number = f"change {at}" if tear >= 0 else f"{at} of {len(made)} changes" if at < len(made) else f"All {at} changes"
    shown = {name: found[name] for name in ("letters", "records")}
    if shown == wanted and number in found["said"] and found["told"] == found["said"]:
        return []
    return [f"change {at}, tear {tear}: the page says {found}, apei-look {wanted}"]


def each_state(browser: Browser, look: Program, made: list[Change], picture: Path | None, tally: Tally) -> None:
    """After each change, and with each tear of it."""
    steps = images(FLASH, made)
    for tear in range(-1, 4):
        browser.evaluate(f"document.querySelector('input[name=tear][value=\"{tear}\"]').click()")
        browser.evaluate("document.getElementById('step').focus()")
        browser.press("Home")
        for at in range(len(made) + (tear < 0)):
            image = steps[at] if tear < 0 else made[at].torn(steps[at], tear)
            tally.add(differs(browser, looked_at(look, image), at, tear, made))
            if picture and (at, tear) == (12, -1):
                browser.picture(picture)
            browser.press("ArrowRight")


def on_narrow_screen(browser: Browser, page: Path, picture: Path | None, tally: Tally) -> None:
    """The result is on the screen that the slider is on."""
    browser.call("Emulation.setDeviceMetricsOverride", width=NARROW, height=HIGH, deviceScaleFactor=1, mobile=False)
    browser.open(page)
    browser.evaluate("document.getElementById('step').focus()")
    for _ in range(12):
        browser.press("ArrowRight")
    found = json.loads(browser.evaluate(PLACES))
    near = found["slider"] < found["records"] <= min(found["cells"], HIGH)
    tally.expect(near and found["wide"] <= NARROW, f"on a narrow screen: {found}")
    if picture:
        browser.picture(picture)


def main(words: list[str]) -> int:
    parser = argparse.ArgumentParser(prog="tools/run browse")
    parser.add_argument("program", nargs="?", default=Program.of("apei").path, type=Path)
    parser.add_argument("look", nargs="?", default=Program.of("apei_look").path, type=Path)
    parser.add_argument("--picture", type=Path)
    parser.add_argument("--narrow", type=Path)
    given = parser.parse_args(words)
    job, look = Job(Program(given.program.resolve()), script(LINES), FLASH), Program(given.look.resolve())
    _, made = changes(job)
    tally = Tally("states")
    with scratch() as folder:
        browser = Browser(folder / "profile")
        try:
            browser.open(page_of(job, look, folder))
            each_state(browser, look, made, given.picture, tally)
            wide = Job(job.program, job.script, Geometry(SECTOR, PER_SLOT, 32))
            on_narrow_screen(browser, page_of(wide, look, folder), given.narrow, tally)
        finally:
            browser.end()
    return tally.end()
