"""Has apei-show read records that Linux itself wrote, and compares its first line with the sentence that stands beside each.

    tools/run records [PROGRAM]

PROGRAM is the built apei-show, by default crates/apei_show/out/apei_show. A record is a file tests/records/NAME.bin, as Debian's kernel left it in the
store of QEMU's device (tests/qemu/records makes them), and NAME.sentence beside it is what is expected. Each record's fields are also those of the plain
reading, and its creator, its section type and its text are those of Linux.
"""

import json
import zlib
from collections.abc import Callable
from pathlib import Path

from apei import TOP, names
from apei.bytes import guid, number
from apei.facts import facts
from apei.harness import Program, Tally, given

RECORDS = TOP / "tests" / "records"


def has_panic(text: bytes) -> bool:
    return text.startswith(b"Panic#1 Part1\n") and b"Kernel panic - not syncing" in text


def has_check(body: bytes) -> bool:
    """The machine check that tests/qemu/records has QEMU raise: bank 4, with its status, address and mode."""
    values = [number(body, at, width) for at, width in ((65, 1), (0, 8), (16, 8), (8, 8))]
    return len(body) == 128 and values == [4, 0xBE00000000800134, 0x12345000, 0x86]


# What is in the section of each record, by the name that Linux has for its type.
CONTENTS: dict[str, Callable[[bytes], bool]] = {
    "CPER_SECTION_TYPE_DMESG": has_panic,
    "CPER_SECTION_TYPE_DMESG_Z": lambda body: has_panic(zlib.decompress(body, -15)),
    "CPER_SECTION_TYPE_MCE": has_check,
}


def faults_of(program: Program, path: Path) -> list[str]:
    record = path.read_bytes()
    body = record[number(record, 128, 4) :][: number(record, 132, 4)]
    kinds = facts().guids.get(guid(record, 144), set()) & set(CONTENTS)
    wrong = []
    if guid(record, 64) != names.LINUX or not all(CONTENTS[kind](body) for kind in kinds) or not kinds:
        wrong.append(f"{path.name} is not what Linux writes")
    wanted = path.with_suffix(".sentence").read_text(encoding="utf-8")
    if (said := program.run("--brief", path).text) != wanted:
        wrong.append(f"{path.name}: wanted {wanted!r}, found {said!r}")
    item = json.loads(program.run("--json", path).text)
    if item["kind"] != "record" or item.get("bad"):
        wrong.append(f"{path.name} is shown as {item['kind']}, bad {item.get('bad')}")
    return wrong


def main(words: list[str]) -> int:
    asked, tally = given(words, crate="apei_show"), Tally("records")
    for path in sorted(RECORDS.glob("*.bin")):
        tally.add(faults_of(asked.program, path))
    tally.expect(tally.cases >= 3, "a record of tests/records is missing")
    return tally.end()
