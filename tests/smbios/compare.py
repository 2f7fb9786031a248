#!/usr/bin/env python3
"""Has dmidecode and apei-show read the same SMBIOS tables, and compares what both say of each module, array and slot.

    tests/smbios/compare.py PROGRAM [TABLES] [SEED]

For each memory device of a table a record is made whose section names it by its handle, and its memory array as the card; for each system slot one of a
PCI Express error that names its number. What `apei-show --smbios` says of the part has to be what dmidecode says of the structure. The last line is
'N fields of M tables, K wrong'; the exit status is 0 where none is.
"""

import json
import os
import re
import shutil
import subprocess
import sys
import tempfile
from collections.abc import Iterator
from typing import Any

sys.path.insert(0, os.path.join(os.path.dirname(os.path.abspath(__file__)), "../../tools"))
import tables  # noqa: E402
from apei import frames, names  # noqa: E402
from apei.bytes import guid_bytes, number, spell  # noqa: E402
from apei.show import smbios  # noqa: E402

UNITS = {"kB": 1, "MB": 1 << 10, "GB": 1 << 20, "TB": 1 << 30}
# Words of dmidecode for a text that is not there.
NO_TEXT = ("Not Specified", "<BAD INDEX>")
TEXTS = {
    "Locator": "device locator",
    "Bank Locator": "bank locator",
    "Manufacturer": "manufacturer",
    "Serial Number": "serial number",
    "Part Number": "part number",
}
# DSP0134, 7.17.1, as dmidecode has it.
LOCATIONS = ["Other", "Unknown", "System Board Or Motherboard", "ISA Add-on Card", "EISA Add-on Card", "PCI Add-on Card", "MCA Add-on Card",
             "PCMCIA Add-on Card", "Proprietary Add-on Card", "NuBus"]


def decoded(path: str, kind: int) -> dict[int, dict[str, str]]:
    """What dmidecode says of the structures of a type, by their handles."""
    said = subprocess.run(["dmidecode", "--from-dump", path, "-t", str(kind)], stdout=subprocess.PIPE, text=True, check=True).stdout
    found: dict[int, dict[str, str]] = {}
    for part in said.split("\n\n"):
        head = re.match(rf"Handle (0x[0-9A-F]+), DMI type {kind}, ", part)
        if head:
            found[int(head[1], 16)] = dict(re.findall(r"^\t([^\t:]+): (.*)$", part, re.MULTILINE))
    return found


def size_of(text: str) -> int | None:
    if text == "No Module Installed":
        return 0
    match = re.fullmatch(r"(\d+) (kB|MB|GB|TB)", text)
    return int(match[1]) * UNITS[match[2]] if match else None


def speed_of(text: str) -> int | None:
    match = re.fullmatch(r"(\d+) MT/s", text)
    return int(match[1]) if match else None


def wanted_of_module(said: dict[str, str]) -> dict[str, Any]:
    wanted: dict[str, Any] = {ours: said[its] for its, ours in TEXTS.items() if said.get(its, NO_TEXT[0]) not in NO_TEXT}
    size, speed = size_of(said["Size"]), speed_of(said.get("Speed", "Unknown"))
    return wanted | ({} if size is None else {"size in KiB": size}) | ({} if speed is None else {"speed in MT/s": speed})


def wanted_of_array(said: dict[str, str]) -> dict[str, Any]:
    return {"memory array location": 1 + LOCATIONS.index(said["Location"]), "memory array sockets": int(said["Number Of Devices"])}


def memory_record(module: int, array: int) -> bytes:
    body = bytearray(80)
    body[:8], body[76:80] = spell(1 << 16 | 1 << 17, 8), spell(array, 2) + spell(module, 2)
    return frames.record_of(frames.Header(1), frames.Section(bytes(body), guid_bytes(names.MEMORY)))


def memory_record_2(module: int, array: int) -> bytes:
    body = bytearray(96)
    body[:8], body[88:96] = spell(1 << 18 | 1 << 19, 8), spell(array, 4) + spell(module, 4)
    return frames.record_of(frames.Header(1), frames.Section(bytes(body), guid_bytes(names.MEMORY_2)))


def slot_record(slot: int) -> bytes:
    body = bytearray(208)
    body[:8], body[37:39] = spell(1 << 3, 8), spell(slot << 3, 2)
    return frames.record_of(frames.Header(1), frames.Section(bytes(body), guid_bytes(names.PCIE)))


def cases_of(table: bytes, dump: str) -> Iterator[tuple[bytes, dict[str, Any]]]:
    """Records that name each part of a table, with what dmidecode says of it."""
    devices, arrays, slots = decoded(dump, 17), decoded(dump, 16), decoded(dump, 9)
    for it in smbios.structures(table):
        handle = number(it, 2, 2)
        if it[0] == 17:
            array = number(it, 4, 2)
            wanted = wanted_of_module(devices[handle]) | wanted_of_array(arrays[array])
            yield memory_record(handle, array), wanted
            yield memory_record_2(handle, array), wanted
        elif it[0] == 9:
            label = slots[handle].get("Designation", NO_TEXT[0])
            yield slot_record(number(it, 9, 2)), {} if label in NO_TEXT else {"slot designation": label}
    yield memory_record(0xFFEE, 0xFFEE), {"module": "no memory device has this module handle", "card": "no memory array has this card handle"}


def part_of(program: str, dump: str, folder: str, record: bytes) -> dict[str, Any]:
    path = os.path.join(folder, "record.bin")
    with open(path, "wb") as made:
        made.write(record)
    shown = subprocess.run([program, "--json", f"--smbios={dump}", path], stdout=subprocess.PIPE, check=True).stdout
    part = next(it for it in json.loads(shown)["groups"] if it["group"] == "part")
    return {name: it for name, it in part.items() if name not in ("offset", "group", "index", "guid")}


def wrong_of(program: str, table: bytes, is_64: bool, folder: str) -> Iterator[list[str]]:
    """For each field what is wrong of it."""
    dump = os.path.join(folder, "dump.bin")
    with open(dump, "wb") as made:
        made.write((smbios.entry_point_64 if is_64 else smbios.entry_point_32)(table, 32) + table)
    for record, wanted in cases_of(table, dump):
        found = part_of(program, dump, folder, record)
        # Of an empty socket dmidecode shows no more than its place.
        for name in wanted.keys() if wanted.get("size in KiB") == 0 else wanted.keys() | found.keys():
            is_wrong = found.get(name) != wanted.get(name)
            yield [f"{name}: {found.get(name)!r}, and dmidecode has {wanted.get(name)!r}"] if is_wrong else []


def main(words: list[str]) -> int:
    program, count, seed = words[0], int(words[1]) if len(words) > 1 else 40, int(words[2]) if len(words) > 2 else 1
    made = list(tables.of_qemu()) if shutil.which("qemu-system-x86_64") else []
    print(f"{len(made)} tables of QEMU", file=sys.stderr)
    made += [smbios.Drawn(seed + it).table() for it in range(count)]
    total = wrong = 0
    with tempfile.TemporaryDirectory() as folder:
        for at, table in enumerate(made):
            for fields in wrong_of(program, table, at % 2 == 1, folder):
                total, wrong = total + 1, wrong + len(fields)
                for text in fields:
                    print(f"table {at}: {text}", file=sys.stderr)
    print(f"{total} fields of {len(made)} tables, {wrong} wrong")
    return 1 if wrong else 0


if __name__ == "__main__":
    sys.exit(main(sys.argv[1:]))
