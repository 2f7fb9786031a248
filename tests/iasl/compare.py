#!/usr/bin/env python3
"""Has ACPICA's disassembler and apei-show read the same tables, and compares each field.

    tests/iasl/compare.py IASL PROGRAM [TABLES] [SEED]

IASL is the disassembler, PROGRAM the built apei-show; TABLES of each kind, 50 if it is not said, are drawn at random. Each field that IASL names has
to be one of apei-show's, at the same place in its entry, source or bank and with the same value, but reserved ones. The last line is
'N fields of M tables, K wrong'; the exit status is 0 if none is.
"""

import json
import os
import random
import re
import subprocess
import sys
import tempfile
from dataclasses import dataclass
from typing import Any, Iterator, Optional

sys.path.insert(0, os.path.join(os.path.dirname(os.path.abspath(__file__)), "../../tools"))
from apei.show import bodies  # noqa: E402

LINE = re.compile(r"\[[0-9A-F]+h (\d+) +(\d+)\] +(.*?) : (.*)")
# The standard's names by those of IASL; what is called reserved is left out.
NAMES = {
    "Signature": "signature",
    "Table Length": "length",
    "Revision": "revision",
    "Checksum": "checksum",
    "Oem ID": "OEM ID",
    "Oem Table ID": "OEM table ID",
    "Oem Revision": "OEM revision",
    "Asl Compiler ID": "creator ID",
    "Asl Compiler Revision": "creator revision",
    "Serialization Header Length": "serialization header size",
    "Instruction Entry Count": "instruction entry count",
    "Error Source Count": "error source count",
    "Boot Error Region Length": "boot error region length",
    "Boot Error Region Address": "boot error region",
    "Action": "serialization action",
    "Instruction": "instruction",
    "Flags (decoded below)": "flags",
    "Register Region": "register region",
    "Value": "value",
    "Mask": "mask",
    "Subtable Type": "type",
    "Source Id": "source ID",
    "Related Source Id": "related source ID",
    "Enabled": "enabled",
    "Records To Preallocate": "number of records to pre-allocate",
    "Max Sections Per Record": "max sections per record",
    "Max Raw Data Length": "max raw data length",
    "Global Capability Data": "global capability init data",
    "Global Control Data": "global control init data",
    "Num Hardware Banks": "number of hardware banks",
    "Bank Number": "bank number",
    "Clear Status On Init": "clear status on initialization",
    "Status Format": "status data format",
    "Control Register": "control register MSR address",
    "Control Data": "control init data",
    "Status Register": "status register MSR address",
    "Address Register": "address register MSR address",
    "Misc Register": "misc register MSR address",
    "Notify Type": "notification type",
    "Notify Length": "notification length",
    "Configuration Write Enable": "configuration write enable",
    "PollInterval": "poll interval",
    "Vector": "vector",
    "Polling Threshold Value": "switch to polling threshold value",
    "Polling Threshold Window": "switch to polling threshold window",
    "Error Threshold Value": "error threshold value",
    "Error Threshold Window": "error threshold window",
    "Bus": "bus",
    "Device": "device",
    "Function": "function",
    "DeviceControl": "device control",
    "Uncorrectable Mask": "uncorrectable error mask",
    "Uncorrectable Severity": "uncorrectable error severity",
    "Correctable Mask": "correctable error mask",
    "Advanced Capabilities": "advanced error capabilities and control",
    "Root Error Command": "root error command",
    "2nd Uncorrectable Mask": "secondary uncorrectable error mask",
    "2nd Uncorrectable Severity": "secondary uncorrectable error severity",
    "2nd Advanced Capabilities": "secondary advanced error capabilities and control",
    "Error Status Address": "error status address",
    "Error Status Block Length": "error status block length",
    "Read Ack Register": "read ack register",
    "Read Ack Preserve": "read ack preserve",
    "Read Ack Write": "read ack write",
}
REGISTER = {"Space ID": "space", "Bit Width": "width", "Bit Offset": "offset", "Encoded Access Width": "access", "Address": "address"}
BEGINS = {"Action": "entry", "Subtable Type": "source", "Bank Number": "bank"}
LAYOUTS = ("Register Region", "Error Status Address", "Read Ack Register")


@dataclass(frozen=True)
class Found:
    """A field that IASL names: the group or bank that has it begins at `begin`."""

    begin: int
    name: str
    member: Optional[str]
    value: Any


def fields(text: str) -> Iterator[Found]:
    """The fields of a disassembled table."""
    begin, register = 0, ""
    for line in text.splitlines():
        found = LINE.match(line)
        if not found or "Reserved" in found[3]:
            continue
        at, width, name, value = int(found[1]), int(found[2]), found[3], found[4]
        if name in BEGINS:
            begin = at
        if name in LAYOUTS:
            register = name
        elif name in REGISTER and width in (1, 8) and register:
            yield Found(begin, NAMES[register], REGISTER[name], int(value.split()[0], 16))
            register = "" if name == "Address" else register
        elif name != "Notify":
            text_ = re.match(r'"(.*)"', value)
            yield Found(begin, NAMES[name], None, text_[1] if text_ else int(value.split()[0], 16))


def plain(value: Any) -> Any:
    if isinstance(value, dict) and "value" in value:
        return value["value"]
    return int(value, 16) if isinstance(value, str) and value.startswith("0x") else value


def places(groups: list[dict[str, Any]]) -> dict[int, dict[str, Any]]:
    """apei-show's groups and banks by where their fields begin; those of the header and after it are both counted from the table's start."""
    found: dict[int, dict[str, Any]] = {}
    for group in groups:
        found[group["offset"]] = {**found.get(group["offset"], {}), **group}
    for group in groups:
        for bank in group.get("bank", []):
            found[bank["offset"]] = bank
    return found


def differs(found: Found, at: dict[int, dict[str, Any]]) -> Optional[str]:
    if found.begin not in at:
        return f"nothing begins at {found.begin}, where iasl has {found.name}"
    group = at[found.begin]
    value = group.get(found.name)
    value = plain(value.get(found.member)) if found.member and isinstance(value, dict) else plain(value)
    # Text is cut where the standard's ends, and iasl shows it as it stands.
    is_same = value.rstrip() == found.value.rstrip() if isinstance(value, str) and isinstance(found.value, str) else value == found.value
    return None if is_same else f"{found.name} {found.member or ''} of what begins at {found.begin}: {value}, iasl has {found.value}"


def disassembled(iasl: str, folder: str, table: bytes) -> str:
    path = os.path.join(folder, "table.bin")
    with open(path, "wb") as file:
        file.write(table)
    subprocess.run([iasl, "-d", path], capture_output=True, check=True)
    with open(os.path.join(folder, "table.dsl"), encoding="latin-1") as file:
        return file.read()


def tables(chance: bodies.Chance, count: int) -> Iterator[bytes]:
    for index in range(count):
        yield bodies.erst(chance)
        yield bodies.hest(chance, bodies.SOURCES if index == 0 else [chance.of.choice(bodies.SOURCES) for _ in range(chance.below(12))])
        yield bodies.bert(chance)


def main(words: list[str]) -> int:
    iasl, program = words[:2]
    count = int(words[2]) if len(words) > 2 else 50
    chance = bodies.Chance(random.Random(int(words[3]) if len(words) > 3 else 1))
    total = wrong = made = 0
    with tempfile.TemporaryDirectory() as folder:
        for table in tables(chance, count):
            said = list(fields(disassembled(iasl, folder, table)))
            shown = subprocess.run([program, "--json", os.path.join(folder, "table.bin")], stdout=subprocess.PIPE, check=True).stdout
            at = places(json.loads(shown)["groups"])
            differences = [it for it in (differs(found, at) for found in said) if it]
            total, wrong, made = total + len(said), wrong + len(differences), made + 1
            for text in differences[:5]:
                print(f"table {made - 1} ({table[:4].decode()}): {text}", file=sys.stderr)
    print(f"{total} fields of {made} tables, {wrong} wrong")
    return 1 if wrong else 0


if __name__ == "__main__":
    sys.exit(main(sys.argv[1:]))
