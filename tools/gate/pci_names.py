"""Has the script apei-show name PCI devices by a list, and compares with lspci.

    tools/run pci_names

A list with vendors, devices, subsystems and classes is made; records with devices that it has, that it has the vendor of, and that it lacks are shown
in each form. Without the lines, keys and ends that name the list, the output is the program's own to the byte. Where the machine has lspci and its
list, 3,000 numbers of that, and others beside them, have the names that lspci gives them.
"""

import itertools
import json
import os
import random
import re
import shlex
import shutil
from pathlib import Path
from typing import Any

from apei import TOP, names
from apei.bytes import spell
from apei.harness import Ended, Program, Tally, given, scratch
from apei.show import bodies
from pci_names import PLACES, List

LIST = """# A list.
# Syntax: vendor  vendor_name

1af4  Red Hat, Inc.
\t1000  Virtio network device
\t\t1af4 0001  A subsystem
\t\t8086 1001  Another
\t1001  Virtio "block" \\ device
# Between them.
8086  Intel
\t1001  A bridge
9999  \x1b[31mRed\x1b[0m \u00e9
\tabcd  Tab\there
C 01  Mass storage controller
\t01  IDE interface
"""
KNOWN = {
    ("1af4", "1000"): "Red Hat, Inc., Virtio network device",
    ("1af4", "1001"): 'Red Hat, Inc., Virtio "block" \\ device',
    ("1af4", "0001"): "Red Hat, Inc.",
    ("1af4", "01"): "Red Hat, Inc.",
    ("8086", "1001"): "Intel, A bridge",
    ("8086", "1000"): "Intel",
    ("9999", "abcd"): ".[31mRed.[0m é, Tab.here",
    ("9999", "0001"): ".[31mRed.[0m é",
    ("0001", "1000"): None,
    ("ffff", "ffff"): None,
}
FORMS: list[list[str]] = [[], ["--bytes"], ["--brief"], ["--json"], ["--color=always"], ["--brief", "--color=always"]]


class Named(Tally):
    """Runs of the script, and of the program alone, in a folder with a list."""

    def __init__(self, program: Program, folder: Path) -> None:
        super().__init__()
        self.program, self.folder = program, folder
        (folder / "a list").write_text(LIST, encoding="utf-8")

    def run(self, *words: str, **options: Any) -> Ended:
        return Program(TOP / "apei-show").run(*words, cwd=self.folder, **options)

    def plain(self, *words: str, **options: Any) -> Ended:
        return self.program.run(*words, cwd=self.folder, **options)


def section(kind: str, vendor: str, device: str, place: tuple[int, int, int, int], chance: bodies.Chance) -> tuple[str, bytes]:
    """A section of a device at a segment, bus, device and function, all of whose fields are valid."""
    make, at = (bodies.pcie, 24) if kind == names.PCIE else (bodies.pci_component, 16)
    body = bytearray(make(chance))
    body[:8] = (0xFF if kind == names.PCIE else 0x1F).to_bytes(8, "little")
    body[at : at + 4] = spell(int(vendor, 16), 2) + spell(int(device, 16), 2)
    segment, bus, number, function = place
    if kind == names.PCIE:
        body[31:36] = bytes([function, number]) + spell(segment, 2) + bytes([bus])
    else:
        body[23:27] = bytes([function, number, bus]) + spell(segment, 1)
    return kind, bytes(body)


def without(text: str) -> str:
    """An output without what the list added."""
    text = re.sub(r'^    \(a list: .*\)\n', "", text, flags=re.MULTILINE)
    text = re.sub(r' \(a list: [^\n]*\)$', "", text, flags=re.MULTILINE)
    return re.sub(r',"pci.ids":\{"file":"a list","vendor":(?:"(?:[^"\\]|\\.)*"),"device":(?:null|"(?:[^"\\]|\\.)*")\}', "", text)


def added(text: str) -> list[str]:
    return re.findall(r"\(a list: (.*)\)$", text, re.MULTILINE)


def forms(named: Named, chance: bodies.Chance) -> None:
    """Each device in some forms, alone, beside others, and on standard input: each form with each of these."""
    turns = itertools.cycle(itertools.product(FORMS, (["record"], ["others", "record"], ["-"])))
    memory = (names.MEMORY, bodies.memory(chance))
    (named.folder / "others").write_bytes(bodies.record(chance, memory))
    for (vendor, device), name in KNOWN.items():
        if len(device) < 4:
            continue
        for kind in (names.PCIE, names.PCI_COMPONENT):
            record = bodies.record(chance, section(kind, vendor, device, (0, 0x3B, 1, 2), chance), memory)
            (named.folder / "record").write_bytes(record + record)
            for form, files in itertools.islice(turns, 7):
                data = record if files == ["-"] else b""
                done, plain = named.run("--pci-ids=a list", *form, *files, given=data), named.plain(*form, *files, given=data)
                count = (1 if files == ["-"] else 2) if name else 0
                told = [it for line in done.replies for it in told_in(line)] if "--json" in form else added(done.text)
                is_right = told == [name] * count or "--brief" in form and told == []
                fits = done.status == plain.status == 0 and without(done.text) == plain.text and not done.said
                named.expect(is_right and fits, f"{vendor}:{device} in {form}, {files}: {told}, wanted {name}, {done.text[:300]}")


def told_in(line: str) -> list[str]:
    """The names in a line of JSON."""
    found = [group["pci.ids"] for group in json.loads(line)["groups"] if "pci.ids" in group]
    return [it["vendor"] + (f", {it['device']}" if it["device"] else "") for it in found]


def sentences(named: Named, chance: bodies.Chance) -> None:
    """The end of a line is of the device that the sentence names; where two are at its place, there is none."""
    def told(*sections: tuple[str, bytes]) -> str:
        (named.folder / "record").write_bytes(bodies.record(chance, *sections))
        return named.run("--pci-ids=a list", "--brief", "record").text

    first, same, next_one = (section(names.PCIE, *device, (0, 0x3B, 0, function), chance)
                             for *device, function in (("8086", "1001", 0), ("1af4", "1000", 0), ("1af4", "1000", 1)))
    by_place = {"0000:3b:00.0": ["Intel, A bridge"], "0000:3b:00.1": ["Red Hat, Inc., Virtio network device"]}
    for sections in ((first,), (first, next_one), (next_one, first), (next_one,)):
        for _ in range(3):
            text = told(*sections)
            wanted = next((name for place, name in by_place.items() if place in text), None)
            named.expect(added(text) == wanted, f"devices at two places: {text}")
    named.expect(added(told(first, same)) == [], "two devices at one place")
    great = bodies.record(chance, first)
    (named.folder / "great").write_bytes(great * ((1 << 22) // len(great) + 1))
    done = named.run("--pci-ids=a list", "--brief", "great")
    named.expect(done.status == 0 and not added(done.text), "a great file is read twice")


def lists(named: Named, chance: bodies.Chance) -> None:
    """Lists that can't be read, that are none, and files that need none."""
    (named.folder / "record").write_bytes(bodies.record(chance, section(names.PCIE, "1af4", "1000", (0, 1, 2, 3), chance)))
    (named.folder / "no list").write_bytes(bytes(range(256)) * 99)
    for path, status, said in (("none", 5, "apei-show: none: No such file or directory\n"), (".", 5, "apei-show: .: Is a directory\n"), ("no list", 0, "")):
        for file in ("record", "others"):
            done, plain = named.run(f"--pci-ids={path}", file), named.plain(file)
            named.expect((done.status, done.text, done.said) == (status, plain.text, said), f"--pci-ids={path} {file}: {done}")
    done = named.run("--pci-ids=", "record")
    named.expect(done.status == 1 and "--pci-ids=: a path is missing" in done.said, f"{done}")
    own = next((it for it in PLACES if os.path.exists(it)), None)
    shown = named.run("record").text
    named.expect((f"    ({own}: " in shown) if own else shown == named.plain("record").text, f"the machine's own list: {shown}")


def oracle(named: Named, chance: random.Random) -> None:
    """What lspci has for numbers of the machine's list, and for others."""
    place = next((it for it in PLACES if os.path.exists(it)), None)
    if not place or not shutil.which("lspci"):
        print("pci_names: there is no lspci or no pci.ids here (Debian's pciutils and pci.ids), so nothing was compared with it")
        return
    vendor, pairs = "", list[tuple[str, str]]()
    for line in Path(place).read_text(encoding="utf-8", errors="replace").splitlines():
        if re.match(r"[0-9a-f]{4}  ", line):
            vendor = line[:4]
            pairs.append((vendor, f"{chance.randrange(1 << 16):04x}"))
        elif re.match(r"\t[0-9a-f]{4}  ", line):
            pairs.append((vendor, line[1:5]))
    some = chance.sample(pairs, 3000) + [(f"{chance.randrange(1 << 16):04x}", f"{chance.randrange(1 << 16):04x}") for _ in range(500)]
    some = [it for it in some if it[0] not in ("ffff", "0000")]
    found = List(place)
    wanted = by_lspci(named.folder, place, some)
    for pair in some:
        device = found.device(*pair)
        ours = (device.vendor if device else f"Vendor {pair[0]}", device.device if device and device.device else f"Device {pair[1]}")
        named.expect(ours == wanted.get(pair), f"{pair}: {ours}, lspci has {wanted.get(pair)}")


def by_lspci(folder: Path, place: str, pairs: list[tuple[str, str]]) -> dict[tuple[str, str], tuple[str, str]]:
    """The names that lspci has, of a dump with a device for each pair."""
    slots = [f"{at >> 8:02x}:{at >> 3 & 31:02x}.{at & 7}" for at in range(len(pairs))]
    dump = ""
    for slot, (vendor, device) in zip(slots, pairs):
        head = [vendor[2:], vendor[:2], device[2:], device[:2], *["00"] * 12]
        dump += f"{slot} A device\n00: {' '.join(head)}\n" + "".join(f"{row:02x}: {' '.join(['00'] * 16)}\n" for row in (16, 32, 48)) + "\n"
    (folder / "dump").write_text(dump)
    done = Program(Path("lspci")).run("-mm", "-i", place, "-F", folder / "dump")
    rows = {row[0]: (row[2], row[3]) for row in (shlex.split(line) for line in done.replies)}
    return {pair: rows[slot] for slot, pair in zip(slots, pairs) if slot in rows}


def main(words: list[str]) -> int:
    asked = given(words, crate="apei_show")
    with scratch() as folder:
        named = Named(asked.program, folder)
        chance = bodies.Chance(asked.chance)
        found = List(str(folder / "a list"))
        for pair, name in KNOWN.items():
            device = found.device(*pair)
            named.expect((device.text if device else None) == name, f"{pair}: {device}, wanted {name}")
        forms(named, chance)
        sentences(named, chance)
        lists(named, chance)
        oracle(named, asked.chance)
        return named.end()
