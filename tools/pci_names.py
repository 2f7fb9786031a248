"""Names of PCI vendors and devices, which the list pci.ids has, beside what apei-show says of a section.

The program shows the numbers of vendor and device. The script adds a line below them, a key behind them in JSON, and with --brief an end of the
line, each of which says that it is of the list.
"""

import json
import os
import re
from collections.abc import Iterator
from typing import Any, NamedTuple, Optional

# The types of the sections that have a vendor and a device.
PCI_EXPRESS = "d995e954-bbc1-430f-ad91-b44dcb3c6f35"
PCI_COMPONENT = "eb5e4685-ca66-4769-b6a2-26068b001326"
TYPES = PCI_EXPRESS, PCI_COMPONENT
# Where distributions put the list.
PLACES = "/usr/share/misc/pci.ids", "/usr/share/hwdata/pci.ids"
# The most bytes of a list.
MOST = 1 << 26
NUMBERS = re.compile(rb'"vendor ID":"0x([0-9a-f]{4})","device ID":"0x([0-9a-f]{4})"')
NUMBER = re.compile(rb"    (?:\[\d+\] )?(vendor|device) ID: 0x([0-9a-f]{4})\n")
HEADING = re.compile(rb"  section \d+ .*(?:" + "|".join(TYPES).encode() + rb")\n")
PLACE = "segment number", ("primary bus number", "bus number"), "device number", "function number"


class Device(NamedTuple):
    """What the list calls a vendor and its device; nothing where it does not have the device."""

    vendor: str
    device: str

    @property
    def text(self) -> str:
        return f"{self.vendor}, {self.device}" if self.device else self.vendor


class List:
    """The list pci.ids: a line for each vendor, and below it one for each device, behind a tab."""

    def __init__(self, path: str) -> None:
        self.path = path
        with open(path, "rb") as file:
            self.text = "\n" + file.read(MOST).decode("utf-8", "replace")
        self.found: dict[tuple[str, str], Optional[Device]] = {}

    def device(self, vendor: str, device: str) -> Optional[Device]:
        """The names for two numbers of four digits; None where the list does not have the vendor."""
        if (vendor, device) not in self.found:
            self.found[vendor, device] = self.search(vendor, device)
        return self.found[vendor, device]

    def search(self, vendor: str, device: str) -> Optional[Device]:
        found = re.compile(rf"\n{vendor}  (.*)").search(self.text)
        if not found:
            return None
        behind = re.compile(r"\n[^\t#\n]").search(self.text, found.end())
        below = re.compile(rf"\n\t{device}  (.*)").search(self.text, found.end(), behind.start() if behind else len(self.text))
        return Device(printable(found[1]), printable(below[1]) if below else "")


def printable(text: str) -> str:
    return "".join(it if it.isprintable() else "." for it in text.strip())


def list_at(path: Optional[str]) -> Optional[List]:
    """The list of a path, or the machine's own where there is no path; None where the machine has none."""
    found = path or next((it for it in PLACES if os.access(it, os.R_OK)), None)
    return List(found) if found else None


class Beside:
    """The lines of the output, with the names of the list beside the numbers."""

    def __init__(self, names: List, options: dict[str, Optional[str]], items: Iterator[dict[str, Any]]) -> None:
        self.names, self.items = names, items
        self.change = self.json_line if "--json" in options else self.brief_line if "--brief" in options else self.text_line
        self.is_section, self.vendor = False, ""

    def line(self, line: bytes) -> bytes:
        return self.change(line)

    def json_line(self, line: bytes) -> bytes:
        return NUMBERS.sub(self.with_key, line)

    def with_key(self, found: "re.Match[bytes]") -> bytes:
        device = self.names.device(found[1].decode(), found[2].decode())
        if not device:
            return found[0]
        said = {"file": self.names.path, "vendor": device.vendor, "device": device.device or None}
        return found[0] + b',"pci.ids":' + json.dumps(said, ensure_ascii=False, separators=(",", ":")).encode()

    def text_line(self, line: bytes) -> bytes:
        if not line.startswith(b"    "):
            self.is_section, self.vendor = HEADING.fullmatch(line) is not None, ""
        found = NUMBER.fullmatch(line) if self.is_section else None
        if not found:
            return line
        if found[1] == b"vendor":
            self.vendor = found[2].decode()
            return line
        device = self.names.device(self.vendor, found[2].decode())
        return line + f"    ({self.names.path}: {device.text})\n".encode() if device else line

    def brief_line(self, line: bytes) -> bytes:
        """A line for each item: those of the same files, once more."""
        item = next(self.items, None)
        found = {it.text for it in self.devices_of(item)} if item else set()
        return line.rstrip(b"\n") + f" ({self.names.path}: {found.pop()})\n".encode() if len(found) == 1 else line

    def devices_of(self, item: dict[str, Any]) -> Iterator[Device]:
        """The devices at the place that the sentence of an item names."""
        for group in item["groups"]:
            place = place_of(group)
            if place and place in item["summary"] and "vendor ID" in group:
                device = self.names.device(group["vendor ID"][2:], group["device ID"][2:])
                if device:
                    yield device


def place_of(group: dict[str, Any]) -> Optional[str]:
    """The place of a section's device, as the sentence has it: segment, bus, device and function."""
    names = [next((it for it in ((name,) if isinstance(name, str) else name) if it in group), None) for name in PLACE]
    if group.get("guid") not in TYPES or None in names:
        return None
    segment, bus, device, function = (group[name] for name in names if name)
    return f"{segment:04x}:{bus:02x}:{device:02x}.{function:x}"
