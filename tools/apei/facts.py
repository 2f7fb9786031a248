"""What foreign sources say of the standards, as tests/facts/facts.txt keeps it, and the GUIDs that stand in a text of ours."""

import re
import uuid
from collections.abc import Iterator
from dataclasses import dataclass, field
from functools import cache

from apei import TOP

FACTS = TOP / "tests" / "facts" / "facts.txt"
GUID = "[0-9a-f]{8}-(?:[0-9a-f]{4}-){3}[0-9a-f]{12}"
BYTE = r"0[xX][0-9a-fA-F]{2}\b"


@dataclass(frozen=True)
class Place:
    """A member of a structure: where it begins and how long it is, in bytes, or in bits of a number."""

    at: int
    size: int
    in_bits: bool = False


@dataclass
class Facts:
    """The facts of all sources. A name may stand in more than one source: then all of them have to say the same."""

    guids: dict[str, set[str]] = field(default_factory=dict)
    numbers: dict[str, set[int]] = field(default_factory=dict)
    masks: dict[str, tuple[int, int]] = field(default_factory=dict)
    members: dict[str, Place] = field(default_factory=dict)
    sizes: dict[str, int] = field(default_factory=dict)
    texts: dict[str, dict[str, str]] = field(default_factory=dict)

    def add(self, kind: str, name: str, rest: str) -> None:
        if kind == "guid":
            self.guids.setdefault(rest, set()).add(name)
        elif kind == "number":
            self.numbers.setdefault(name, set()).add(int(rest, 0))
        elif kind == "size":
            self.sizes[name] = int(rest)
        elif kind == "text":
            index, text = rest.split(" ", 1)
            self.texts.setdefault(name, {})[index] = text
        elif kind in ("field", "bits", "mask"):
            at, size = (int(it) for it in rest.split())
            self.members[name] = Place(at, size, kind != "field")


@cache
def facts() -> Facts:
    found = Facts()
    for line in FACTS.read_text(encoding="utf-8").splitlines():
        kind, name, *rest = line.split(" ", 2)
        if kind not in ("#", "file", "malformed"):
            found.add(kind, name, rest[0])
    return found


# The forms in which a GUID stands in a text, each with how its sixteen bytes are read.
def of_bytes(found: str) -> str:
    return str(uuid.UUID(bytes_le=bytes(int(it, 16) for it in re.findall(BYTE, found))))


def of_digits(found: str) -> str:
    return str(uuid.UUID(bytes_le=bytes.fromhex(found)))


def of_numbers(found: str) -> str:
    first, second, third, *rest = (int(it, 16) for it in re.findall("0[xX][0-9a-fA-F]+", found))
    return str(uuid.UUID(bytes=first.to_bytes(4, "big") + second.to_bytes(2, "big") + third.to_bytes(2, "big") + bytes(rest)))


FORMS = {
    "text": (re.compile(rf"(?i)(?<![0-9a-f-])({GUID})(?![0-9a-f-])"), str.lower),
    "bytes behind commas": (re.compile(rf"[\[({{]\s*({BYTE}(?:\s*,\s*{BYTE}){{15}})\s*,?\s*[\])}}]"), of_bytes),
    "bytes of a list": (re.compile(rf"(?<![∷\s])\s+({BYTE}(?:\s*∷\s*{BYTE}){{15}})\s*∷\s*\[\]"), of_bytes),
    "digits": (re.compile(r"[\"']([0-9a-f]{32})[\"']"), of_digits),
    "numbers": (re.compile(r"GUID_INIT\(\s*(0[xX][0-9a-fA-F]+(?:\s*,\s*0[xX][0-9a-fA-F]+){10})\s*\)"), of_numbers),
}


@dataclass(frozen=True)
class Found:
    """A GUID in a text: its form, where it begins and ends, and what it is."""

    form: str
    start: int
    end: int
    guid: str


def guids_in(text: str) -> Iterator[Found]:
    for form, (pattern, read) in FORMS.items():
        for found in pattern.finditer(text):
            yield Found(form, found.start(1), found.end(1), read(found[1]))
