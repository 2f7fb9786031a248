"""Compares what the header, the archive's crate with its definitions, and the Rust crate say of statuses, faults and calls.

    tools/run statuses

A status and a kind of fault have one number in all of them. A call of the archive stands in all, with as many arguments.
"""

import re
import sys
from collections.abc import Iterator

from apei import TOP

HEADER = (TOP / "include/apei.h").read_text()
ARCHIVE = TOP / "crates/apei_c"
RUST = TOP / "rust/apei/src"
# What has another name in the header.
RENAMED = {
    "DONE": "OK",
    "NOTHING": "NONE",
    "SMALL_BUFFER": "SMALL",
    "UNKNOWN": "STATUS",
    "PROGRAM": "PROGRAM_FAULT",
    "BLOCK_NOT_PUBLISHED": "BLOCK_STATUS",
    "BLOCK_RAW_OFFSET": "BLOCK_RAW",
}
# The header's own: its calls look at pointers before they go on to the archive.
OF_THE_HEADER = {"POINTER"}
# What the types of the Rust crate rule out.
RULED_OUT = {"POINTER", "CLOSED", "OPEN", "WINDOW", "SHORT", "SOURCE_TYPE", "RESERVED", "PREALLOCATION", "CHOICE"}
# What the Rust crate does not offer.
LEFT_OUT = {"apei_c_erst_image"}

Numbers = dict[str, int]


def upper(name: str) -> str:
    """A name of Rust as the header writes it."""
    said = re.sub(r"(?<!^)(?=[A-Z])", "_", name).upper()
    return RENAMED.get(said, said)


def numbers(pattern: str, text: str) -> Numbers:
    """The names and numbers that a pattern finds, in the order that it has them in; no name twice."""
    found = [(it["name"], int(it["number"])) for it in re.finditer(pattern, text)]
    if len(dict(found)) != len(found):
        raise SystemExit(f"statuses: a name stands twice in {sorted(name for name, _ in found)}")
    return {upper(name) if name != name.upper() else name: number for name, number in found}


def between(text: str, first: str, last: str) -> str:
    _, found, rest = text.partition(first)
    if not found:
        raise SystemExit(f"statuses: there is no `{first}`")
    return rest.partition(last)[0]


def header_enum(name: str, prefix: str) -> Numbers:
    return numbers(rf"\b{prefix}(?P<name>\w+) = (?P<number>\d+)", between(HEADER, f"enum {name} {{", "\n};"))


def arguments(text: str) -> int:
    """The arguments between two parentheses."""
    said = text.strip().rstrip(",").strip()
    return said.count(",") + 1 if said else 0


def statuses() -> Iterator[tuple[str, Numbers, Numbers]]:
    """Where statuses and faults stand, with what they are there and what the header has of them."""
    wanted = header_enum("apei_status", "APEI_")
    told = {name: number for name, number in wanted.items() if name not in OF_THE_HEADER}
    yield "the crate's Status", numbers(r"(?P<name>\w+) = (?P<number>\d+),", between((ARCHIVE / "src/status.rt").read_text(), "enum Status {", "}")), told
    defined = (ARCHIVE / "specs/Statuses.antt").read_text()
    yield "number_of", numbers(r"number_of (?P<name>[A-Z]\w+) = (?P<number>\d+)", defined), told
    error = (RUST / "error.rs").read_text()
    answers = numbers(r"(?P<number>\d+) => Error::(?P<name>\w+)", re.sub(r"(\d+) => return Ok\(\(\)\)", r"\1 => Error::OK", error))
    constants = numbers(r"const (?P<name>[A-Z]+): u32 = (?P<number>\d+);", error)
    known = answers | constants
    yield "rust/apei", known, {name: number for name, number in wanted.items() if name in known or name not in RULED_OUT}
    faults = header_enum("apei_fault_kind", "APEI_FAULT_")
    check = (RUST / "check.rs").read_text()
    yield "rust/apei's FaultKind", numbers(r"(?P<number>\d+) => FaultKind::(?P<name>\w+)", check), faults
    parts = (TOP / "crates/item_parts/specs/Faults.antt").read_text()
    kinds = numbers(r"number_of_kind (?P<name>[A-Z]\w+) = (?P<number>\d+)", parts)
    # That of an item that is none is the archive's.
    yield "number_of_kind", kinds, {name: number for name, number in faults.items() if name != "ITEM"}


def calls() -> Iterator[tuple[str, Numbers, Numbers]]:
    """The calls of the archive and how many arguments they have, in each place."""
    wanted = {name: arguments(said) for name, said in re.findall(r"^uint32_t (apei_c_\w+)\(([^)]*)\);", HEADER, re.MULTILINE)}
    raw = {name: arguments(said) for name, said in re.findall(r"fn (apei_c_\w+)\(([^)]*)\)", (RUST / "raw.rs").read_text())}
    yield "raw.rs", raw, {name: many for name, many in wanted.items() if name not in LEFT_OUT}
    exports: Numbers = {}
    for path in sorted((ARCHIVE / "src").glob("*.rt")):
        for name, said in re.findall(r'pub extern "C" fn (apei_c_\w+)\(([^)]*)\)', path.read_text()):
            # A slice is a pointer and a length, and the allocator is no argument.
            exports[name] = arguments(said) + len(re.findall(r"&(?:mut )?\[", said)) - len(re.findall(r": Global\b", said))
    yield "the crate's exports", exports, wanted
    own = re.findall(r"^static inline enum apei_status (apei_\w+)\(", HEADER, re.MULTILINE)
    used = {name: 0 for name in re.findall(r"\b(apei_c_\w+)\(", HEADER[HEADER.rindex("#define APEI_ARE") :])}
    yield "the header's own calls", used, {name: 0 for name in wanted}
    if not own:
        raise SystemExit("statuses: the header has no calls")


def main(_: list[str]) -> int:
    wrong = count = 0
    for place, found, wanted in (*statuses(), *calls()):
        count += len(wanted)
        for name in sorted(found.keys() | wanted.keys()):
            if found.get(name) != wanted.get(name):
                wrong += 1
                print(f"{name}: {place} has {found.get(name, 'nothing')}, the header {wanted.get(name, 'nothing')}", file=sys.stderr)
    print(f"{count} numbers and calls, {wrong} wrong")
    return 1 if wrong else 0
