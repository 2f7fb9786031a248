"""Compares GUIDs, numbers, names and places of the sources with what Linux, ACPICA and EDK2 say of them.

    tools/run facts

tests/facts/facts.txt keeps what they say: tests/facts/extract.py reads it out of their sources. Each GUID of a source file has to be one of theirs, and
to have their name for it; a few that none of them has are listed here, and in tests/facts/README.md too. Where the foreign sources were fetched
(tests/facts/fetch), they are read once more, and have to say what is kept. Then one byte is exchanged for another in a GUID of each form, which has to be
found.
"""

import os
import re
import subprocess
from collections.abc import Iterator
from dataclasses import replace
from pathlib import Path

from apei import TOP, foreign
from apei.facts import FACTS, FORMS, Found, facts, guids_in
from apei.harness import Tally
from apei.rows import Row, all_rows

SKIPPED = {"out", "target", ".git", "__pycache__"}
# The names that foreign sources have for ours, which may be written in any case and with any signs between the words.
NAMES = {
    "corrected machine check": "CPER_NOTIFY_CMC",
    "corrected platform error": "CPER_NOTIFY_CPE",
    "machine check exception": "CPER_NOTIFY_MCE",
    "pci express error": "CPER_NOTIFY_PCIE",
    "init": "CPER_NOTIFY_INIT",
    "non-maskable interrupt": "CPER_NOTIFY_NMI",
    "boot": "CPER_NOTIFY_BOOT",
    "dma remapping error": "CPER_NOTIFY_DMAR",
    "synchronous external abort": "EFI_EVENT_NOTIFICATION_TYPE_DMAR_SEA",
    "serror interrupt": "EFI_EVENT_NOTIFICATION_TYPE_DMAR_SEI",
    "platform error interrupt": "EFI_EVENT_NOTIFICATION_TYPE_DMAR_PEI",
    "processor generic": "CPER_SEC_PROC_GENERIC",
    "processor": "CPER_SEC_PROC_GENERIC",
    "ia32/x64 processor": "CPER_SEC_PROC_IA",
    "ia32 processor": "CPER_SEC_PROC_IA",
    "ia32": "CPER_SEC_PROC_IA",
    "arm processor": "CPER_SEC_PROC_ARM",
    "arm": "CPER_SEC_PROC_ARM",
    "platform memory": "CPER_SEC_PLATFORM_MEM",
    "memory error": "CPER_SEC_PLATFORM_MEM",
    "memory": "CPER_SEC_PLATFORM_MEM",
    "platform memory 2": "EFI_ERROR_SECTION_PLATFORM_MEMORY2_GUID",
    "memory error 2": "EFI_ERROR_SECTION_PLATFORM_MEMORY2_GUID",
    "memory 2": "EFI_ERROR_SECTION_PLATFORM_MEMORY2_GUID",
    "pci express": "CPER_SEC_PCIE",
    "pcie": "CPER_SEC_PCIE",
    "firmware error record reference": "CPER_SEC_FW_ERR_REC_REF",
    "firmware record": "CPER_SEC_FW_ERR_REC_REF",
    "firmware": "CPER_SEC_FW_ERR_REC_REF",
    "pci/pci-x bus": "CPER_SEC_PCI_X_BUS",
    "pci bus": "CPER_SEC_PCI_X_BUS",
    "pci component": "CPER_SEC_PCI_DEV",
    "cxl protocol error": "CPER_SEC_CXL_PROT_ERR",
    "cxl protocol": "CPER_SEC_CXL_PROT_ERR",
    "cxl general media event": "CPER_SEC_CXL_GEN_MEDIA_GUID",
    "cxl media": "CPER_SEC_CXL_GEN_MEDIA_GUID",
    "cxl dram event": "CPER_SEC_CXL_DRAM_GUID",
    "cxl dram": "CPER_SEC_CXL_DRAM_GUID",
    "cxl memory module event": "CPER_SEC_CXL_MEM_MODULE_GUID",
    "cxl module": "CPER_SEC_CXL_MEM_MODULE_GUID",
    "dmar generic": "CPER_SEC_DMAR_GENERIC",
    "dma remapping": "CPER_SEC_DMAR_GENERIC",
    "dmar": "CPER_SEC_DMAR_GENERIC",
    "intel vt for directed i/o": "CPER_SEC_DMAR_VT",
    "directed io": "CPER_SEC_DMAR_VT",
    "vtd": "CPER_SEC_DMAR_VT",
    "iommu": "CPER_SEC_DMAR_IOMMU",
    "cache check": "INFO_ERR_STRUCT_TYPE_CACHE",
    "tlb check": "INFO_ERR_STRUCT_TYPE_TLB",
    "bus check": "INFO_ERR_STRUCT_TYPE_BUS",
    "ms check": "INFO_ERR_STRUCT_TYPE_MS",
    "linux": "CPER_CREATOR_PSTORE",
    "machine check": "CPER_SECTION_TYPE_MCE",
    "linux machine check": "CPER_SECTION_TYPE_MCE",
    "kernel log": "CPER_SECTION_TYPE_DMESG",
    "linux kernel log": "CPER_SECTION_TYPE_DMESG",
    "linux dmesg": "CPER_SECTION_TYPE_DMESG",
    "dmesg": "CPER_SECTION_TYPE_DMESG",
    "packed log": "CPER_SECTION_TYPE_DMESG_Z",
    "linux kernel log, packed": "CPER_SECTION_TYPE_DMESG_Z",
}
# GUIDs that none of the foreign sources has, by the clause that does. tests/facts/README.md lists the same.
ALONE = {
    "e429faf1-3cb7-11d4-bca7-0080c73c8881": "UEFI 2.8, N.2.2",
    "91335ef6-ebfb-4478-a6a6-88b728cf75d7": "UEFI 2.8, N.2.12",
}
# GUIDs that stand for any others: none of them is of a standard.
MADE_UP = {
    "00000000-0000-0000-0000-000000000000",
    "00112233-4455-6677-8899-aabbccddeeff",
    "03020100-0504-0706-0809-0a0b0c0d0e0f",
}
# What stands between a GUID and its name, behind it or in front of it; and in a row of what stands inside a structure, whose name is further in front.
BEHIND = re.compile(r'"?\)?,?\s*(?:name: |kind: \w+::|codes |: \(|then Some \(codes )*"?([A-Za-z][\w/, -]*)')
BEFORE = re.compile(r'(?<!, )\b(\w+)(?:: [^=\n]*)?\s*=\s*(?:codes )?[b"\'\[\s]*$')
INSIDE = re.compile(r'(?:name: |inside \(codes )"([^"]*)"[^"]*?(?:text: b|guid_sign \d+ \(codes )"$')
CODE = {".rt", ".antt", ".py", ".c", ".h"}


def letters(name: str) -> str:
    return re.sub("[^a-z0-9]", "", name.lower())


BY_LETTERS = {letters(name): foreign for name, foreign in NAMES.items()}


def name_beside(text: str, found: Found) -> str | None:
    """The name that a text gives a GUID, where it is one that has to be known."""
    before = text[max(0, found.start - 150) : found.start]
    name = INSIDE.search(before) or BEFORE.search(before) or (BEHIND.match(text[found.end : found.end + 90]) if found.form == "text" else None)
    return name[1] if name and letters(name[1]) in BY_LETTERS else None


def fault_of(text: str, found: Found) -> str | None:
    """What is wrong with a GUID of a text."""
    foreign = facts().guids.get(found.guid)
    name = name_beside(text, found)
    if foreign is None:
        return None if found.guid in ALONE or found.guid in MADE_UP else "is in no foreign source"
    if name and BY_LETTERS[letters(name)] not in foreign:
        return f"is {', '.join(sorted(foreign))}, and not {name}"
    return None


def sources() -> Iterator[tuple[Path, str]]:
    """The files that are text, without what was built or fetched."""
    for folder, folders, names in os.walk(TOP):
        folders[:] = sorted(set(folders) - SKIPPED)
        for path in sorted(Path(folder) / name for name in names):
            try:
                if path != FACTS:
                    yield path, path.read_text(encoding="utf-8")
            except UnicodeDecodeError:
                continue


def exchanged(text: str, found: Found) -> str:
    """The text with the last two bytes of a GUID that differ exchanged."""
    pairs = [(it.start() + found.start, it[0]) for it in re.finditer("[0-9a-fA-F]{2}", text[found.start : found.end])]
    (first, one), (second, other) = next(it for it in reversed(list(zip(pairs, pairs[1:]))) if it[0][1] != it[1][1])
    return text[:first] + other + text[first + 2 : second] + one + text[second + 2 :]


def faults_in(text: str) -> Iterator[tuple[int, str, str | None]]:
    """The GUIDs of a text, each with its line, and what is wrong with it."""
    for found in guids_in(text):
        yield text.count("\n", 0, found.start) + 1, found.guid, fault_of(text, found)


def look_at_guids(tally: Tally) -> None:
    forms: dict[str, tuple[Path, str, Found]] = {}
    for path, text in sources():
        for line, guid, fault in faults_in(text):
            tally.expect(fault is None, f"{path.relative_to(TOP)}:{line}: {guid} {fault}")
        if path.suffix in CODE and path.name != "facts.py":
            forms.update({found.form: (path, text, found) for found in guids_in(text) if found.guid in facts().guids})
    for form in FORMS:
        path, text, found = forms[form]
        faults = [fault for _, _, fault in faults_in(exchanged(text, found)) if fault]
        tally.expect(len(faults) == 1, f"two bytes exchanged in the GUID {found.guid} of {path} ({form}) are not found")


def others_of(row: Row) -> Iterator[Row]:
    """Rows of the same name that say something else, in each thing that is compared."""
    compared = foreign.compared(row)
    if "bit" in compared:
        yield replace(row, bit=0 if row.bit is None else None)
    for word in sorted(compared):
        if (number := getattr(row, word)) is not None:
            yield replace(row, **{word: number + 1})


def names_in(rows: list[Row], folder: str) -> set[tuple[str, str]]:
    """The rows of the tables of a folder, without lists of registers, which definitions write otherwise."""
    return {(row.table, row.name) for row in rows if row.file.startswith(folder) and not row.table.startswith(("aarch", "crates/"))}


def look_at_rows(tally: Tally) -> None:
    """Each row says what its foreign facts say, and another would not. None is overlooked: code and definitions have the same ones."""
    rows = all_rows()
    for row in rows:
        tally.add(foreign.faults_of(row))
    tally.add(foreign.unknown(rows))
    only = names_in(rows, "crates/field_lines/src/") ^ names_in(rows, "crates/field_lines/specs/")
    tally.expect(not only, f"not both code and definitions of field_lines have {sorted(only)[:5]}")
    for other in (other for row in rows for other in others_of(row)):
        tally.expect(bool(foreign.faults_of(other)), f"this row would not be found: {other}")


def look_at_list(tally: Tally) -> None:
    """The list of tests/facts/README.md is the tool's."""
    section = re.sub(r"\n +", " ", (TOP / "tests" / "facts" / "README.md").read_text(encoding="utf-8"))
    items = re.finditer(r"^- (`[^`]+`(?:, `[^`]+`)*) \(([^)]*)\)", section, re.M)
    listed = {(name, item[2]) for item in items for name in re.findall("`([^`]+)`", item[1])}
    for name, clause in listed ^ {*ALONE.items(), *foreign.alone().items()}:
        tally.add([f"tests/facts/README.md and tools/gate/facts.py do not both list {name} ({clause}) as compared with nothing foreign"])


def main(words: list[str]) -> int:
    del words
    tally = Tally("facts")
    look_at_guids(tally)
    look_at_rows(tally)
    look_at_list(tally)
    if subprocess.run([TOP / "tests/facts/fetch", "--there"], check=False).returncode == 0:
        extracted = subprocess.run([TOP / "tests/facts/extract.py", "--check"], check=False, stdout=subprocess.PIPE)
        tally.expect(extracted.returncode in (0, 77), "the foreign sources say other facts than tests/facts/facts.txt keeps")
    return tally.end()
