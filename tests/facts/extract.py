#!/usr/bin/env python3
"""Reads what foreign sources say of the standards, and writes it as facts.txt beside this file, or compares it with it.

    tests/facts/extract.py [--check]

The sources are those that `fetch` beside it leaves in ../linux/out/kernel and in out/edk2. A fact is what c_facts.py says; a line `file` before facts
names the source, its version and the file that they are from. With --check nothing is written, and the status is 1 if another fact is extracted
than is kept. Without a C compiler and readelf the status is 77.
"""

import re
import shutil
import sys
from collections.abc import Iterator
from dataclasses import dataclass
from pathlib import Path

sys.path.insert(0, str(Path(__file__).resolve().parent))
from c_facts import Layouts, Numbers, guids, numbers, plain, texts  # noqa: E402

HERE = Path(__file__).resolve().parent
FACTS = HERE / "facts.txt"
LINUX = HERE.parent / "linux" / "out" / "kernel"
ENVIRONMENT = HERE.parent / "linux" / "cper"
EDK2 = HERE / "out" / "edk2"


@dataclass(frozen=True)
class Source:
    """Files of one version of a program: its name, its folder, the files that are read, each with the beginnings of the names that are of use, and how
    a program that includes the headers is compiled."""

    name: str
    folder: Path
    files: dict[str, str]
    program: str
    words: tuple[str, ...]


SOURCES = [
    Source(
        "Linux 6.12.117",
        LINUX,
        {
            "include/linux/cper.h": "CPER_|cper_",
            "drivers/firmware/efi/cper.c": "",
            "drivers/firmware/efi/cper-arm.c": "",
            "drivers/firmware/efi/cper-x86.c": "",
            "drivers/firmware/efi/cper_cxl.c": "",
            "include/cxl/event.h": "(?i:cxl_|cper_|prot_err_)",
            "drivers/acpi/apei/erst.c": "CPER_|ERST_|cper_",
            "arch/x86/kernel/cpu/mce/apei.c": "CPER_|cper_",
            "arch/x86/include/uapi/asm/mce.h": "mce",
            "arch/x86/include/asm/mce.h": "MC[IG]_",
            "arch/x86/include/asm/processor.h": "X86_VENDOR_",
            "include/acpi/actbl.h": "acpi_table_header|acpi_generic_address",
            "include/acpi/actbl1.h": "(?i:acpi_(?:bert|erst|hest|whea|table_(?:bert|erst|hest)))",
            "include/acpi/actypes.h": "ACPI_ADR_SPACE_",
            "include/uapi/linux/pci_regs.h": "PCI_(?:COMMAND|STATUS|CAP_LIST|ERR_|EXP_)",
            "drivers/pci/pcie/aer.c": "aer_",
        },
        "\n".join(f"#include <{name}>" for name in ("environment.h", "linux/cper.h", "acpi/ghes.h", "asm/mce.h", "cxl/event.h")),
        ("-std=gnu11", "-D_GNU_SOURCE", "-D__KERNEL__")
        + tuple(f"-I{it}" for it in (LINUX.parent / "cper/include", LINUX / "include", ENVIRONMENT)),
    ),
    Source(
        "EDK2 2022.11",
        EDK2,
        {
            "MdePkg/Include/Guid/Cper.h": "E",
            "MdePkg/Include/IndustryStandard/Acpi64.h": "EFI_ACPI_6_4_(?:(?:BOOT_|GENERIC_)?ERROR|ERST|HARDWARE|GENERIC_|IA32_|PCI_EXPRESS_|FIRMWARE_FIRST)",
            "MdePkg/Include/IndustryStandard/SmBios.h": r"SMBIOS_(?:STRUCTURE|TYPE_|TABLE_(?:TYPE(?:9|16|17)\b|ENTRY_POINT|3_0))",
        },
        "\n".join(f"#include <{name}>" for name in ("Uefi/UefiBaseType.h", "Guid/Cper.h", "IndustryStandard/Acpi64.h", "IndustryStandard/SmBios.h")),
        ("-std=gnu11", "-fshort-wchar", "-DMDE_CPU_X64", f"-I{EDK2}/MdePkg/Include", f"-I{EDK2}/MdePkg/Include/X64"),
    ),
]


def facts_of(source: Source, compiler: str) -> Iterator[str]:
    said = {name: plain((source.folder / name).read_text(encoding="utf-8")) for name in source.files}
    all_numbers = Numbers(said.values())
    layouts = Layouts([compiler, *source.words], source.program)
    for name, text in said.items():
        yield f"file {source.name} {name}"
        said_here = dict.fromkeys([*guids(text), *numbers(text, all_numbers), *layouts.of_source(text), *texts(text)])
        yield from (fact for fact in said_here if re.match(source.files[name], fact.split()[1]))


def extracted(compiler: str) -> str:
    lines = [line for source in SOURCES for line in facts_of(source, compiler)]
    return "# What foreign sources say of the standards. tests/facts/extract.py writes it; no line is typed by hand.\n" + "\n".join(lines) + "\n"


def main(words: list[str]) -> int:
    compiler = shutil.which("cc") or shutil.which("gcc")
    if not compiler or not shutil.which("readelf"):
        print("there is no C compiler or no readelf (Debian's packages gcc and binutils)", file=sys.stderr)
        return 77
    text = extracted(compiler)
    if words != ["--check"]:
        FACTS.write_text(text, encoding="utf-8")
        print(f"{sum(not line.startswith(('file', '#')) for line in text.splitlines())} facts")
        return 0
    kept, now = FACTS.read_text(encoding="utf-8").splitlines(), text.splitlines()
    differing = [f"only {where}: {line}" for where, one, other in (("kept", kept, now), ("extracted", now, kept)) for line in one if line not in set(other)]
    print(*differing[:20], sep="\n", end="\n" if differing else "", file=sys.stderr)
    print(f"{len(now)} lines extracted, {len(differing)} differ from those kept")
    return int(bool(differing) or kept != now)


if __name__ == "__main__":
    sys.exit(main(sys.argv[1:]))
