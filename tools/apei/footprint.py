"""What docs/EMBED.md says of each archive's machine code, beside what is counted in it."""

import math
import re
from collections.abc import Iterator, Mapping
from dataclasses import dataclass
from pathlib import Path

from apei import TOP
from apei.machine_code import Code, Unknown

PAGE = TOP / "docs" / "EMBED.md"
# The archives, in the order of the page's columns.
COLUMNS = "llvm", "general", "rattle", "arm"
# The calls that open a device, sources or a region, and those for an access and what comes after it.
OPENS = re.compile(r"apei_c_(erst_(open|load|failed)|(ghes|boot)_open)")
ACCESSES = re.compile(r"apei_c_(erst_(read|write|get|put|change|done)|(ghes|boot)_(access|done))$")
CLIENT = re.compile(r"apei_c_client_")


def up(count: int, unit: int) -> int:
    """The least multiple of the unit that is no less. So a small change of the code leaves the page as it is."""
    return math.ceil(count / unit) * unit


def most(stacks: Iterator[int]) -> str:
    return f"{up(max(stacks, default=0), 100):,} bytes"


@dataclass(frozen=True)
class Footprint:
    """What is counted of one archive."""

    # The cells of the page's table, by the first cell of their rows.
    cells: dict[str, str]
    vectors: tuple[str, ...]
    # The instructions that reach memory below the stack pointer, or what was not understood.
    faults: tuple[str, ...]

    @classmethod
    def of(cls, archive: Path) -> "Footprint":
        code = Code(archive)
        vectors = tuple(code.vector_names)
        try:
            stacks, below = code.stacks(), code.below()
        except Unknown as why:
            return cls({}, vectors, (f"{archive.name}: {why}",))
        other = [it for it in stacks if not any(kind.match(it) for kind in (OPENS, ACCESSES, CLIENT))]
        cells = {
            "code and constants": f"{code.size / 1000:.0f} kB",
            "instructions with vector registers": f"{up(sum(code.vector_names.values()), 100):,}",
            "accesses of memory below the stack pointer": f"{len(below)}",
            "greatest stack of a call that opens a device": most(stacks[it] for it in stacks if OPENS.match(it)),
            "greatest stack of an access or a change": most(stacks[it] for it in stacks if ACCESSES.match(it)),
            "greatest stack of a client's call": most(stacks[it] for it in stacks if CLIENT.match(it)),
            "greatest stack of any other call": most(stacks[it] for it in other),
        }
        return cls(cells, vectors, tuple(f"{archive.name}: {it}" for it in below))

    def wrong(self, name: str) -> list[str]:
        """What an archive has that none may have."""
        wrong = list(self.faults)
        if name == "general" and self.vectors:
            wrong.append(f"general registers alone were wanted, and there is {' '.join(self.vectors)}")
        return wrong

    @property
    def names(self) -> str:
        return ", ".join(f"`{it}`" for it in self.vectors) or "none"


def renewed(text: str, footprints: Mapping[str, Footprint]) -> str:
    """The page with what is counted of these archives; those that were not built keep what stands there."""
    lines = text.split("\n")
    for at, line in enumerate(lines):
        cells = [it.strip() for it in line.strip("|").split("|")]
        for column, name in enumerate(COLUMNS, 1):
            footprint = footprints.get(name)
            if footprint is not None and line.startswith("| ") and cells[0] in footprint.cells:
                cells[column] = footprint.cells[cells[0]]
                lines[at] = f"| {' | '.join(cells)} |"
        if line.startswith("- vector instructions of `"):
            name = line.split("`")[1].removesuffix(".a")
            if name in footprints:
                lines[at] = f"- vector instructions of `{name}.a`: {footprints[name].names}"
    return "\n".join(lines)


def differences(footprints: Mapping[str, Footprint]) -> list[str]:
    """The lines that the page would have in the place of others."""
    text = PAGE.read_text()
    return [f"{new} (and not {old})" for old, new in zip(text.split("\n"), renewed(text, footprints).split("\n")) if old != new]


def write(footprints: Mapping[str, Footprint]) -> None:
    PAGE.write_text(renewed(PAGE.read_text(), footprints))
