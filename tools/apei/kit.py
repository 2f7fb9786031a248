"""The crates of the toolchain that the programs and the library are linked with, and their licences."""

import re
import shutil
from collections.abc import Iterator
from pathlib import Path

from apei.crates import named

# Rattle's own library, which each crate is linked with.
OWN = "std"
USES = re.compile(r"^\s*(?:pub(?:\([a-z]+\))? )?use ([a-z][a-z0-9_]*)(?:::|;)", re.MULTILINE)


def kit() -> Path | None:
    """The folder of the toolchain, if there is one."""
    command = shutil.which("rt")
    return Path(command).resolve().parent.parent if command else None


def linked(folder: Path) -> list[str]:
    """The kit's crates that ours name, with those that these name in turn."""
    sources = folder / "rattle"
    there = {it.name for it in sources.iterdir() if (it / "src").is_dir()}
    ours = named()
    open_ones = [OWN, *(it for names in ours.values() for it in names if it not in ours)]
    found: set[str] = set()
    while open_ones:
        name = open_ones.pop()
        if name not in found and name in there:
            found.add(name)
            open_ones += sorted(names_in(sources / name / "src") & there)
    return sorted(found)


def names_in(folder: Path) -> set[str]:
    return {name for path in folder.rglob("*.rt") for name in USES.findall(path.read_text(errors="replace"))}


def licences(folder: Path) -> Iterator[tuple[str, list[Path]]]:
    """Each of these crates with the licences that the kit has of it."""
    for name in linked(folder):
        yield name, sorted((folder / "rattle" / name).glob("LICENSE*"))
