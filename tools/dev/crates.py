"""Writes the map of the crates into docs/ARCHITECTURE.md, between its two marks.

    tools/run crates [--check]

The shelves, their crates and what each stands on are those of crates.txt, a crate's words the first sentence of its own documentation.
With --check nothing is written; the exit status is 1 if the page says something else.
"""

from dataclasses import dataclass
from functools import cache

from apei import TOP, crates

PAGE = TOP / "docs" / "ARCHITECTURE.md"
BEGIN, END = "<!-- begin: tools/dev/crates.py -->\n", "<!-- end: tools/dev/crates.py -->\n"
WIDTH = 140
# How many words say enough of a crate.
ENOUGH = 5


@dataclass
class Shelf:
    """A comment of crates.txt with the crates after it."""

    words: str
    crates: list[str]


def shelves() -> list[Shelf]:
    """The shelves in their order."""
    found: list[Shelf] = []
    words = ""
    for crate, text in crates.rows():
        if not crate:
            words = f"{words} {text}".strip()
            continue
        if words:
            found.append(Shelf(words, []))
            words = ""
        found[-1].crates.append(crate)
    return found


def sentence(crate: str) -> str:
    """The first sentence of a crate's documentation, up to its colon if it says enough before that."""
    source = TOP / "crates" / crate / "src"
    file = next(it for it in (source / "lib.rt", source / "main.rt") if it.exists())
    lines = [line.removeprefix("//!").strip() for line in file.read_text().splitlines() if line.startswith("//!")]
    first = " ".join(lines).split(". ")[0].rstrip(".").replace("|", "\\|")
    front = first.partition(": ")[0]
    return front if len(front.split()) >= ENOUGH else first


def rows(below: dict[str, list[str]]) -> list[str]:
    """The drawing: each crate in the row above the highest one that it stands on."""

    @cache
    def height(crate: str) -> int:
        return 1 + max((height(it) for it in below[crate]), default=-1)

    drawn = []
    for level in sorted({height(it) for it in below}, reverse=True):
        line = f"{level:3} "
        for crate in sorted(it for it in below if height(it) == level):
            if len(line) + len(crate) >= WIDTH:
                drawn.append(line)
                line = "    "
            line += " " + crate
        drawn.append(line)
    return drawn


def page() -> str:
    lines = ["A crate stands only on crates of the rows below its own:", "", "```", *rows(crates.depends()), "```", ""]
    for shelf in shelves():
        lines += [f"**{shelf.words.split(':')[0].rstrip('.')}**", "", "| crate | what it has |", "|---|---|"]
        lines += [f"| `{crate}` | {sentence(crate)} |" for crate in shelf.crates] + [""]
    return "\n".join(lines)


def main(words: list[str]) -> int:
    before, _, rest = PAGE.read_text().partition(BEGIN)
    said, _, after = rest.partition(END)
    if said == page():
        return 0
    if "--check" in words:
        print("docs/ARCHITECTURE.md has another map than tools/dev/crates.py writes")
        return 1
    PAGE.write_text(before + BEGIN + page() + END + after)
    return 0
