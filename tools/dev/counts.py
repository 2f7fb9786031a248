"""Writes what is counted in the repository into docs/SPEED.md, between its two marks, and keeps the pages short.

    tools/run counts [--check]

Crates, functions, definitions and edits that must fail are counted in the sources. With --check nothing is written; the exit status is 1 if the page
says something else, if README, PROOFS or all pages together are longer than they may be, or a line of a definition or proof is too wide.
"""

import sys
from collections.abc import Iterator

from apei import TOP, crates
from apei.contracts import functions
from dev.definitions import contract, defined_at, definitions, named_in, passed_on, reached

PAGE = TOP / "docs" / "SPEED.md"
BEGIN, END = "<!-- begin: tools/dev/counts.py -->\n", "<!-- end: tools/dev/counts.py -->\n"
README_WORDS, PROOFS_LINES, ALL_WORDS = 900, 300, 45_000
# Columns of a line of a definition or a proof.
WIDEST = 200


def rows() -> Iterator[tuple[str, str]]:
    yield "crates", str(len(crates.depends()))
    said = list(functions(TOP / "crates"))
    yield "functions; those that are public", f"{len(said):,}; {sum(1 for it in said if it.is_public):,}"
    known = {it.key: it for it in definitions(TOP / "crates")}
    head, uses = contract(TOP / "crates/apei_cli/src/program.rt", "run")
    given = passed_on(TOP / "crates")
    met = reached([defined_at(key, given) for key in named_in(head, uses)], known)
    yield "definitions", f"{len(known):,}"
    yield "definitions that the contract of `run` names, directly or through others", f"{len(met)}, with {sum(it.lines for it in met):,} lines"
    yield "wrong programs in the folders `must-fail`", str(sum(1 for it in (TOP / "crates").glob("*/must-fail/*") if it.is_file()))
    yield "scripts that the gate plays", str(sum(1 for folder in ("examples", "tests/scripts") for it in (TOP / folder).rglob("*script") if it.is_file()))


def table() -> str:
    return "\n".join(["| what | how many |", "|---|---|", *(f"| {what} | {number} |" for what, number in rows())]) + "\n"


def too_long() -> Iterator[str]:
    """What is longer than a reader was promised."""
    pages = [TOP / "README.md", *sorted((TOP / "docs").glob("*.md"))]
    words = {page.name: len(page.read_text().split()) for page in pages}
    lines = len((TOP / "docs" / "PROOFS.md").read_text().splitlines())
    for what, number, most in (
        ("words of README.md", words["README.md"], README_WORDS),
        ("lines of docs/PROOFS.md", lines, PROOFS_LINES),
        ("words of README.md and docs/*.md", sum(words.values()), ALL_WORDS),
    ):
        if number > most:
            yield f"there are {number} {what}, and may be {most}"


def too_wide() -> Iterator[str]:
    for path in sorted((TOP / "crates").glob("*/[ps]*/**/*.antt")):
        for number, line in enumerate(path.read_text(encoding="utf-8").splitlines(), 1):
            if len(line) > WIDEST:
                yield f"{path.relative_to(TOP)}:{number} has {len(line)} columns, and may have {WIDEST}"


def main(words: list[str]) -> int:
    before, _, rest = PAGE.read_text().partition(BEGIN)
    said, _, after = rest.partition(END)
    long = [*too_long(), *too_wide()]
    print(*long, sep="\n", end="\n" if long else "", file=sys.stderr)
    if said == table():
        return 1 if long else 0
    if "--check" in words:
        print("docs/SPEED.md has other counts than `tools/run counts` writes", file=sys.stderr)
        return 1
    PAGE.write_text(before + BEGIN + table() + END + after)
    return 0
