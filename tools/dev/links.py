"""Looks up each link of the pages: the file that it names is there, and so is the heading.

    tools/run links

A page is a file `*.md` that is kept. Links to other hosts are not followed. The paths in man pages and help texts that begin with `docs/` are looked up
too. Those that are missing are written, one a line; the exit status is 1 if there is one.
"""

import re
import sys
from collections.abc import Iterator
from pathlib import Path

from apei import TOP
from dev.changing import files_of

LINK = re.compile(r"\]\(([^)\s]+)\)")
HEADING = re.compile(r"^#+ (.*)$", re.MULTILINE)
CODE_BLOCK = re.compile(r"^```.*?^```$", re.MULTILINE | re.DOTALL)
PATH = re.compile(r"docs/[\w.-]+\.(?:md|1)\b")


def anchor(heading: str) -> str:
    """The name of a heading in a link."""
    plain = re.sub(r"\]\([^)]*\)", "", heading).replace("[", "").lower()
    return re.sub(r"[^\w\- ]", "", plain).strip().replace(" ", "-")


def anchors(page: Path) -> set[str]:
    return {anchor(heading) for heading in HEADING.findall(CODE_BLOCK.sub("", page.read_text()))}


def missing_links(page: Path) -> Iterator[str]:
    for target in LINK.findall(CODE_BLOCK.sub("", page.read_text())):
        path, _, heading = target.partition("#")
        if "://" in target:
            continue
        file = page.parent / path if path else page
        if not file.exists():
            yield f"{target}: there is no such file"
        elif heading and file.suffix == ".md" and heading not in anchors(file):
            yield f"{target}: there is no such heading"


def missing_paths(file: Path) -> Iterator[str]:
    for path in PATH.findall(file.read_text().replace("\\-", "-")):
        if not (TOP / path).exists():
            yield f"{path}: there is no such file"


def main(words: list[str]) -> int:
    del words
    kept = [Path(file) for file in files_of(TOP)]
    pages = [file for file in kept if file.suffix == ".md"]
    texts = [file for file in kept if file.suffix in (".1", ".txt", ".h", ".c", ".rs", ".py") and file.parts[0] in ("docs", "tools", "include", "glue", "rust")]
    missing = [f"{page}: {told}" for page in pages for told in missing_links(TOP / page)]
    missing += [f"{file}: {told}" for file in texts for told in missing_paths(TOP / file)]
    print(*missing, sep="\n", end="\n" if missing else "", file=sys.stderr)
    print(f"{len(pages)} pages, {len(missing)} links wrong")
    return 1 if missing else 0
