"""Looks up what docs/CHANGING.md names: each path, and each name in the files that its row or its sentence has it in.

    tools/run changing [PAGE]

Words between back quotes are read. One with a slash, a dot or a star is a path (a star stands for any part of a name): a file of that path
is there, or one that ends so. Another is a name: it stands, as a word, in a file of its row if it is in a table, else somewhere in
crates, tools, tests or docs. Those that are missing are written, one a line; the exit status is 1 if there is one.
"""

import re
from collections.abc import Iterator
from pathlib import Path

from apei import TOP

QUOTED = re.compile(r"`([^`]+)`")
LINKED = re.compile(r"\]\(([^)#]+)[^)]*\)")
# Paths have one of these; a word of the command line begins with two hyphens.
PATH = re.compile(r"^[\w*.-]+(/[\w*.<>-]+)*/?$")
BUILT = (".git", "out", "target", "__pycache__")
ENDINGS = (".antt", ".rt", ".py", ".md", ".image", ".script", ".words", ".replies", ".txt", ".1", ".bash")


def files_of(folder: Path) -> Iterator[str]:
    """The files of the repository, without what was built."""
    for path in sorted(folder.iterdir()):
        if path.is_dir() and path.name not in BUILT:
            yield from files_of(path)
        elif path.is_file():
            yield str(path.relative_to(TOP))


def is_path(word: str) -> bool:
    return bool(PATH.match(word)) and ("/" in word or word.endswith(ENDINGS))


def found(word: str, files: list[str]) -> list[str]:
    """The files that a path stands for."""
    pattern = re.escape(word.rstrip("/")).replace(r"\*", "[^/]*")
    matching = re.compile(rf"(^|.*/){pattern}($|/.*)")
    return [file for file in files if matching.match(file)]


def has_name(name: str, files: list[str]) -> bool:
    """Whether a name stands as a word in one of the files."""
    word = re.compile(rf"(?<![\w]){re.escape(name)}(?![\w])")
    return any(word.search((TOP / file).read_text(errors="replace")) for file in files if (TOP / file).is_file())


def names_of(cell: str) -> list[str]:
    """The names between back quotes that are words of the code or of the definitions, a method's own name without its type."""
    words = [word.removesuffix("()") for word in QUOTED.findall(cell) if not is_path(word)]
    return [part for word in words if re.fullmatch(r"[A-Za-z_]\w*(::\w+)*", word) for part in word.split("::")]


def missing_in_row(cells: list[str], files: list[str]) -> list[str]:
    paths = [word for word in QUOTED.findall(cells[0]) if is_path(word)]
    absent = [f"no file {path}" for path in paths if not found(path, files)]
    own = [file for path in paths for file in found(path, files)]
    return absent + [f"{', '.join(paths)}: no {name}" for name in names_of(" ".join(cells[1:])) if own and not has_name(name, own)]


def missing_in_prose(line: str, files: list[str], anywhere: list[str]) -> list[str]:
    paths = [word for word in QUOTED.findall(line) if is_path(word)]
    paths += [f"docs/{link}" if "/" not in link else link.removeprefix("../") for link in LINKED.findall(line) if "://" not in link]
    absent = [f"no file {path}" for path in paths if not found(path, files)]
    crates = {file.split("/")[1] for file in files if file.startswith("crates/")}
    return absent + [f"nothing has {name}" for name in names_of(line) if name not in crates and not has_name(name, anywhere)]


def main(words: list[str]) -> int:
    page = Path(words[0]) if words else TOP / "docs" / "CHANGING.md"
    files = list(files_of(TOP))
    anywhere = [file for file in files if file.split("/")[0] in ("crates", "tools", "tests") and not file.endswith((".image", ".png"))]
    missing = []
    for number, line in enumerate(page.read_text().splitlines(), 1):
        if line.startswith("|"):
            told = missing_in_row([cell.strip() for cell in line.strip("|").split("|")], files)
        else:
            told = missing_in_prose(line, files, anywhere)
        missing += [f"line {number}: {it}" for it in told]
    print("\n".join(missing) if missing else "all there")
    return 1 if missing else 0
