"""Compares the contracts of public calls, as text, between two commits.

    tools/run clauses OLD [NEW] [--text]

Each clause that is new, gone or another is listed with its crate and its function; the commit NEW is HEAD by default. So are the definitions of
specs/ that are gone or others, since a clause may keep its text and mean something else by one of these. With --text what they said and say
stands below. Comments and the places of line ends do not count. The exit status is 0, whatever changed.
"""

import argparse
import subprocess
import sys
import tarfile
import tempfile
from collections.abc import Iterator
from io import BytesIO
from pathlib import Path

from apei import TOP
from apei.contracts import functions
from dev.definitions import COMMENT, definitions

# What stands under a name, on one line.
Texts = dict[str, str]


def checked_out(commit: str, folder: Path) -> Path:
    """The crates of a commit, in a folder."""
    archive = subprocess.run(["git", "-C", str(TOP), "archive", commit, "crates"], capture_output=True, check=False)
    if archive.returncode != 0:
        sys.exit(f"clauses: there is no commit {commit}")
    with tarfile.open(fileobj=BytesIO(archive.stdout)) as packed:
        packed.extractall(folder)
    return folder / "crates"


def clauses_in(crates: Path) -> Texts:
    """The clauses of public calls. A function that has several without a name has them by their order."""
    found: Texts = {}
    for function in functions(crates):
        if function.is_public:
            for clause in function.clauses:
                name = f"{function.crate} {function.name} {clause.kind} {clause.name}".strip()
                again = sum(1 for it in found if it == name or it.startswith(f"{name} #"))
                found[f"{name} #{again + 1}" if again else name] = clause.text
    return found


def definitions_in(crates: Path) -> Texts:
    """The definitions: what each of a name says, without comments."""
    return {it.key.removeprefix("Rattle."): " ".join(COMMENT.sub("", it.text).split()) for it in definitions(crates)}


def changes(old: Texts, new: Texts, shown: bool) -> Iterator[str]:
    for name in sorted({*old, *new}):
        before, after = old.get(name), new.get(name)
        if before == after:
            continue
        yield f"{'new' if before is None else 'gone' if after is None else 'another'}: {name}"
        if shown:
            yield from (f"  {sign} {text}" for sign, text in (("-", before), ("+", after)) if text is not None)


def main(words: list[str]) -> int:
    form = argparse.RawDescriptionHelpFormatter
    parser = argparse.ArgumentParser(prog="tools/run clauses", description=__doc__, formatter_class=form)
    parser.add_argument("--text", action="store_true", help="write what they said and say")
    parser.add_argument("old")
    parser.add_argument("new", nargs="?", default="HEAD")
    asked = parser.parse_args(words)
    with tempfile.TemporaryDirectory() as folder:
        sides = [checked_out(commit, Path(folder) / side) for side, commit in (("old", asked.old), ("new", asked.new))]
        clauses = [clauses_in(crates) for crates in sides]
        meanings = [definitions_in(crates) for crates in sides]
    told = list(changes(clauses[0], clauses[1], asked.text))
    kept = {name for name in meanings[0] if meanings[0][name] != meanings[1].get(name)}
    others = list(changes({it: meanings[0][it] for it in kept}, {it: meanings[1][it] for it in kept & meanings[1].keys()}, asked.text))
    print(*told, *others, sep="\n", end="\n" if told or others else "")
    counts = [sum(1 for line in lines if not line.startswith(" ")) for lines in (told, others)]
    print(f"{len(clauses[0])} clauses before, {len(clauses[1])} after, {counts[0]} differ; so do {counts[1]} definitions")
    return 0
