"""Counts what there is to read, at some commits: `tools/run growth [COMMIT..]`.

The counts are of the commits that are named, or of HEAD, each in a column: crates, lines of sources, of definitions and of proofs, functions,
clauses of public calls, definitions and how many of them one other names, proof lines over 200 columns, and the words of the pages.
"""

import subprocess
import sys
import tarfile
import tempfile
from collections import Counter
from io import BytesIO
from pathlib import Path

from apei import TOP
from apei.contracts import functions
from dev.definitions import definitions

PAGES = "README.md", "docs"
WIDE = 200


def checked_out(commit: str, folder: Path) -> Path:
    archive = subprocess.run(["git", "-C", str(TOP), "archive", commit, "crates", *PAGES], capture_output=True, check=False)
    if archive.returncode != 0:
        sys.exit(f"growth: there is no commit {commit}")
    with tarfile.open(fileobj=BytesIO(archive.stdout)) as packed:
        packed.extractall(folder)
    return folder


def lines_of(crates: Path, pattern: str) -> list[str]:
    return [line for path in crates.glob(pattern) for line in path.read_text().splitlines()]


def counts(top: Path) -> dict[str, int]:
    crates = top / "crates"
    all_of = list(functions(crates))
    each = Counter(it.crate for it in all_of)
    proofs = lines_of(crates, "*/proofs/**/*.antt")
    known = list(definitions(crates))
    named = Counter(key for it in known for key in it.uses.values() if key != it.key)
    pages = [top / "README.md", *(top / "docs").glob("*.md")]
    return {
        "crates": sum(1 for it in crates.iterdir() if it.is_dir()),
        "lines of sources": len(lines_of(crates, "*/src/**/*.rt")),
        "lines of definitions": len(lines_of(crates, "*/specs/*.antt")),
        "lines of proofs": len(proofs),
        f"proof lines over {WIDE} columns": sum(len(it) > WIDE for it in proofs),
        "functions with a contract": len(all_of),
        "of these in the largest crate": max(each.values()),
        "clauses of public calls": sum(len(it.clauses) for it in all_of if it.is_public),
        "definitions": len(known),
        "definitions that another names": sum(named[it.key] > 0 for it in known),
        "words in the pages": sum(len(it.read_text().split()) for it in pages),
    }


def main(words: list[str]) -> int:
    commits = words or ["HEAD"]
    columns = []
    for commit in commits:
        with tempfile.TemporaryDirectory() as folder:
            columns.append(counts(checked_out(commit, Path(folder))))
    print(f"{'':32}" + "".join(f"{it[:12]:>14}" for it in commits))
    for name in columns[0]:
        print(f"{name:32}" + "".join(f"{column[name]:>14,}" for column in columns))
    return 0
