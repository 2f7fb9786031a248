"""Counts the definitions of the repository, and lists those that a reader of one contract follows.

    tools/run definitions [--list] [CRATE/FILE] [FUNCTION]

A definition is what a file of specs/ names by `abbrev`, `unfoldable`, `record` or `data`. The contract is that of FUNCTION in
crates/CRATE/src/FILE, by default `run` in apei_cli/program.rt. What it reaches are the definitions that its clauses name, and those
that these name, and so on. With --list they are written in reading order: each before what it stands on.
"""

import argparse
import collections
import re
import sys
from collections.abc import Iterator
from dataclasses import dataclass, field
from pathlib import Path

from apei import TOP

HEAD = re.compile(r"^(?:pub )?(?:abbrev|unfoldable|record|data)(?: pub)? (?!pub\b|use\b)(\S+)", re.MULTILINE)
USE = re.compile(r"(?:ghost )?use (Rattle[\w.]*)\.\{([^}]*)\}")
NAME = re.compile(r"[^\s(){}\[\],;.:→λ×∷≡]+")
COMMENT = re.compile(r"^\s*--.*$", re.MULTILINE)


@dataclass
class Definition:
    """One definition: where it stands, its lines, and the names in them with the definitions that they stand for."""

    name: str
    module: str
    text: str
    uses: dict[str, str] = field(default_factory=dict)

    @property
    def key(self) -> str:
        return f"{self.module}.{self.name}"

    @property
    def lines(self) -> int:
        return sum(1 for line in self.text.splitlines() if line.strip() and not line.startswith("--"))


def imports(text: str) -> dict[str, str]:
    """The names that a file takes from other modules, each with what it stands for there."""
    found = {}
    for module, names in USE.findall(text):
        for name in names.split(","):
            outer, _, inner = name.strip().partition(" as ")
            found[inner or outer.rpartition(".")[2]] = f"{module}.{outer}"
    return found


def passed_on(crates: Path) -> dict[str, str]:
    """What a file gives out under a name of its own, and another one defines (`pub use`): for each such name what it stands for."""
    found = {}
    for path in crates.glob("*/specs/*.antt"):
        module = f"Rattle.{path.parent.parent.name}.specs.{path.stem}"
        given = "\n".join(line for line in path.read_text().splitlines() if "pub use " in line)
        found |= {f"{module}.{name}": key for name, key in imports(given).items()}
    return found


def definitions(crates: Path) -> Iterator[Definition]:
    given = passed_on(crates)
    for path in sorted(crates.glob("*/specs/*.antt")):
        module = f"Rattle.{path.parent.parent.name}.specs.{path.stem}"
        text = path.read_text()
        heads = list(HEAD.finditer(text))
        uses = imports(text)
        names = {match[1] for match in heads}
        for match, following in zip(heads, [*heads[1:], None]):
            body = text[match.start() : following.start() if following else len(text)]
            own = {name: f"{module}.{name}" for name in names}
            yield Definition(match[1], module, body, {name: defined_at(key, given) for name, key in {**uses, **own}.items()})


def named_in(text: str, uses: dict[str, str]) -> list[str]:
    """What the names of a text stand for, in their order. Its comments name nothing."""
    return list(dict.fromkeys(uses[word] for word in NAME.findall(COMMENT.sub("", text)) if word in uses))


def defined_at(key: str, given: dict[str, str]) -> str:
    """Where a name that is passed on is defined."""
    while key in given:
        key = given[key]
    return key


def contract(path: Path, function: str) -> tuple[str, dict[str, str]]:
    """The head of a function, from its name to its body, and what its file takes from elsewhere."""
    text = path.read_text()
    start = re.search(rf"\bfn {function}\b", text)
    if start is None:
        sys.exit(f"definitions: there is no function {function} in {path}")
    end = re.search(r"^\s*\{\s*$", text[start.start() :], re.MULTILINE)
    return text[start.start() : start.start() + (end.start() if end else len(text))], imports(text)


def reached(first: list[str], known: dict[str, Definition]) -> list[Definition]:
    """The definitions that these and what they name reach, each once, in the order in which they are met."""
    found: dict[str, Definition] = {}
    open_ones = list(first)
    while open_ones:
        key = open_ones.pop(0)
        if key in known and key not in found:
            found[key] = known[key]
            open_ones += named_in(known[key].text, known[key].uses)
    return list(found.values())


def main(words: list[str]) -> int:
    form = argparse.RawDescriptionHelpFormatter
    parser = argparse.ArgumentParser(prog="tools/run definitions", description=__doc__, formatter_class=form)
    parser.add_argument("--list", action="store_true", help="write the definitions that are reached")
    parser.add_argument("file", nargs="?", default="apei_cli/program.rt")
    parser.add_argument("function", nargs="?", default="run")
    asked = parser.parse_args(words)
    crate, _, file = asked.file.partition("/")
    known = {it.key: it for it in definitions(TOP / "crates")}
    head, uses = contract(TOP / "crates" / crate / "src" / file, asked.function)
    given = passed_on(TOP / "crates")
    met = reached([defined_at(key, given) for key in named_in(head, uses)], known)
    if asked.list:
        for it in met:
            print(f"{it.module.removeprefix('Rattle.').replace('.specs.', '/')} {it.name}")
    named = collections.Counter(key for it in known.values() for key in named_in(it.text, it.uses) if key != it.key)
    print(f"{len(known)} definitions, {sum(1 for it in known if named[it] == 1)} of them named by one other")
    print(f"{asked.function} reaches {len(met)}, of {sum(it.lines for it in met)} lines")
    return 0
