"""Looks up the names that a page puts between back quotes: crates, files, functions with their clauses, definitions, edits that must fail.

A part is a row of a table, an item of a list, or a paragraph. In a part

    `CALL`, `CALL` (`CLAUSE`, `CLAUSE`: `DEFINITION`)

names clauses of one of the calls before the bracket, which are calls of the crates that the part names, if it names any. Every other name is one
of the project: a crate, a function, a type, a definition, a file, an edit; a clause of a function or a field of a record of the same part; or a word
of docs/SCRIPT.md. It is tried of each name that another one in its place would be found.
"""

import re
from collections.abc import Iterable, Iterator
from functools import cached_property
from pathlib import Path

from apei import TOP
from apei.contracts import Function, functions
from dev.changing import PATH, files_of, found, is_path
from dev.definitions import Definition, definitions

QUOTED = re.compile(r"`([^`\n]+)`")
# Some names, and a bracket after them that has names alone.
BRACKET = re.compile(r"(`[^`]+`(?:, `[^`]+`)*) \((`[^`]+`(?:[:,;] `[^`]+`)*)\)")
NAME = re.compile(r"[A-Za-z_][\w-]*(::\w+)?(\.\w+)?")
COMMENT = re.compile(r"<!--.*?-->", re.DOTALL)
CODE_BLOCK = re.compile(r"^```.*?^```$|^    [^\n]*$", re.MULTILINE | re.DOTALL)
KEYWORDS = {"requires", "ensures"}
# Clauses of few calls, by which it is tried whether a wrong one is found.
OTHERS = "recovered", "admitted", "ends"
ITEM = re.compile(r"^\s*(?:pub(?:\(\w+\))? )?(?:unsafe )?(?:struct|enum|trait|const|type|static) (\w+)", re.MULTILINE)
# What a specification or a proof states, and a case or a type of the code.
STATED = re.compile(r"^(?:pub )?(?:abbrev|unfoldable|record|data|theorem|lemma|law)?(?: pub)? ?([A-Za-z_][\w'-]*)", re.MULTILINE)
CONSTRUCTED = re.compile(r"^  ([A-Z]\w*) : ", re.MULTILINE)
CASE = re.compile(r"\b[A-Z]\w+")


def parts(text: str) -> Iterator[tuple[int, str]]:
    """The parts of a page, each with the number of its first line."""
    for unread in (CODE_BLOCK, COMMENT):
        text = unread.sub(lambda found: "\n" * found[0].count("\n"), text)
    begun, kept = 0, list[str]()
    for number, line in enumerate([*text.splitlines(), ""], 1):
        starts = line.startswith(("|", "#")) or re.match(r"\s*(- |\d+\. )", line) is not None
        if (starts or not line.strip()) and kept:
            yield begun, " ".join(kept)
            kept = []
        if line.strip():
            begun = begun if kept else number
            kept.append(line.strip())


class Names:
    """The names of the sources."""

    @cached_property
    def files(self) -> list[str]:
        return list(files_of(TOP))

    @cached_property
    def crates(self) -> set[str]:
        return {path.name for path in (TOP / "crates").iterdir() if path.is_dir()}

    @cached_property
    def functions(self) -> list[Function]:
        return list(functions(TOP / "crates"))

    @cached_property
    def by_name(self) -> dict[str, list[Function]]:
        named = dict[str, list[Function]]()
        for it in self.functions:
            for name in {it.name, it.name.rpartition("::")[2]}:
                named.setdefault(name, []).append(it)
        return named

    @cached_property
    def definitions(self) -> dict[str, list[Definition]]:
        named = dict[str, list[Definition]]()
        for it in definitions(TOP / "crates"):
            named.setdefault(it.name, []).append(it)
        return named

    @cached_property
    def others(self) -> set[str]:
        """Types, constants and cases, what specifications and proofs state, files, edits, the dependencies, and the words of scripts."""
        names = KEYWORDS | {path.stem for path in (TOP / "crates").glob("*/must-fail/*")}
        names |= {part for file in self.files for part in (*file.split("/"), Path(file).stem)}
        for path in (TOP / "crates").glob("*/src/**/*.rt"):
            names |= set(ITEM.findall(path.read_text())) | set(CASE.findall(path.read_text()))
        for path in [*(TOP / "crates").glob("*/specs/*.antt"), *(TOP / "crates").glob("*/proofs/*.antt")]:
            names |= set(STATED.findall(path.read_text())) | set(CONSTRUCTED.findall(path.read_text()))
        names |= set((TOP / "crates.txt").read_text().replace(":", " ").split())
        return names | set(re.findall(r"[\w-]+", " ".join(QUOTED.findall((TOP / "docs" / "SCRIPT.md").read_text()))))

    def calls(self, names: Iterable[str], crates: set[str]) -> list[Function]:
        """The functions of these names, those of these crates if there are some."""
        called = [it for name in names for it in self.by_name.get(name, [])]
        return [it for it in called if it.crate in crates] or called

    def has_field(self, record: str, name: str) -> bool:
        return any(re.search(rf"^\s+(?:pub )?{re.escape(name)}\b", it.text, re.MULTILINE) for it in self.definitions.get(record, []))

    def is_one(self, name: str) -> bool:
        record, _, own = name.partition(".")
        if own and record in self.definitions:
            return self.has_field(record, own)
        return name in self.crates or name in self.by_name or name in self.definitions or name in self.others


def clauses_of(calls: Iterable[Function]) -> set[str]:
    return {clause.name for it in calls for clause in it.clauses}


def wrong_brackets(text: str, crates: set[str], names: Names) -> Iterator[str]:
    for front, inner in BRACKET.findall(text):
        called = QUOTED.findall(front)
        calls = names.calls(called, crates)
        if not calls:
            continue
        known = clauses_of(calls)
        explains = not known & set(QUOTED.findall(inner))
        for name in QUOTED.findall(inner):
            is_definition = name in names.definitions and (explains or name[0].isupper())
            if not is_definition and name not in known:
                yield f"{' and '.join(called)} has no clause {name}"


def wrong_part(text: str, names: Names) -> Iterator[str]:
    quoted = QUOTED.findall(text)
    crates = {word for word in quoted if word in names.crates}
    yield from wrong_brackets(text, crates, names)
    beside = clauses_of(it for word in quoted for it in names.by_name.get(word, []) if not crates or it.crate in crates)
    records = [word for word in quoted if word in names.definitions]
    for word in quoted:
        if is_path(word) and PATH.match(word):
            inside = [f"crates/{crate}/{word}" for crate in crates if word.startswith(("src/", "specs/", "proofs/"))] or [word]
            if not any(found(path, names.files) for path in inside):
                yield f"there is no file {word}"
        elif NAME.fullmatch(word) and not names.is_one(word) and word not in beside and not any(names.has_field(it, word) for it in records):
            yield f"nothing is named {word}"


def unfound(text: str, names: Names) -> Iterator[str]:
    """Names of a part that would not be missed: by another letter, and in a bracket by a clause of other calls."""
    for word in {word for word in QUOTED.findall(text) if NAME.fullmatch(word) or is_path(word) and PATH.match(word)}:
        if not any(wrong_part(text.replace(f"`{word}`", f"`{word}q`"), names)):
            yield f"another name in place of {word} would not be found"
    crates = {word for word in QUOTED.findall(text) if word in names.crates}
    for front, inner in BRACKET.findall(text):
        known = clauses_of(names.calls(QUOTED.findall(front), crates))
        for word in known & set(QUOTED.findall(inner)):
            other = next(name for name in OTHERS if name not in known)
            if not any(wrong_part(text.replace(inner, inner.replace(f"`{word}`", f"`{other}`")), names)):
                yield f"the clause {other} in place of {word} would not be found"


def wrong_names(page: Path, names: Names) -> tuple[int, list[str]]:
    """How many names a page has between back quotes, and what is wrong with them."""
    count, wrong = 0, list[str]()
    for line, text in parts(page.read_text()):
        count += len(QUOTED.findall(text))
        told = [*wrong_part(text, names)] or [*unfound(text, names)]
        wrong += [f"{page.relative_to(TOP)}:{line}: {it}" for it in told]
    return count, wrong
