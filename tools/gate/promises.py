"""Ties each promise of the documents to the clauses that it stands on, and looks up each name of PROOFS and of four other pages.

    tools/run promises [list]
    tools/run promises calls CRATE

A promise is the sentence of README, an item of PROOFS' list of what is proved, a row or the sentence of its ten theorems, or a row of the tables of
promises of EMBED and KERNEL. Each has a comment, which a page does not show:

    <!-- clauses: CRATE FUNCTION CLAUSE .. if PREMISE, PREMISE; CRATE RECORD.FIELD if PREMISE -->

FUNCTION is the name of a public function, a method with its type (`Port::read`), and CLAUSE are names of its clauses, none if it has one
without a name. RECORD.FIELD is a field of a definition, which the contract of a function of the same comment names, directly or through others.
The premises are those of the clauses and what the function requires: a relation by its name, another one as it stands. `the check` in place of
clauses says that the check itself keeps the promise.

A promise without a comment is wrong. So is a clause that is gone, whose function is private, or that asks something which the comment does not
list; and so is a premise that is listed and not asked. Premises inside a definition that a clause names are not looked for. With the word `list`
it writes each promise with its clauses; with `calls` the public calls of a crate, each with its clauses.

How the names of a page are looked up stands in `apei/named.py`.
"""

import re
import sys
from collections.abc import Iterator
from dataclasses import dataclass
from functools import cached_property

from apei import TOP
from apei.contracts import Function, at_top, called, functions, premises
from apei.named import Names, wrong_names
from dev.definitions import Definition, defined_at, definitions, imports, named_in, passed_on, reached

MARKER = re.compile(r"<!-- clauses: (.*?) -->", re.DOTALL)
# Where promises stand: a page, the line before them, and the line after them.
REGIONS = [
    ("README.md", "## What is proved, in one sentence", "## The jobs"),
    ("docs/PROOFS.md", "## What is proved", "## Ten theorems"),
    ("docs/EMBED.md", "## What is promised", "### A format that is cut"),
    ("docs/EMBED.md", "### What is promised of error sources", "### The boot error region"),
    ("docs/KERNEL.md", "## What is promised", "A demand takes some 85 ns"),
    ("docs/PROOFS.md", "## Ten theorems", "The last column names"),
]
BY_CHECK = "the check"
# The pages whose names are looked up.
NAMING = "docs/PROOFS.md", "docs/BRIDGE.md", "docs/HANDOVER.md", "docs/GLOSSARY.md", "docs/ARCHITECTURE.md"


@dataclass(frozen=True)
class Promise:
    """A promise: where it stands, and its text with its comment."""

    page: str
    line: int
    text: str

    @property
    def place(self) -> str:
        return f"{self.page}:{self.line}"


@dataclass(frozen=True)
class Support:
    """What a comment names: a crate, a function or a field, clauses, and premises."""

    crate: str
    name: str
    clauses: tuple[str, ...]
    premises: frozenset[str]


def begins_promise(line: str, lines: list[str], at: int) -> bool:
    """Whether a promise begins in a line: an item, the first line of a quoted sentence, or a row that is no head of its table."""
    if line.startswith("- "):
        return True
    if line.startswith("> "):
        return not lines[at - 1].startswith(">")
    is_head = at + 1 < len(lines) and lines[at + 1].startswith("|---")
    return line.startswith("| ") and not is_head


def promises_in(page: str, first: str, last: str) -> Iterator[Promise]:
    lines = (TOP / page).read_text().splitlines()
    start, end = lines.index(first), next(at for at, line in enumerate(lines) if line.startswith(last))
    heads = [at for at in range(start + 1, end) if begins_promise(lines[at], lines, at)]
    for at, following in zip(heads, [*heads[1:], end]):
        yield Promise(page, at + 1, "\n".join(lines[at:following]))


def supports(text: str) -> list[Support]:
    """What the comment of a promise names; none of one that has no comment."""
    marker = MARKER.search(text)
    entries = at_top(" ".join(marker[1].split()), ";") if marker else []
    return [support_of(entry) for entry in entries if entry != BY_CHECK]


def support_of(entry: str) -> Support:
    named, _, asked = entry.partition(" if ")
    crate, name, *clauses = [*named.split(), ""][:2] + named.split()[2:]
    return Support(crate, name, tuple(clauses), frozenset(filter(None, at_top(asked, ","))))


class Crates:
    """What the sources say: the public contracts, and the definitions."""

    @cached_property
    def functions(self) -> dict[tuple[str, str], Function]:
        return {(it.crate, it.name): it for it in functions(TOP / "crates")}

    @cached_property
    def definitions(self) -> dict[str, Definition]:
        return {it.key: it for it in definitions(TOP / "crates")}

    @cached_property
    def given(self) -> dict[str, str]:
        return passed_on(TOP / "crates")

    def reached_from(self, function: Function) -> set[str]:
        """The definitions that a contract names, directly or through others."""
        taken: dict[str, str] = {}
        for path in (TOP / "crates" / function.crate / "src").rglob("*.rt"):
            taken |= imports(path.read_text())
        text = " ".join(clause.text for clause in function.clauses)
        first = [defined_at(key, self.given) for key in named_in(text, taken)]
        return {it.key for it in reached(first, self.definitions)}


def field_of(definition: Definition, name: str) -> str | None:
    """What a field of a record says, on one line."""
    lines = [line for line in definition.text.splitlines() if not line.lstrip().startswith("--")]
    match = re.search(rf"^  pub {name} : (.*?)(?=^  \S|\Z)", "\n".join(lines), re.MULTILINE | re.DOTALL)
    return " ".join(match[1].split()) if match else None


def wrong_premises(asked: set[str], support: Support, what: str) -> Iterator[str]:
    for premise in sorted(asked - support.premises):
        yield f"{what} asks `{premise}`, which is not listed"
    for premise in sorted(support.premises - asked):
        yield f"{what} does not ask `{premise}`"


def wrong_function(support: Support, crates: Crates) -> Iterator[str]:
    what = f"{support.crate} {support.name}"
    function = crates.functions.get((support.crate, support.name))
    if function is None:
        yield f"{what} is gone"
        return
    if not function.is_public:
        yield f"{what} is private"
    known = {clause.name: clause for clause in function.having("ensures")}
    asked = {called(clause.text) for clause in function.having("requires") if clause.text != "⊤"}
    for name in support.clauses or ("",):
        if name in known:
            asked |= set(premises(known[name].text))
        else:
            yield f"{what} has no clause {name or 'without a name'}"
            return
    yield from wrong_premises(asked, support, f"{what} {' '.join(support.clauses)}".strip())


def wrong_field(support: Support, beside: list[Support], crates: Crates) -> Iterator[str]:
    record, _, name = support.name.partition(".")
    what = f"{support.crate} {support.name}"
    found = [it for it in crates.definitions.values() if it.name == record and it.module.startswith(f"Rattle.{support.crate}.")]
    text = next((said for it in found if (said := field_of(it, name))), None)
    if text is None:
        yield f"{what} is gone"
        return
    callers = [crates.functions.get((it.crate, it.name)) for it in beside]
    if not any(caller and found[0].key in crates.reached_from(caller) for caller in callers):
        yield f"{what} is named by no contract of the same comment"
    yield from wrong_premises(set(premises(text)), support, what)


def wrong_promise(promise: Promise, crates: Crates) -> Iterator[str]:
    if MARKER.search(promise.text) is None:
        yield "it names no clauses"
    named = supports(promise.text)
    for support in named:
        if "." in support.name:
            yield from wrong_field(support, named, crates)
        else:
            yield from wrong_function(support, crates)


def write_calls(crate: str) -> int:
    called_there = [it for it in functions(TOP / "crates", [crate]) if it.is_public]
    for it in called_there:
        print(it.name, *(f"{clause.kind} {clause.name}".strip() + f": {clause.text}" for clause in it.clauses), sep="\n    ")
    return 0 if called_there else 1


def main(words: list[str]) -> int:
    if words[:1] == ["calls"] and len(words) == 2:
        return write_calls(words[1])
    crates = Crates()
    promises = [promise for region in REGIONS for promise in promises_in(*region)]
    if words == ["list"]:
        for promise in promises:
            print(promise.place, promise.text.partition("<!--")[0].strip(), *supports(promise.text), sep="\n    ")
    wrong = [f"{promise.place}: {told}" for promise in promises for told in wrong_promise(promise, crates)]
    count = sum(max(len(it.clauses), 1) for promise in promises for it in supports(promise.text))
    names = Names()
    named = [wrong_names(TOP / page, names) for page in NAMING]
    wrong += [told for _, more in named for told in more]
    print(*wrong, sep="\n", end="\n" if wrong else "", file=sys.stderr)
    print(f"{len(promises)} promises on {count} clauses, {sum(it for it, _ in named)} names, {len(wrong)} wrong")
    return 1 if wrong else 0
