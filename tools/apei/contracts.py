"""The contracts of the crates' functions, as their sources have them."""

import re
from collections.abc import Iterable, Iterator
from dataclasses import dataclass
from pathlib import Path

FUNCTION = re.compile(r"^ *(pub(?:\([a-z]+\))? )?(?:const |unsafe |extern \"C\" )*fn (\w+)", re.MULTILINE)
OWNER = re.compile(r"^(?:unsafe )?impl(?:<[^{]*?>)? (?:(?P<trait>[\w:]+)(?:<[^{]*>)? for )?&?(?:mut )?(?:dyn )?(?P<type>\w+)")
TRAIT = re.compile(r"^(pub(?:\([a-z]+\))? )?(?:unsafe )?trait (\w+)")
CLAUSE = re.compile(r"(requires|ensures)(\*?)(?: (\w+))? *\{")
MODULE = re.compile(r"^pub mod (\w+);", re.MULTILINE)
GIVEN = re.compile(r"^pub use ([^;]+);", re.MULTILINE)
ITEM = re.compile(r"^pub(?:\(crate\))? (?:const |unsafe |extern \"C\" )*(?:fn|struct|enum|trait|const|type) (\w+)", re.MULTILINE)
COMMENT = re.compile(r"^\s*//.*$", re.MULTILINE)
OPENS, CLOSES = "([{⟦", ")]}⟧"


@dataclass(frozen=True)
class Clause:
    """One `requires` or `ensures`: its name, or none, and its text on one line."""

    kind: str
    name: str
    text: str


@dataclass(frozen=True)
class Function:
    """A function with a contract. `name` is that of its type and its own, as `Port::read`."""

    crate: str
    name: str
    is_public: bool
    clauses: tuple[Clause, ...]

    def having(self, kind: str) -> list[Clause]:
        return [clause for clause in self.clauses if clause.kind == kind]


def end_of_group(text: str, start: int) -> int:
    """Where a group ends that is opened at a place: the place after its last sign."""
    depth = 0
    for at in range(start, len(text)):
        depth += (text[at] in OPENS) - (text[at] in CLOSES)
        if depth == 0:
            return at + 1
    return len(text)


def clauses_of(text: str, start: int) -> Iterator[Clause]:
    """The clauses of the function whose name ends at a place, up to its body."""
    at = start
    while at < len(text):
        clause = CLAUSE.match(text, at) if not text[at - 1].isalnum() else None
        if clause:
            end = end_of_group(text, clause.end() - 1)
            yield Clause(clause[1] + clause[2], clause[3] or "", " ".join(text[clause.end() : end - 1].split()))
            at = end
        elif text[at] in "{;":
            return
        else:
            at = end_of_group(text, at) if text[at] in "([" else at + 1


def outline(path: Path) -> str:
    """A source without its comments."""
    return COMMENT.sub("", path.read_text())


def names_given(folder: Path, text: str, of_program: bool) -> set[str]:
    """The names of a module that a crate's users, or a program's `main`, can write."""
    names = {name for given in GIVEN.findall(text) for name in re.findall(r"(\w+)(?=\s*(?:[,}]|$| as ))", given)}
    names |= set(ITEM.findall(text))
    for module in MODULE.findall(text):
        names |= names_given(folder / module, outline(source_of(folder, module)), of_program)
    return names


def source_of(folder: Path, module: str) -> Path:
    plain = folder / f"{module}.rt"
    return plain if plain.exists() else folder / module / "mod.rt"


def exported(crate: Path) -> set[str] | None:
    """The names that a library gives to its users. Of a program there are none: whatever its other files can name counts."""
    root = crate / "src" / "lib.rt"
    return names_given(crate / "src", outline(root), False) if root.exists() else None


def owner_at(text: str, place: int) -> tuple[str, bool]:
    """The type or the trait in whose block a place stands, or none, and whether all functions there are as public as it is."""
    head = text.rfind("\n}", 0, place)
    for line in reversed(text[head + 1 : place].splitlines()):
        if trait := TRAIT.match(line):
            return trait[2], True
        if block := OWNER.match(line):
            return block["type"], block["trait"] is not None
    return "", False


def functions_in(crate: Path) -> Iterator[Function]:
    given = exported(crate)
    for path in sorted((crate / "src").rglob("*.rt")):
        text = outline(path)
        for match in FUNCTION.finditer(text):
            owner, by_owner = owner_at(text, match.start()) if match[0].startswith(" ") else ("", False)
            shown = owner or match[2]
            said = by_owner or (match[1] is not None and (given is None or match[1] == "pub "))
            name = f"{owner}::{match[2]}" if owner else match[2]
            yield Function(crate.name, name, said and (given is None or shown in given), tuple(clauses_of(text, match.end())))


def functions(crates: Path, names: Iterable[str] | None = None) -> Iterator[Function]:
    """The functions of these crates, or of all."""
    for crate in sorted(crates.iterdir()):
        if (crate / "src").is_dir() and (names is None or crate.name in names):
            yield from functions_in(crate)


def at_top(text: str, sign: str) -> list[str]:
    """The parts of a text between the signs that stand in no group."""
    parts, depth, start = [], 0, 0
    for at, letter in enumerate(text):
        depth += (letter in OPENS) - (letter in CLOSES)
        if depth == 0 and text.startswith(sign, at):
            parts.append(text[start:at].strip())
            start = at + len(sign)
    return [*parts, text[start:].strip()]


def is_binder(part: str) -> bool:
    """Whether a part is nothing but variables with their types, as `(a b : T) (c : U)`. A premise may have a name too, as `(small : a < b)`."""
    rest = part
    while rest.startswith(("(", "{")):
        end = end_of_group(rest, 0)
        if not re.match(r"[({][^():]+ : ", rest[:end]) or is_relation(rest[1 : end - 1].partition(" : ")[2]):
            return False
        rest = rest[end:].strip()
    return rest == "" and part != ""


def is_relation(text: str) -> bool:
    """Whether a text compares two values."""
    return any(len(at_top(text, sign)) > 1 for sign in "≡≢≤<↔")


def premises(text: str) -> list[str]:
    """What a statement asks before its conclusion: each premise, by its first word where that is a relation's name, else as it stands."""
    while text.startswith("let ") and " in " in text:
        text = text.partition(" in ")[2]
    asked = [part for part in at_top(text, "→")[:-1] if not is_binder(part)]
    return [called(part) for part in asked]


def called(premise: str) -> str:
    """A premise as a marker lists it."""
    if any(len(at_top(premise, sign)) > 1 for sign in "≡≢≤<↔⊎×"):
        return premise
    word = re.match(r"[A-Za-z_][\w.]*", premise)
    return word[0] if word else premise
