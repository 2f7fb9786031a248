"""Lists the definitions, lemmas and functions that nothing names: `tools/run unused [--check]`.

A definition or a lemma is what a file of a crate's `specs/` or `proofs/` declares at the beginning of a line. It is named if another declaration
of its file has its name, a file takes it from there, or docs/PROOFS.md tells of it. A public function is named if its name stands anywhere else in
the crates; the functions of apei_c are for C. With --check the exit status is 1 if there are any.
"""

import re
from collections.abc import Iterator
from pathlib import Path

from apei import TOP
from dev.definitions import COMMENT, NAME, USE, imports

DECLARED = re.compile(r"^(?:pub )?(?:(?:abbrev|unfoldable|record|data|scheme)(?: pub)? )?(?!use\b|mod\b|pub\b|open\b|unfolding\b|syntax\b|unfoldable\b|infix\w*\b|ruleset\b)(\S+)(?= *:| |$)", re.MULTILINE)
FUNCTION = re.compile(r"^ *pub (?:const )?fn (\w+)", re.MULTILINE)
USES = re.compile(r"^(?:pub |ghost )*use .*?(?:\}|$)", re.MULTILINE | re.DOTALL)
USING = re.compile(r"\bproofs((?:::\w+)+)::([\w-]+)")
WHOLE = re.compile(r"^(?:unfoldable |pub )*use (Rattle[\w.]*)(?: as \w+)?$", re.MULTILINE)
# Crates whose functions are called from elsewhere, and files whose lemmas are there to be read: the numbers of worked examples.
OUTSIDE = {"apei_c", "driver_example", "apei_bench"}
FOR_OTHERS = {"bert_table"}
TO_READ = {"Rattle.record_model.proofs.Rows"}


def plain(text: str) -> str:
    """The text without its comments and what it takes from elsewhere."""
    return USES.sub("", COMMENT.sub("", text))


def words(text: str) -> set[str]:
    return set(NAME.findall(text))


def parts(name: str) -> set[str]:
    """What a text has where it names this: an operator by the signs between its arguments."""
    return {it for it in name.split("◌") if it}


def declarations(text: str) -> Iterator[tuple[str, str]]:
    """Each declaration of a file: its name and its lines, with its equations and what is indented behind them."""
    blocks: dict[str, str] = {}
    name = ""
    for line in plain(text).splitlines():
        if line.startswith("module "):
            # What is declared within a module is not looked at; it names others.
            name = " "
        head = None if line.startswith("module ") else DECLARED.match(line)
        if head and not line.startswith((" ", "\t", "]", "}", ")", "|")):
            name = head[1] if ":" in line or line.startswith(("abbrev", "record", "data", "unfoldable", "pub")) else line.split()[0]
        if name:
            blocks[name] = blocks.get(name, "") + line + "\n"
    yield from blocks.items()


class Sources:
    """All files of the crates that may name something."""

    def __init__(self, crates: Path) -> None:
        self.crates = crates
        self.logic = {path: path.read_text() for path in sorted(crates.glob("*/*/**/*.antt")) if "out" not in path.parts}
        self.rust = {path: path.read_text() for path in sorted(crates.glob("*/src/**/*.rt"))}
        self.taken: set[str] = set()
        self.told = set(re.findall(r"[^\s`(),;]+", (TOP / "docs/PROOFS.md").read_text()))
        for path, text in [*self.logic.items(), *self.rust.items()]:
            named = words(plain(text)) if path.suffix == ".antt" else None
            for inner, key in imports(text).items():
                if named is None or parts(inner) <= named or path.name == "Lib.antt" or "pub use" in text:
                    self.taken.add(key)
            if path.suffix == ".rt":
                crate = path.relative_to(crates).parts[0]
                self.taken |= {f"Rattle.{crate}.proofs{module.replace('::', '.')}.{name}" for module, name in USING.findall(text)}
            for module in WHOLE.findall(text):
                self.taken |= {f"{module}.{word}" for word in named or ()}

    def module(self, path: Path) -> str:
        crate, *rest = path.relative_to(self.crates).with_suffix("").parts
        return ".".join(["Rattle", crate, *rest])

    def unused_logic(self) -> Iterator[str]:
        for path, text in self.logic.items():
            if path.parent.name not in ("specs", "proofs") or path.name == "Lib.antt" or self.module(path) in TO_READ:
                continue
            blocks = dict(declarations(text))
            for name in blocks:
                others = {word for other, body in blocks.items() if other != name for word in words(body)}
                if name not in (" ", *self.told) and not parts(name) <= others and f"{self.module(path)}.{name}" not in self.taken:
                    yield f"{path.relative_to(TOP)}: {name}"

    def unused_functions(self) -> Iterator[str]:
        every = [text for text in (*self.rust.values(), *self.logic.values())]
        count: dict[str, int] = {}
        for text in every:
            for word in re.findall(r"\w+", text):
                count[word] = count.get(word, 0) + 1
        for path, text in self.rust.items():
            if path.relative_to(self.crates).parts[0] in OUTSIDE:
                continue
            for name in FUNCTION.findall(text):
                if count[name] == 1 and name not in FOR_OTHERS:
                    yield f"{path.relative_to(TOP)}: fn {name}"


def main(words_given: list[str]) -> int:
    sources = Sources(TOP / "crates")
    found = [*sources.unused_logic(), *sources.unused_functions()]
    for line in found:
        print(line)
    print(f"{len(found)} that nothing names")
    return 1 if found and "--check" in words_given else 0
