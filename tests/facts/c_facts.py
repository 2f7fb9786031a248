"""What C sources say: GUIDs, numbers, names and, by the C compiler's own debug information, where the members of structures stand.

A fact is a line of words: its kind, its name, and its value.

    guid NAME 2dce8bb1-bdd7-450e-b9ad-9cf4ebd4f890
    malformed NAME                        a GUID of more or fewer than eleven numbers
    number NAME 0x10                      a macro or an enumerator
    mask NAME FIRST COUNT                 the bits that a macro takes out of a number
    text ARRAY INDEX words                an entry of an array of strings, or of a switch that answers strings
    field STRUCTURE.MEMBER OFFSET SIZE    in bytes
    bits STRUCTURE.MEMBER FIRST COUNT     a bit field
    size STRUCTURE SIZE
"""

import ast
import re
import subprocess
import tempfile
from collections.abc import Iterable, Iterator
from dataclasses import dataclass, field
from pathlib import Path

COMMENT = re.compile(r"/\*.*?\*/|//[^\n]*", re.S)
GUID = re.compile(r"(\w+)\s*=?\s*(?:GUID_INIT|UUID_INIT)\s*\(([^()]*)\)|#define\s+(\w+)\s*\{([^{}]*\{[^{}]*\})\s*\}")
MACRO = re.compile(r"^[ \t]*#[ \t]*define[ \t]+(\w+)(\(\w+\))?[ \t]+(.+)$", re.M)
STRINGS = re.compile(r"const\s+char\s*\*\s*(?:const\s+)?(\w+)\s*\[\w*\]\s*=\s*\{(.*?)\}\s*;", re.S)
ENTRY = re.compile(r'(?:\[(\w+)\]\s*=\s*)?("(?:[^"\\]|\\.)*"|NULL)\s*(?:,|$)')
SWITCH = re.compile(r"const char \*(\w+)\([^)]*\)\s*\{\s*switch\b(.*?)\n\}", re.S)
CASE = re.compile(r'case\s+(\d+):\s*return\s+"([^"]*)"')
STRUCTURE = re.compile(r"\bstruct\s+(\w+)\s*\{|\}\s*(?:__\w+\s*)*(\w+)\s*;")
TAKES = re.compile(r"GENMASK(?:_ULL)?\s*\(\s*(\d+)\s*,\s*(\d+)\s*\)|BIT(?:_ULL)?\s*\(\s*(\d+)\s*\)")


def plain(text: str) -> str:
    """A source without its comments, and with each macro on one line."""
    return COMMENT.sub(" ", text).replace("\\\n", " ")


def guids(text: str) -> Iterator[str]:
    for found in GUID.finditer(text):
        numbers = [int(it, 16) for it in re.findall(r"0x[0-9a-fA-F]+", found[2] or found[4])]
        if len(numbers) != 11:
            yield f"malformed {found[1] or found[3]}"
            continue
        first, second, third, *rest = numbers
        digits = f"{first:08x}{second:04x}{third:04x}" + "".join(f"{it:02x}" for it in rest)
        yield f"guid {found[1] or found[3]} {digits[:8]}-{digits[8:12]}-{digits[12:16]}-{digits[16:20]}-{digits[20:]}"


def signature(found: re.Match[str]) -> str:
    """The number that letters are, the first one lowest."""
    return str(int.from_bytes("".join(re.findall("'(.)'", found[1])).encode(), "little"))


class Numbers:
    """The macros of some sources, by name: those whose value is a number."""

    def __init__(self, texts: Iterable[str]) -> None:
        self.bodies = {found[1]: found[3].strip() for text in texts for found in MACRO.finditer(text) if not found[2]}

    def value(self, body: str, depth: int = 0) -> int | None:
        """The value of an expression of numbers, bits and other macros; none if there is anything else."""
        body = re.sub(r"\b(0[xX][0-9a-fA-F]+|\d+)[uUlL]+\b", r"\1", body)
        body = re.sub(r"\(\s*(?:(?:u|UINT|__u)(?:8|16|32|64)|\w+_type)\s*\)", "", body)
        body = re.sub(r"\bBIT(?:_ULL)?\s*\(([^()]*)\)", r"(1 << (\1))", body)
        body = re.sub(r"\bBIT(\d+)\b", r"(1 << \1)", body)
        body = re.sub(r"\bGENMASK(?:_ULL)?\s*\(([^(),]*),([^(),]*)\)", r"((2 << (\1)) - (1 << (\2)))", body)
        body = re.sub(r"\bSIGNATURE_(?:16|32|64)\s*\(([^()]*)\)", signature, body)
        for name in set(re.findall(r"\b[A-Za-z_]\w*\b", body)):
            inner = self.bodies.get(name)
            value = self.value(inner, depth + 1) if inner is not None and depth < 9 else None
            if value is None:
                return None
            body = re.sub(rf"\b{name}\b", str(value), body)
        body = re.sub(r"\b0+(\d)", r"\1", body)
        if not re.fullmatch(r"[0-9a-fA-FxX()<>|&+*~ \t-]+", body):
            return None
        try:
            return int(eval(compile(ast.parse(body.strip(), mode="eval"), "", "eval"), {"__builtins__": {}}))
        except (SyntaxError, TypeError):
            return None


def numbers(text: str, all_of: Numbers) -> Iterator[str]:
    """The macros of a source that are numbers, and those that take bits out of their one word."""
    for found in MACRO.finditer(text):
        name, words, body = found[1], found[2], found[3].strip()
        if not words:
            value = all_of.value(body)
            if value is not None and not re.search(r"GUID_INIT", body):
                yield f"number {name} {value:#x}"
        elif len(taken := TAKES.findall(body)) == 1:
            high, low, bit = taken[0]
            first, last = (int(bit), int(bit)) if bit else (int(low), int(high))
            yield f"mask {name} {first} {last - first + 1}"


def texts(text: str) -> Iterator[str]:
    for found in STRINGS.finditer(text):
        for index, entry in enumerate(ENTRY.finditer(re.sub(r'"\s*\n\s*"', "", found[2]))):
            if entry[2] != "NULL":
                yield f"text {found[1]} {entry[1] or index} {ast.literal_eval(entry[2])}"
    for found in SWITCH.finditer(text):
        for case in CASE.finditer(found[2]):
            yield f"text {found[1]} {case[1]} {case[2]}"


@dataclass
class Entry:
    """An entry of the debug information: its kind, its attributes, and what stands inside it."""

    kind: str
    words: dict[str, str] = field(default_factory=dict)
    inside: list["Entry"] = field(default_factory=list)

    def number(self, name: str) -> int | None:
        found = self.words.get(name)
        return int(found.split()[0], 0) if found else None

    @property
    def name(self) -> str | None:
        found = self.words.get("name")
        return found.rsplit(": ", 1)[-1].strip() if found else None


class Layouts:
    """Structures and enumerators as the compiler lays them out for a program."""

    def __init__(self, compiler: list[str], program: str) -> None:
        with tempfile.TemporaryDirectory() as folder:
            source, object_ = Path(folder) / "program.c", Path(folder) / "program.o"
            source.write_text(program)
            debug = ["-w", "-g", "-gdwarf-4", "-fno-eliminate-unused-debug-types", "-c"]
            subprocess.run([*compiler, *debug, "-o", object_, source], check=True)
            said = subprocess.run(["readelf", "--debug-dump=info", object_], check=True, stdout=subprocess.PIPE, text=True).stdout
        self.entries: dict[str, Entry] = {}
        self.outer = self.read(said)
        self.structures = dict(self.named())

    def read(self, said: str) -> Entry:
        outer = Entry("file")
        path = [outer]
        for line in said.splitlines():
            if found := re.match(r" <(\w+)><(\w+)>: Abbrev Number: \d+ \(DW_TAG_(\w+)\)", line):
                depth = int(found[1])
                entry = Entry(found[3])
                path = [*path[: depth + 1], entry]
                path[-2].inside.append(entry)
                self.entries[found[2]] = entry
            elif found := re.match(r" +<\w+> +DW_AT_(\w+) *: (.*)", line):
                path[-1].words[found[1]] = found[2]
        return outer

    def all(self, entry: Entry | None = None) -> Iterator[Entry]:
        for inner in (entry or self.outer).inside:
            yield inner
            yield from self.all(inner)

    def type_of(self, entry: Entry) -> Entry | None:
        found = re.match(r"<0x(\w+)>", entry.words.get("type", ""))
        return self.entries[found[1]] if found else None

    def named(self) -> Iterator[tuple[str, Entry]]:
        """Structures by their names, or by those of their typedefs."""
        for entry in self.all():
            of = self.type_of(entry) if entry.kind == "typedef" else entry
            if of and entry.name and of.kind in ("structure_type", "union_type") and of.inside:
                yield entry.name, of

    def size(self, entry: Entry | None) -> int:
        if entry is None:
            return 0
        if (size := entry.number("byte_size")) is not None:
            return size
        size = self.size(self.type_of(entry))
        for range_ in (it for it in entry.inside if it.kind == "subrange_type"):
            bound, count = range_.number("upper_bound"), range_.number("count")
            size *= count if count is not None else bound + 1 if bound is not None else 0
        return size

    def inner(self, entry: Entry) -> Entry | None:
        """The structure that a member is, by itself and without a name."""
        of = self.type_of(entry)
        return of if of and of.kind in ("structure_type", "union_type") and of.inside and not of.name else None

    def members(self, of: Entry, name: str, at: int = 0) -> Iterator[str]:
        for entry in (it for it in of.inside if it.kind == "member"):
            offset = at + (entry.number("data_member_location") or 0)
            path = f"{name}.{entry.name}" if entry.name else name
            if (count := entry.number("bit_size")) is not None:
                yield f"bits {path} {self.first_bit(entry, count)} {count}"
                continue
            if entry.name:
                yield f"field {path} {offset} {self.size(self.type_of(entry))}"
            if inner := self.inner(entry):
                yield from self.members(inner, path, offset)

    def first_bit(self, entry: Entry, count: int) -> int:
        """Older debug information counts from the other end of the unit that has the bits."""
        if (first := entry.number("data_bit_offset")) is not None:
            return first
        unit = entry.number("byte_size") or self.size(self.type_of(entry))
        return (entry.number("data_member_location") or 0) * 8 + unit * 8 - (entry.number("bit_offset") or 0) - count

    def of_source(self, text: str) -> Iterator[str]:
        """The structures and enumerators whose names stand in a source."""
        names = dict.fromkeys(found[1] or found[2] for found in STRUCTURE.finditer(text))
        for name in names:
            if entry := self.structures.get(name):
                yield from self.members(entry, name)
                yield f"size {name} {self.size(entry)}"
        words = set(re.findall(r"\w+", "".join(re.findall(r"\benum\b[^{};]*\{(.*?)\}", text, re.S))))
        for entry in self.all():
            if entry.kind == "enumerator" and entry.name in words:
                yield f"number {entry.name} {entry.number('const_value'):#x}"
