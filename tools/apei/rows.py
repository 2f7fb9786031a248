"""The tables of fields and names that the sources have: those of the code (*.rt), of the definitions (*.antt), and of the tools' own layouts."""

import re
from collections.abc import Iterator
from dataclasses import dataclass
from pathlib import Path

from apei import TOP, device, frames, hubs, items, names, tables
from apei.show import compare, layouts

NUMBER = r"(?:0x[0-9a-fA-F_]+|[\d_]+)"


@dataclass(frozen=True)
class Row:
    """A row of a table: a field by its place, its validation bit and the bits of it that are meant, or a number by its name."""

    file: str
    table: str
    name: str
    at: int
    width: int | None = None
    bit: int | None = None
    low: int | None = None
    count: int | None = None

    @property
    def where(self) -> str:
        return f"{self.file}: {self.table}, {self.name}"


def number(text: str | None) -> int | None:
    return None if text is None else int(text.replace("_", ""), 0)


def certain(text: str) -> int:
    return int(text.replace("_", ""), 0)


CODE_TABLE = re.compile(r"const ([A-Z0-9_]+): \[(Field|Name|&str); \d+\] = \[(.*?)\];", re.S)
CODE_FIELD = re.compile(
    rf'(field|bits)!\(\s*({NUMBER}),\s*({NUMBER}),\s*(?:None|Some\(({NUMBER})\)),\s*"([^"]*)",\s*(?:({NUMBER}),\s*({NUMBER}))?'
)
CODE_NAME = re.compile(rf'(?:name|space)!\(\s*({NUMBER}),\s*"([^"]*)"\s*,?\s*\)')


def code_rows(file: str, text: str) -> Iterator[Row]:
    for table in CODE_TABLE.finditer(text):
        name, rows = table[1].lower(), table[3]
        if table[2] == "&str":
            yield from (Row(file, name, it, index) for index, it in enumerate(re.findall('"([^"]*)"', rows)))
        for found in CODE_FIELD.finditer(rows):
            yield Row(file, name, found[5], certain(found[2]), certain(found[3]), number(found[4]), number(found[6]), number(found[7]))
        for found in CODE_NAME.finditer(rows):
            yield Row(file, name, found[2], certain(found[1]))


DEFINED_TABLE = re.compile(r"^(?:abbrev|unfoldable)? ?(?:pub )?(\w+) : List (Field|\(ℕ × List ℕ\)|\(List ℕ\))\n\1 =\n(.*?)(?=\n\n|\Z)", re.S | re.M)
DEFINED_FIELD = re.compile(
    rf'field ({NUMBER}) ({NUMBER}) (?:None|\(Some ({NUMBER})\))\s+\(codes "([^"]*)"\)\s+(?:\(bits ({NUMBER}) ({NUMBER})|\S)'
)
DEFINED_NAME = re.compile(rf'\(({NUMBER}), codes "([^"]*)"\)')


def defined_rows(file: str, text: str) -> Iterator[Row]:
    for table in DEFINED_TABLE.finditer(text):
        for found in DEFINED_FIELD.finditer(table[3]):
            yield Row(file, table[1], found[4], certain(found[1]), certain(found[2]), number(found[3]), number(found[5]), number(found[6]))
        for found in DEFINED_NAME.finditer(table[3]):
            yield Row(file, table[1], found[2], certain(found[1]))
        if table[2] == "(List ℕ)":
            yield from (Row(file, table[1], it, index) for index, it in enumerate(re.findall('codes "([^"]*)"', table[3])))


# Structures that are read from bytes: each field with its place, as code and definitions write it.
CODE_STRUCTURE = re.compile(r"^ +(\w+) \{\n((?: +\w+(?:: [^\n]*)?,\n)+) +\}", re.M)
CODE_READ = re.compile(r"(\w+): (get_u(?:8|16|32|64)|byte_at|guid_at|array_at|gas_from)\(\w+, (\d+)\)")
WIDTHS = {"get_u8": 1, "byte_at": 1, "get_u16": 2, "get_u32": 4, "get_u64": 8, "guid_at": 16, "gas_from": 12}
DEFINED_STRUCTURE = re.compile(r"^(?:abbrev|unfoldable) pub (\w+) : [^\n]*\n\1 [^\n]*= record \{(.*?)\}", re.S | re.M)
DEFINED_READ = re.compile(r"(\w+) =\s+(?:number_at \w+ (\d+) (\d+)|\(?(?:gas_at )?\(?part \w+ (\d+) (\d+)\)?)")
# Numbers by name, in a `match`, in an `elim`, and in an `if`.
ARM = re.compile(r"(?:(\d+|0x[0-9a-fA-F]+) => (?:Some\()?(\w+)::(\w+)|\b(\w+)::(\w+) => (\d+|0x[0-9a-fA-F]+)),")
WORD_ARM = re.compile(r"fn (\w+_name)\(.*?\n\}", re.S)
DEFINED_ARM = re.compile(r"^(?:abbrev|unfoldable) pub (\w+) : (\w+) → ℕ\n\1 [^\n]*elim (.*?)\]", re.S | re.M)
DEFINED_WORDS = re.compile(r"^abbrev pub (\w+_word) : ℕ → [^\n]*\n\1 (.*?)(?=\n\n|\Z)", re.S | re.M)
DEFINED_LIST = re.compile(r"^abbrev pub (\w+_of) : ℕ → Option \w+\n\1 [^\n]*=\n(.*?) ∷ \[\]", re.S | re.M)
CONSTANT = re.compile(rf"^(?:pub(?:\(crate\))? )?const (\w+): (?:usize|u8|u16|u32|u64) = ({NUMBER});", re.M)


def code_numbers(file: str, text: str) -> Iterator[Row]:
    """Places, named numbers and constants of code."""
    widths = {found[1]: int(found[2]) for found in re.finditer(r"pub (\w+): \[u8; (\d+)\]", text)}
    for structure in CODE_STRUCTURE.finditer(text):
        for name, how, at in CODE_READ.findall(structure[2]):
            yield Row(file, structure[1], name, int(at), WIDTHS.get(how) or widths[name])
    for code, kind, name, kind_2, name_2, code_2 in ARM.findall(text):
        yield Row(file, kind or kind_2, name or name_2, certain(code or code_2))
    for function in WORD_ARM.finditer(text):
        table = f"{file}: {function[1]}"
        yield from (Row(file, table, name, int(code)) for code, name in re.findall(r'(\d+) => Some\("(\w+)"\)', function[0]))
    yield from (Row(file, file, found[1], certain(found[2])) for found in CONSTANT.finditer(text))


def defined_numbers(file: str, text: str) -> Iterator[Row]:
    """Places and named numbers of definitions."""
    for structure in DEFINED_STRUCTURE.finditer(text):
        for name, at, width, from_, size in DEFINED_READ.findall(structure[2]):
            yield Row(file, structure[1], name, int(at or from_), int(width or size))
    for arms in DEFINED_ARM.finditer(text):
        yield from (Row(file, arms[2], name, certain(code)) for name, code in re.findall(rf"(\w+) ↦ ({NUMBER})", arms[3]))
    for words in DEFINED_WORDS.finditer(text):
        yield from (Row(file, words[1], name, int(code)) for code, name in re.findall(r'== (\d+) then Some \(codes "(\w+)"\)', words[2]))
    for names in DEFINED_LIST.finditer(text):
        for code, name in enumerate(re.findall(r"(?:Some )?(\w+)\s*(?=∷|$)", names[2])):
            if name != "None":
                yield Row(file, names[1], name, code)


# Where the validation bits of a structure stand, and the structures that repeat inside it: how many, how long, and where theirs stand.
VALIDITY, SIZE, COUNT = "validation bits", "size", "count"
CODE_LAYOUT = re.compile(r"Layout = Layout \{\s+valid_at: (\d+),\s+fields: &(\w+),\s+parts_at: (\d+),")
CODE_PARTS = re.compile(r"const (\w+): \[Parts; \d+\] = \[(.*?)^\];", re.S | re.M)
CODE_PART = re.compile(
    r'name: "([^"]*)",\s+count: Count \{\s+at: (\d+),\s+width: (\d+),\s+low: (\d+),\s+bits: (\d+),\s+\},'
    r"\s+size: Size::(?:Fixed\((\d+)\)|Told \{\s+at: (\d+),\s+width: (\d+),\s+more: (\d+),\s+\}),\s+valid_at: (\d+)"
)
DEFINED_LAYOUT = re.compile(r"= structure (\d+) (\w+) (\d+)")
DEFINED_PARTS = re.compile(r"^\w+ pub (\w+)_groups : [^\n]*\n\1_groups =\n(.*?)(?=\n\n|\Z)", re.S | re.M)
DEFINED_PART = re.compile(r'group \(codes "([^"]*)"\) (\d+) (\d+) (\d+) (\d+) \((?:fixed (\d+)|told (\d+) (\d+) (\d+))\) (\d+)')


# What stands inside such a structure: by which number, and where it begins.
CODE_INSIDE = re.compile(
    r"bit: (?:None|Some\((\d+)\)),\s+key: Key::(?:Number \{\s+at: \d+,\s+width: \d+,\s+number: (\d+),|Guid \{\s+at: \d+,\s+text: [^\n]*)\s+\},\s+at: (\d+),"
    r"\s+content: Content::(?:Fields\(&(\w+)\)|Registers \{\s+width: \d+,\s+names: &(\w+),)"
)
DEFINED_INSIDE = re.compile(
    r'inside \(codes "[^"]*"\) (?:None|\(Some (\d+)\)) \((?:number_sign \d+ \d+ (\d+)|guid_sign \d+ \(codes "[^"]*"\))\) (\d+) (\w+)'
)


def inside_rows(file: str, text: str) -> Iterator[Row]:
    for bit, key, at, fields, *names_ in (CODE_INSIDE if file.endswith(".rt") else DEFINED_INSIDE).findall(text):
        name = (fields or names_[0]).lower().removesuffix("_fields")
        yield Row(file, "inside: place", name, int(at), 0, number(bit or None))
        if key:
            yield Row(file, "inside: number", name, int(key))


def part_rows(file: str, table: str, found: tuple[str, ...]) -> Iterator[Row]:
    """The numbers of structures that repeat."""
    name = found[0]
    at, width, low, bits, fixed, told_at, told_width, more, valid = (int(it) if it else None for it in found[1:])
    yield Row(file, table, f"{name}: {COUNT}", at or 0, width, None, low, bits)
    yield Row(file, table, f"{name}: {SIZE}", fixed or more or 0)
    if told_at is not None:
        yield Row(file, table, f"{name}: {SIZE} of what is behind", told_at, told_width)
    if valid:
        yield Row(file, table, f"{name}: {VALIDITY}", valid)


def layouts_in(file: str, text: str) -> Iterator[Row]:
    is_code = file.endswith(".rt")
    for found in (CODE_LAYOUT if is_code else DEFINED_LAYOUT).finditer(text):
        yield Row(file, found[2].lower(), VALIDITY, int(found[1]))
        if found[3] != "0":
            yield Row(file, found[2].lower(), SIZE, int(found[3]))
    for parts in (CODE_PARTS if is_code else DEFINED_PARTS).finditer(text):
        table = parts[1].lower().removesuffix("_parts") + "_parts"
        for part in (CODE_PART if is_code else DEFINED_PART).findall(parts[2]):
            yield from part_rows(file, table, part)


def rows_of(path: Path) -> Iterator[Row]:
    file, text = str(path.relative_to(TOP)), path.read_text(encoding="utf-8")
    yield from layouts_in(file, text)
    yield from inside_rows(file, text)
    if "length_with_banks" in text:
        yield from source_rows(file, text)
    if file.startswith(("crates/smbios/specs/", "crates/machine_parts/specs/")):
        yield from smbios_rows(file, text)
    if path.suffix == ".rt":
        yield from code_rows(file, text)
        yield from code_numbers(file, text)
    else:
        yield from defined_rows(file, text)
        yield from defined_numbers(file, text)


# The lengths of error sources by their types, and where the number of their banks stands, as code and definitions say them.
LENGTH = re.compile(r"(?:\b(\d+)|kind == (\d+)) (?:=>|then) Ok(?: (\d+)|\((\d+)\))")
BANKED = re.compile(r"((?:\d+(?: \| )?)+) => length_with_banks\(\w+, \w+, (\d+), (\d+)\)|if ([^\n]*) then length_with_banks at bytes (\d+) (\d+)")


def source_rows(file: str, text: str) -> Iterator[Row]:
    """The lengths of error sources, in a file that has them."""
    for found in LENGTH.finditer(text):
        yield Row(file, "source lengths", found[1] or found[2], int(found[3] or found[4]))
    for found in BANKED.finditer(text):
        for kind in re.findall(r"\d+", found[1] or found[4]):
            yield Row(file, "source lengths", kind, int(found[2] or found[5]))
            yield Row(file, "bank counts", kind, int(found[3] or found[6]), 1)


# What is read of a System Management BIOS table, as the definitions of smbios and machine_parts write it.
SMBIOS_DEFINITIONS = (
    (r"^kind_of one = number_at one\.formatted (\d+) (\d+)", "structure", "type"),
    (r"pub len : number_at one\.formatted (\d+) (\d+)", "structure", "length"),
    (r"^is_wanted \(Handle .* has_number one (\d+)", "structure", "handle"),
    (r"^is_wanted \(Slot .* has_number one (\d+)", "system_slot", "number"),
    (r"^is_wanted \(Slot .*kind_of one == (\d+)", "structure_types", "system slot"),
    (r"^ends_table one = kind_of one == (\d+)", "structure_types", "end"),
    (r"FindsHandle (\d+) number table found\) \(λ one\. IsMemoryDevice", "structure_types", "memory device"),
    (r"FindsHandle (\d+) number table found\) \(λ one\. IsMemoryArray", "structure_types", "memory array"),
    (r"^size_of one =\n.*?field one (\d+) (\d+)", "memory_device", "size"),
    (r"^size_of one =\n.*?field one \d+ .*?field one (\d+) (\d+)", "memory_device", "extended size"),
    (r"^speed_of one =\n.*?field one (\d+) (\d+)", "memory_device", "speed"),
    (r"^speed_of one =\n.*?field one \d+ .*?field one (\d+) (\d+)", "memory_device", "extended speed"),
    (r"pub location : array\.location ≡ number_told one (\d+) (\d+)", "memory_array", "location"),
    (r"pub devices : array\.devices ≡ number_told one (\d+) (\d+)", "memory_array", "devices"),
    (r"\(λ one\. IsTextAt one (\d+)", "system_slot", "label"),
    (r'\(codes "_SM3_"\) (\d+) then', "entry_point_64", "size"),
    (r'\(codes "_SM3_"\) \d+ then part file \(number_at file (\d+) (\d+)\)', "entry_point_64", "address"),
    (r'\(codes "_SM3_"\) \d+ then part file \([^)]*\) \(number_at file (\d+) (\d+)\)', "entry_point_64", "length"),
    (r'\(codes "_SM_"\) (\d+) then', "entry_point_32", "size"),
    (r'\(codes "_SM_"\) \d+ then part file \(number_at file (\d+) (\d+)\)', "entry_point_32", "address"),
    (r'\(codes "_SM_"\) \d+ then part file \([^)]*\) \(number_at file (\d+) (\d+)\)', "entry_point_32", "length"),
)
SMBIOS_TEXT = re.compile(r"pub (\w+) : IsTextAt one (\d+)")
# By which number a section names a part.
NAMING = re.compile(r"^(\w+) (Memory2?|PciExpress) body = (?:.*number / (8)\) \()?number_([24]) body (\d+) (\d+)", re.M)
NAMED_IN = {"Memory": "memory_error_fields", "Memory2": "memory_error_2_fields", "PciExpress": "pci_express_fields"}
# Numbers that say how long what they stand for is, by their tables: these have no width of their own.
SMBIOS_WIDTHS = {("structure", "handle"): 2, ("system_slot", "number"): 2, ("system_slot", "label"): 1}


def smbios_rows(file: str, text: str) -> Iterator[Row]:
    for pattern, table, name in SMBIOS_DEFINITIONS:
        for found in re.finditer(pattern, text, re.S | re.M if r"\n" in pattern else re.M):
            at, *width = (int(it) for it in found.groups())
            yield Row(file, table, name, at, width[0] if width else SMBIOS_WIDTHS.get((table, name)))
    yield from (Row(file, "memory_device", name, int(at), 1) for name, at in SMBIOS_TEXT.findall(text))
    for name, section, is_shifted, width, bit, at in NAMING.findall(text):
        bits = (3, 13) if is_shifted else (None, None)
        yield Row(file, NAMED_IN[section], name.replace("_", " "), int(at), int(width), int(bit), *bits)


# The tools' layouts by the tables of the crates that have the same fields.
LAYOUTS = {
    "table_header_fields": layouts.TABLE_HEADER.fields,
    "erst_header_fields": layouts.ERST_HEADER.fields,
    "erst_entry_fields": layouts.ERST_ENTRY.fields,
    "hest_header_fields": layouts.HEST_HEADER.fields,
    "bert_fields_fields": layouts.BERT.fields,
    "bank_fields": layouts.BANK,
    "machine_check_fields": layouts.SOURCES[0][1].fields,
    "corrected_check_fields": layouts.SOURCES[1][1].fields,
    "nmi_source_fields": layouts.SOURCES[2][1].fields,
    "root_port_fields": layouts.SOURCES[6][1].fields,
    "pcie_device_fields": layouts.SOURCES[7][1].fields,
    "pcie_bridge_fields": layouts.SOURCES[8][1].fields,
    "generic_source_fields": layouts.SOURCES[9][1].fields,
    "generic_source_2_fields": layouts.SOURCES[10][1].fields,
    "record_header_fields": layouts.RECORD_HEADER.fields,
    "section_descriptor_fields": layouts.DESCRIPTOR.fields,
    "block_status_fields": layouts.BLOCK_STATUS.fields,
    "long_data_entry_fields": layouts.data_entry(0x300).fields,
    "processor_generic_fields": layouts.PROCESSOR.fields,
    "ia32_processor_fields": layouts.IA32.fields,
    "ia32_error_fields": layouts.IA32.parts[0].fields,
    "ia32_context_fields": layouts.IA32.parts[1].fields,
    "ia32_registers_fields": layouts.IA32_CONTEXTS[2],
    "x64_registers_fields": layouts.IA32_CONTEXTS[3],
    "arm_processor_fields": layouts.ARM.fields,
    "arm_error_fields": layouts.ARM.parts[0].fields,
    "arm_context_fields": layouts.ARM.parts[1].fields,
    "memory_error_fields": layouts.MEMORY.fields,
    "memory_error_2_fields": layouts.MEMORY_2.fields,
    "pci_express_fields": layouts.PCIE.fields,
    "pci_bus_fields": layouts.PCI_BUS.fields,
    "pci_component_fields": layouts.PCI_COMPONENT.fields,
    "register_pair_fields": layouts.PAIR,
    "firmware_record_fields": layouts.FIRMWARE.fields,
    "dma_remapping_fields": layouts.DMAR.fields,
    "directed_io_fields": layouts.VTD.fields,
    "iommu_fields": layouts.IOMMU.fields,
    "ccix_fields": layouts.CCIX.fields,
    "linux_machine_check_fields": layouts.LINUX_MACHINE_CHECK.fields,
}
CHECKS = {
    "check_fields": layouts.CHECK,
    "bus_check_fields": layouts.BUS_CHECK,
    "ms_check_fields": layouts.MS_CHECK,
    "arm_cache_error_fields": layouts.ARM_ERROR,
    "arm_bus_error_fields": layouts.ARM_BUS_ERROR,
}


def layout_rows() -> Iterator[Row]:
    """The rows of tools/apei/show/layouts.py."""
    file = "tools/apei/show/layouts.py"
    for table, fields in LAYOUTS.items():
        for it in fields:
            bits = (it.low, it.count) if it.kind == "bits" else (None, None)
            yield Row(file, table, it.name, it.at, it.width, it.bit, *bits)
    for table, checks in CHECKS.items():
        yield from (Row(file, table, name, 0, 8, bit, low, count) for bit, low, count, name in checks)
    yield from (Row(file, "section lengths", name, length) for name, layout, length in layouts.NAMES.values() if layout is not layouts.LINUX_DMESG)
    yield from (Row("tools/apei/names.py", "severities", name, number) for number, name in enumerate(names.SEVERITIES))


# Tables of docs/FORMATS.md: fields with their sizes and places, and codes with their names.
PLACES = re.compile(r"\d+ at \d+(?:, \d+ at \d+)*")
CODE_OF = re.compile(r"\| (0x[0-9A-F]+) \| ([A-Z][A-Z0-9_]+) (?=\|)")


def document_rows() -> Iterator[Row]:
    """A name before a colon or a comma is a field's; several names in a row are those of several fields."""
    file, section, part, heads = "docs/FORMATS.md", "", "", list[str]()
    for line in (TOP / file).read_text(encoding="utf-8").splitlines():
        cells = [it.strip() for it in line.split("|")[1:-1]]
        if line.startswith("#"):
            section, part = (line[3:] if line.startswith("## ") else section), line.lstrip("# ")
        if not cells:
            heads = []
        heads = heads or cells
        for head, name, places in zip(heads, cells, cells[1:]):
            if PLACES.fullmatch(places):
                found = re.findall(r"(\d+) at (\d+)", places)
                names_ = name.split(", ") if len(found) > 1 else [re.split("[:,]", name)[0]]
                yield from (Row(file, f"{section}: {head}", one, int(at), int(width)) for one, (width, at) in zip(names_, found))
        for code, name in CODE_OF.findall(line):
            yield Row(file, "instructions" if part == "Instructions" else "actions", name, int(code, 16))


def tool_rows() -> Iterator[Row]:
    """The numbers of the standards that the models have."""
    for module in (device, frames, hubs, tables):
        file = f"tools/{module.__name__.replace('.', '/')}.py"
        yield from (Row(file, file, name, value) for name, value in vars(module).items() if name.isupper() and isinstance(value, int))
    lengths = {**{kind: length for kind, length in items.FIXED.items()}, **{kind: length for kind, (length, _) in items.BANKED.items()}}
    of_layouts = {kind: length for kind, (length, _) in layouts.SOURCES.items()}
    for file, of in (("tools/apei/items.py", lengths), ("tools/apei/show/layouts.py", of_layouts)):
        yield from (Row(file, "source lengths", str(kind), length) for kind, length in of.items())
    yield from (Row("tools/apei/show/compare.py", "address_spaces", name, number) for number, name in compare.SPACES.items())
    yield from (Row("tools/apei/items.py", "bank counts", str(kind), at, 1) for kind, (_, at) in items.BANKED.items())


def all_rows() -> list[Row]:
    """All rows; a table whose fields have no validation bits has no place of them."""
    paths = sorted([*TOP.glob("crates/*/src/*.rt"), *TOP.glob("crates/*/specs/*.antt")])
    rows = [*(row for path in paths for row in rows_of(path)), *layout_rows(), *tool_rows(), *document_rows()]
    with_bits = {row.table for row in rows if row.bit is not None}
    return [row for row in rows if row.name != VALIDITY or row.width is not None or row.table in with_bits]
