"""The values in the lines that Linux prints of an error status block (drivers/firmware/efi/cper*.c), by the standard's names."""

import os
import re
import sys
from typing import Any, Callable, Iterator, Optional

TOP = os.path.abspath(os.path.join(os.path.dirname(__file__), "../../.."))
sys.path.insert(0, os.path.join(TOP, "tools"))
from apei import names  # noqa: E402

SEVERITIES = ["recoverable", "fatal", "corrected", "info"]
RECORD_TYPES = ["IPF SAL Error Record", "SOC Firmware Error Record Type1 (Legacy CrashLog Support)", "SOC Firmware Error Record Type2"]
CHECK_TYPES = {"cache error": names.CHECKS[0], "TLB error": names.CHECKS[1], "bus error": names.CHECKS[2], "micro-architectural error": names.CHECKS[3]}
TRANSACTIONS = ["instruction", "data access", "generic"]
OPERATIONS = [
    "generic error (type cannot be determined)",
    "generic read (type of instruction or data request cannot be determined)",
    "generic write (type of instruction of data request cannot be determined)",
    "data read",
    "data write",
    "instruction fetch",
    "prefetch",
]
OF_CACHES = ["eviction", "snooping", "snooped", "management"]
OF_TLBS = ["local management operation", "external management operation"]
PARTICIPATIONS = ["local processor originated request", "local processor responded to request", "local processor observed", "generic"]
SPACES = ["external memory access", "internal memory access", "unknown", "device memory access"]
IA32_CONTEXTS = [
    "Unclassified Data",
    "MSR Registers (Machine Check and other MSRs)",
    "32-bit Mode Execution Context",
    "64-bit Mode Execution Context",
    "FXSAVE Context",
    "32-bit Mode Debug Registers (DR0-DR7)",
    "64-bit Mode Debug Registers (DR0-DR7)",
    "Memory Mapped Registers",
]
ARM_CONTEXTS = [
    "AArch32 general purpose registers",
    "AArch32 EL1 context registers",
    "AArch32 EL2 context registers",
    "AArch32 secure context registers",
    "AArch64 general purpose registers",
    "AArch64 EL1 context registers",
    "AArch64 EL2 context registers",
    "AArch64 EL3 context registers",
    "Misc. system register structure",
]
ERROR_FLAGS = ["first error captured", "last error captured", "propagated error captured", "overflow occurred, error info is incomplete"]

# A value that Linux prints: where it stands in apei-show's item (the group, and in it the part with its number and what is inside it), the name of the field,
# and the value: a number or a text, or nothing if Linux says that it has no word for it.
Place = tuple[Any, ...]
Value = tuple[Place, str, Any]
# How a line is read: what follows its pattern makes values of the text that was found.
Rule = tuple[str, Callable[..., list[Value]]]


def number(text: str) -> int:
    """Linux prints some numbers of 32 bits with a sign."""
    return int(text, 0) % 2**64 if not text.startswith("-") else int(text) % 2**32


def numbers(place: Place, *names: str) -> Callable[..., list[Value]]:
    """Each text that was found is the number of the field of this name."""
    return lambda *found: [(place, name, number(text)) for name, text in zip(names, found)]


def in_hexadecimal(place: Place, *names: str) -> Callable[..., list[Value]]:
    return lambda *found: [(place, name, int(text, 16)) for name, text in zip(names, found)]


def by_name(place: Place, name: str, names: list[str]) -> Callable[..., list[Value]]:
    """The number whose name was found."""
    small = [it.lower() for it in names]

    def value(found: str) -> list[Value]:
        text = re.sub(r" \(processor .*\)$", "", found).lower()
        return [(place, name, small.index(text) if text in small else None)]

    return value


def words(*_: str) -> list[Value]:
    """A line that says in words what another one says in numbers."""
    return []


BODY = ("section",)
ENTRY = ("entry",)
WORDS = r"[^:]*"
NUMBER = r"(0x[0-9a-f]+|-?\d+)"
DIGITS = r"([0-9a-f]+)"


def line_rules(place: Place, names: dict[str, str]) -> list[Rule]:
    """Lines of one number after a word: `WORD: NUMBER`, and mostly what it means."""
    return [(rf"{re.escape(word)}: {NUMBER}(?:, .*|: .*)?", numbers(place, name)) for word, name in names.items()]


PROCESSOR_RULES: list[Rule] = [
    *line_rules(
        BODY,
        {
            "processor_type": "processor type",
            "processor_isa": "processor ISA",
            "error_type": "processor error type",
            "operation": "operation",
            "flags": "flags",
            "level": "level",
            "version_info": "CPU version info",
            "processor_id": "processor ID",
            "target_address": "target address",
            "requestor_id": "requestor identifier",
            "responder_id": "responder identifier",
            "IP": "instruction IP",
        },
    ),
    (WORDS, words),
]

MEMORY_WORDS = {
    "node": "node",
    "card": "card",
    "module": "module",
    "rank": "rank number",
    "bank": "bank",
    "bank_group": "bank group",
    "bank_address": "bank address",
    "device": "device",
    "row": "row and its extension",
    "column": "column",
    "bit_position": "bit position",
    "requestor_id": "requestor ID",
    "responder_id": "responder ID",
    "target_id": "target ID",
    "chip_id": "chip identification",
}
MEMORY_RULES: list[Rule] = [
    (rf"error_status: .* \({NUMBER}\)", numbers(BODY, "error status")),
    *line_rules(
        BODY,
        {"physical_address": "physical address", "physical_address_mask": "physical address mask", "error_type": "memory error type"},
    ),
    (rf"DIMM location: not present. DMI handle: {NUMBER} ?", numbers(BODY, "module handle")),
    (
        rf"((?:(?:{'|'.join(MEMORY_WORDS)}):{NUMBER} ?)+)",
        lambda text, *_: [(BODY, MEMORY_WORDS[it.partition(":")[0]], number(it.partition(":")[2])) for it in text.split()],
    ),
]

PCIE_RULES: list[Rule] = [
    *line_rules(BODY, {"port_type": "port type", "slot": "slot number", "secondary_bus": "secondary bus number"}),
    (rf"version: (\d+)\.(\d+)", numbers(BODY, "version major", "version minor")),
    (rf"command: {NUMBER}, status: {NUMBER}", numbers(BODY, "command", "status")),
    (rf"device_id: {DIGITS}:{DIGITS}:{DIGITS}\.{DIGITS}", in_hexadecimal(BODY, "segment number", "primary bus number", "device number", "function number")),
    (rf"vendor_id: {NUMBER}, device_id: {NUMBER}", numbers(BODY, "vendor ID", "device ID")),
    (rf"class_code: {DIGITS}", in_hexadecimal(BODY, "class code")),
    (rf"serial number: {NUMBER}, {NUMBER}", lambda low, high: [(BODY, "device serial number", number(low) | number(high) << 32)]),
    (rf"bridge: secondary_status: {NUMBER}, control: {NUMBER}", numbers(BODY, "secondary status", "bridge control")),
    (rf"aer_cor_status: {NUMBER}, aer_cor_mask: {NUMBER}", numbers(BODY, "correctable error status", "correctable error mask")),
    (rf"aer_uncor_status: {NUMBER}, aer_uncor_mask: {NUMBER}", numbers(BODY, "uncorrectable error status", "uncorrectable error mask")),
    (rf"aer_uncor_severity: {NUMBER}", numbers(BODY, "uncorrectable error severity")),
    (rf"TLP Header: {DIGITS} {DIGITS} {DIGITS} {DIGITS}", in_hexadecimal(BODY, "header log 0", "header log 1", "header log 2", "header log 3")),
]

FIRMWARE_RULES: list[Rule] = [
    (r"Firmware Error Record Type: (.*)", by_name(BODY, "firmware error record type", RECORD_TYPES)),
    (rf"Revision: {NUMBER}", numbers(BODY, "revision")),
    (r"Record Identifier: ([0-9a-f-]{36})", lambda text: [(BODY, "record identifier GUID extension", text)]),
    (rf"Record Identifier: {DIGITS}", in_hexadecimal(BODY, "record identifier")),
    (r"bytes: [0-9a-f]*", words),
]

CHECK_OF = {"cache error": "cache check", "TLB error": "TLB check", "bus error": "bus check", "micro-architectural error": "MS check"}


class Ia32:
    """The rules of IA32/X64 sections, whose structures follow one another."""

    def __init__(self) -> None:
        self.place: Place = BODY
        self.check = ""

    def begins(self, name: str) -> Callable[..., list[Value]]:
        def begin(index: str) -> list[Value]:
            self.place, self.check = (*BODY, name, int(index)), ""
            return []

        return begin

    def kind(self, text: str) -> list[Value]:
        if text in CHECK_TYPES:
            self.check = CHECK_OF[text]
            return [(self.place, "error structure type", CHECK_TYPES[text])]
        return [] if text == "unknown" else [(self.place, "error structure type", text)]

    def of_part(self, name: str) -> Callable[..., list[Value]]:
        return lambda text: [(self.place, name, number(text))]

    def of_check(self, name: str) -> Callable[..., list[Value]]:
        return lambda text: [((*self.place, self.check), name, {"true": 1, "false": 0}.get(text) if text in ("true", "false") else number(text))]

    def rules(self) -> list[Rule]:
        checks = ["Transaction Type", "Operation", "Level", "Participation Type", "Address Space", "Error Type"]
        bits = ["Processor Context Corrupt", "Uncorrected", "Precise IP", "Restartable IP", "Overflow", "Time Out"]
        names = {
            "Check Information": "check information",
            "Target Identifier": "target identifier",
            "Requestor Identifier": "requestor identifier",
            "Responder Identifier": "responder identifier",
            "Instruction Pointer": "instruction pointer",
            "Register Array Size": "register array size",
            "MSR Address": "MSR address",
            "MM Register Address": "MM register address",
        }
        return [
            (rf"Local APIC_ID: {NUMBER}", numbers(BODY, "local APIC ID")),
            (r"CPUID Info:", words),
            (r"Error Information Structure (\d+):", self.begins("error information")),
            (r"Context Information Structure (\d+):", self.begins("context")),
            (r"Error Structure Type: (.*)", self.kind),
            *[(rf"{word}: {NUMBER}", self.of_part(name)) for word, name in names.items()],
            *[(rf"{word}: {NUMBER}(?:, .*)?", self.of_check(word.lower().replace(" ip", " IP"))) for word in checks],
            *[(rf"{word}: (true|false)", self.of_check(word.lower().replace(" ip", " IP"))) for word in bits],
            (r"Register Context Type: (.*)", lambda text: by_name(self.place, "register context type", IA32_CONTEXTS)(text)),
            (r"Register Array:", words),
            (r"bytes: ([0-9a-f]*)", lambda text: [(BODY, "CPUID info", text)] if self.place == BODY else []),
        ]


class Arm:
    """The rules of ARM sections."""

    def __init__(self) -> None:
        self.place: Place = BODY

    def begins(self, name: str) -> Callable[..., list[Value]]:
        def begin(index: str) -> list[Value]:
            self.place = (*BODY, name, int(index))
            return []

        return begin

    def of_part(self, name: str, what: Callable[[str], int] = number) -> Callable[..., list[Value]]:
        return lambda text: [(self.place, name, what(text))]

    def of_error(self, kind: str, name: str, names: Optional[list[str]] = None) -> Callable[..., list[Value]]:
        """A part of the error information; in one of several kinds Linux says it for each of them."""

        def value(text: str) -> list[Value]:
            place = (*self.place, kind)
            return [(place, name, number(text))] if names is None else by_name(place, name, names)(text)

        return value

    def of_any(self, name: str, value: int) -> Callable[..., list[Value]]:
        return lambda: [((*self.place, "*"), name, value)]

    def rules(self) -> list[Rule]:
        flags = [(re.escape(text), lambda bit=bit: [((*self.place, "flag"), "flags", bit)]) for bit, text in enumerate(ERROR_FLAGS)]
        return [
            (rf"MIDR: {NUMBER}", numbers(BODY, "MIDR_EL1")),
            (rf"Multiprocessor Affinity Register \(MPIDR\): {NUMBER}", numbers(BODY, "MPIDR_EL1")),
            (rf"error affinity level: {NUMBER}", numbers(BODY, "error affinity level")),
            (rf"running state: {NUMBER}", numbers(BODY, "running state")),
            (rf"Power State Coordination Interface state: {NUMBER}", numbers(BODY, "PSCI state")),
            (r"Error info structure (\d+):", self.begins("error information")),
            (r"Context info structure (\d+):", self.begins("context")),
            (r"num errors: (\d+)", self.of_part("multiple error", lambda text: int(text) - 1)),
            *flags,
            (rf"error_type: {NUMBER}: .*", self.of_part("type")),
            (rf"error_info: {NUMBER}", self.of_part("error information")),
            (rf"virtual fault address: {NUMBER}", self.of_part("virtual fault address")),
            (rf"physical fault address: {NUMBER}", self.of_part("physical fault address")),
            (r"transaction type: (.*)", self.of_error("*", "transaction type", TRANSACTIONS)),
            (r"cache error, operation type: (.*)", self.of_error("cache error", "operation", OPERATIONS + OF_CACHES)),
            (r"TLB error, operation type: (.*)", self.of_error("TLB error", "operation", OPERATIONS + OF_TLBS)),
            (r"bus error, operation type: (.*)", self.of_error("bus error", "operation", OPERATIONS)),
            (rf"cache level: {NUMBER}", self.of_error("cache error", "level")),
            (rf"TLB level: {NUMBER}", self.of_error("TLB error", "level")),
            (rf"affinity level at which the bus error occurred: {NUMBER}", self.of_error("bus error", "level")),
            (r"processor context corrupted", self.of_any("processor context corrupt", 1)),
            (r"processor context not corrupted", self.of_any("processor context corrupt", 0)),
            (r"the error has been corrected", self.of_any("corrected", 1)),
            (r"the error has not been corrected", self.of_any("corrected", 0)),
            (r"PC is precise", self.of_any("precise PC", 1)),
            (r"PC is imprecise", self.of_any("precise PC", 0)),
            (r"Program execution can be restarted reliably at the PC associated with the error\.", self.of_any("restartable PC", 1)),
            (r"participation type: (.*)", self.of_error("*", "participation type", PARTICIPATIONS)),
            (r"request timed out", self.of_any("time out", 1)),
            (r"address space: (.*)", self.of_error("*", "address space", SPACES)),
            (rf"memory access attributes:{NUMBER}", self.of_error("*", "memory access attributes")),
            (r"access mode: normal", self.of_any("access mode", 1)),
            (r"access mode: secure", self.of_any("access mode", 0)),
            (r"register context type: (.*)", lambda text: by_name(self.place, "register context type", ARM_CONTEXTS)(text)),
            (r"Vendor specific error info has (\d+) bytes:", words),
            (r"bytes: [0-9a-f]*", words),
        ]


MACHINE_CHECK_RULES: list[Rule] = [(rf"(\w+): {NUMBER}", lambda name, text: [(BODY, name.replace("_", " "), number(text))])]

# What Linux prints of the block and of its one section.
OUTER_RULES: list[Rule] = [
    (r"It has been corrected by h/w and requires no further action", words),
    (r"event severity: (.*)", by_name(("header",), "error severity", SEVERITIES)),
    (r"Error 0, type: (.*)", by_name(ENTRY, "error severity", SEVERITIES)),
    (r"fru_id: ([0-9a-f-]{36})", lambda text: [(ENTRY, "FRU ID", text)]),
    (r"fru_text: (.*)", lambda text: [(ENTRY, "FRU text", text)]),
    (r"imprecise tstamp: (.*)", lambda text: [(ENTRY, "timestamp", text)]),
    (r"precise tstamp: (.*)", lambda text: [(ENTRY, "timestamp", f"{text} precise")]),
    (r"section_type: .*", words),
]


def rules_of(kind: str) -> list[Rule]:
    if kind == names.IA32:
        return Ia32().rules()
    if kind == names.ARM:
        return Arm().rules()
    return {
        names.PROCESSOR: PROCESSOR_RULES,
        names.MEMORY: MEMORY_RULES,
        names.PCIE: PCIE_RULES,
        names.FIRMWARE: FIRMWARE_RULES,
        names.MACHINE_CHECK: MACHINE_CHECK_RULES,
    }[kind]


def values(kind: str, lines: list[str]) -> Iterator[Value]:
    """The values of all lines that Linux printed of a block with one section of a type."""
    rules = OUTER_RULES + rules_of(kind)
    for line in lines:
        for pattern, make in rules:
            found = re.fullmatch(pattern, line.lstrip(" "), re.DOTALL)
            if found:
                yield from make(*found.groups())
                break
        else:
            raise SystemExit(f"a line of Linux's is not known: {line!r}")
