"""The block and the record that `tests/embed/makers.c show` has made, as Linux's structures lay them out (tests/facts/facts.txt)."""

from dataclasses import dataclass, field

from apei.facts import facts

SECTION = bytes(range(0xA0, 0xA5))


def number(name: str) -> int:
    """A number that all sources agree on."""
    (found,) = facts().numbers[name]
    return found


def low_bit(mask: int) -> int:
    return mask & -mask


@dataclass
class Laid:
    """Structures one after another, whose members are put each at its place."""

    content: bytearray = field(default_factory=bytearray)
    left: set[str] = field(default_factory=set)
    begin: int = 0
    structure: str = ""

    def lay(self, structure: str) -> None:
        self.begin = len(self.content)
        self.structure = structure
        self.content += bytes(facts().sizes[structure])
        self.left |= {it for it in facts().members if it.startswith(f"{structure}.")}

    def put(self, member: str, value: int | bytes) -> None:
        name = f"{self.structure}.{member}"
        place = facts().members[name]
        data = value.to_bytes(place.size, "little") if isinstance(value, int) else value
        if len(data) != place.size:
            raise ValueError(f"{name} has {place.size} bytes")
        self.content[self.begin + place.at : self.begin + place.at + place.size] = data
        self.left.remove(name)

    def end(self) -> bytes:
        if self.left:
            raise ValueError(f"nothing says {self.left}")
        return bytes(self.content) + SECTION


def block() -> bytes:
    entry = "acpi_hest_generic_data_v300"
    laid = Laid()
    laid.lay("acpi_hest_generic_status")
    laid.put("block_status", number("ACPI_HEST_CORRECTABLE") | low_bit(number("ACPI_HEST_ERROR_ENTRY_COUNT")))
    laid.put("raw_data_offset", 0)
    laid.put("raw_data_length", 0)
    laid.put("data_length", facts().sizes[entry] + len(SECTION))
    laid.put("error_severity", number("ACPI_HEST_GEN_ERROR_CORRECTED"))
    laid.lay(entry)
    laid.put("section_type", b"\x13" * 16)
    laid.put("error_severity", number("ACPI_HEST_GEN_ERROR_CORRECTED"))
    laid.put("revision", number("EFI_ACPI_6_4_GENERIC_ERROR_DATA_ENTRY_REVISION"))
    names = "ACPI_HEST_GEN_VALID_FRU_ID", "ACPI_HEST_GEN_VALID_FRU_STRING", "ACPI_HEST_GEN_VALID_TIMESTAMP"
    laid.put("validation_bits", sum(number(it) for it in names))
    laid.put("flags", 0x12)
    laid.put("error_data_length", len(SECTION))
    laid.put("fru_id", b"\x14" * 16)
    laid.put("fru_text", b"\x15" * 20)
    laid.put("time_stamp", b"\x11" * 8)
    return laid.end()


def record() -> bytes:
    header, descriptor = "cper_record_header", "cper_section_descriptor"
    before = facts().sizes[header] + facts().sizes[descriptor]
    laid = Laid()
    laid.lay(header)
    laid.put("signature", b"CPER")
    laid.put("revision", number("EFI_ERROR_RECORD_REVISION"))
    laid.put("signature_end", number("CPER_SIG_END"))
    laid.put("section_count", 1)
    laid.put("error_severity", number("CPER_SEV_FATAL"))
    laid.put("validation_bits", number("CPER_VALID_TIMESTAMP"))
    laid.put("record_length", before + len(SECTION))
    laid.put("timestamp", b"\x22" * 8)
    laid.put("platform_id", bytes(16))
    laid.put("partition_id", bytes(16))
    laid.put("creator_id", b"\x25" * 16)
    laid.put("notification_type", b"\x26" * 16)
    laid.put("record_id", b"\x21" * 8)
    laid.put("flags", b"\x23" * 4)
    laid.put("persistence_information", bytes(8))
    laid.put("reserved", bytes(12))
    laid.lay(descriptor)
    laid.put("section_offset", before)
    laid.put("section_length", len(SECTION))
    laid.put("revision", number("EFI_ERROR_SECTION_REVISION"))
    laid.put("validation_bits", number("CPER_SEC_VALID_FRU_ID") | number("CPER_SEC_VALID_FRU_TEXT"))
    laid.put("reserved", 0)
    laid.put("flags", b"\x24" * 4)
    laid.put("section_type", b"\x27" * 16)
    laid.put("fru_id", b"\x28" * 16)
    laid.put("section_severity", number("CPER_SEV_FATAL"))
    laid.put("fru_text", b"\x29" * 20)
    return laid.end()


def wrong(shown: str) -> str | None:
    """What two lines of digits say else than the two; None where nothing."""
    wanted = [it.hex() for it in (block(), record())]
    return None if shown.split() == wanted else f"made is {shown}, which sources lay out as {wanted}"
