"""The fields of tables, error records, status blocks and section bodies, read from the standards: apei-show is compared with them.

Each line of a table is a field: its offset, its width in bytes, the validation bit that says whether it is there (`-` if none does),
its name, and after a colon how it is read if it isn't a number: a GUID, text, a time, a register (the generic address structure),
bytes up to the end, or some bits of a number (`bits LOW COUNT`). UEFI 2.8, Appendix N; ACPI 6.4, chapter 18.
"""

from dataclasses import dataclass


@dataclass(frozen=True)
class Field:
    at: int
    width: int
    bit: int | None
    name: str
    kind: str = "number"
    low: int = 0
    count: int = 0


@dataclass(frozen=True)
class Part:
    """Structures that repeat inside a body: how many, how long each is, and their fields."""

    name: str
    count: Field
    fields: tuple[Field, ...]
    valid_at: int = 0
    valid_width: int = 8
    size: int = 0
    # Where the part says how many bytes stand after its first `more`.
    told: Field | None = None
    more: int = 0


@dataclass(frozen=True)
class Layout:
    fields: tuple[Field, ...]
    valid_at: int = 0
    valid_width: int = 8
    parts: tuple[Part, ...] = ()
    parts_at: int = 0


def field(line: str) -> Field:
    """at width bit name[: kind]"""
    at, width, bit, rest = line.split(None, 3)
    name, _, how = rest.partition(":")
    kind, *numbers = how.split() or ["number"]
    low, count = (int(it) for it in numbers) if numbers else (0, 0)
    return Field(int(at), int(width), None if bit == "-" else int(bit), name.strip(), kind, low, count)


def fields(text: str) -> tuple[Field, ...]:
    return tuple(field(line) for line in text.strip().splitlines())


TABLE_HEADER = Layout(
    fields("""
    0 4 - signature: text
    4 4 - length
    8 1 - revision
    9 1 - checksum
    10 6 - OEM ID: text
    16 8 - OEM table ID: text
    24 4 - OEM revision
    28 4 - creator ID: text
    32 4 - creator revision
    """)
)
ERST_HEADER = Layout(
    fields("""
    36 4 - serialization header size
    44 4 - instruction entry count
    """)
)
ERST_ENTRY = Layout(
    fields("""
    0 1 - serialization action
    1 1 - instruction
    2 1 - flags
    4 12 - register region: register
    16 8 - value
    24 8 - mask
    """)
)
HEST_HEADER = Layout(fields("36 4 - error source count"))
BERT = Layout(
    fields("""
    36 4 - boot error region length
    40 8 - boot error region
    """)
)

BANK = fields("""
    0 1 - bank number
    1 1 - clear status on initialization
    2 1 - status data format
    4 4 - control register MSR address
    8 8 - control init data
    16 4 - status register MSR address
    20 4 - address register MSR address
    24 4 - misc register MSR address
    """)
# The notification structure, at the place where it stands in a source.
NOTIFICATION = [
    (0, 1, "notification type"),
    (1, 1, "notification length"),
    (2, 2, "configuration write enable"),
    (4, 4, "poll interval"),
    (8, 4, "vector"),
    (12, 4, "switch to polling threshold value"),
    (16, 4, "switch to polling threshold window"),
    (20, 4, "error threshold value"),
    (24, 4, "error threshold window"),
]


def notification(at: int) -> tuple[Field, ...]:
    return tuple(Field(at + offset, width, None, name) for offset, width, name in NOTIFICATION)


SOURCE = fields("""
    0 2 - type
    2 2 - source ID
    """)
MACHINE_CHECK = fields("""
    6 1 - flags
    7 1 - enabled
    8 4 - number of records to pre-allocate
    12 4 - max sections per record
    """)
PCI = fields("""
    6 1 - flags
    7 1 - enabled
    8 4 - number of records to pre-allocate
    12 4 - max sections per record
    16 4 - bus
    20 2 - device
    22 2 - function
    24 2 - device control
    28 4 - uncorrectable error mask
    32 4 - uncorrectable error severity
    36 4 - correctable error mask
    40 4 - advanced error capabilities and control
    """)
GENERIC = (
    fields("""
    4 2 - related source ID
    6 1 - flags
    7 1 - enabled
    8 4 - number of records to pre-allocate
    12 4 - max sections per record
    16 4 - max raw data length
    20 12 - error status address: register
    """)
    + notification(32)
    + fields("60 4 - error status block length")
)


# By type, ACPI 6.4, 18.3.2.1 and on; the length of each without its banks.
SOURCES: dict[int, tuple[int, Layout]] = {
    0: (
        40,
        Layout(
            SOURCE
            + MACHINE_CHECK
            + fields("""
    16 8 - global capability init data
    24 8 - global control init data
    32 1 - number of hardware banks
    """),
            parts=(Part("bank", Field(32, 1, None, ""), BANK, size=28),),
            parts_at=40,
        ),
    ),
    2: (
        20,
        Layout(
            SOURCE
            + fields("""
    8 4 - number of records to pre-allocate
    12 4 - max sections per record
    16 4 - max raw data length
    """)
        ),
    ),
    6: (48, Layout(SOURCE + PCI + fields("44 4 - root error command"))),
    7: (44, Layout(SOURCE + PCI)),
    8: (
        56,
        Layout(
            SOURCE
            + PCI
            + fields("""
    44 4 - secondary uncorrectable error mask
    48 4 - secondary uncorrectable error severity
    52 4 - secondary advanced error capabilities and control
    """)
        ),
    ),
    9: (64, Layout(SOURCE + GENERIC)),
    10: (
        92,
        Layout(
            SOURCE
            + GENERIC
            + fields("""
    64 12 - read ack register: register
    76 8 - read ack preserve
    84 8 - read ack write
    """)
        ),
    ),
}
for corrected in (1, 11):
    SOURCES[corrected] = (
        48,
        Layout(
            SOURCE + MACHINE_CHECK + notification(16) + fields("44 1 - number of hardware banks"),
            parts=(Part("bank", Field(44, 1, None, ""), BANK, size=28),),
            parts_at=48,
        ),
    )

RECORD_HEADER = Layout(
    fields("""
    0 4 - signature start: text
    4 2 - revision
    6 4 - signature end
    10 2 - section count
    12 4 - error severity
    16 4 - validation bits
    20 4 - record length
    24 8 1 timestamp: time
    32 16 0 platform ID: guid
    48 16 2 partition ID: guid
    64 16 - creator ID: guid
    80 16 - notification type: guid
    96 8 - record ID
    104 4 - flags
    108 8 - persistence information
    """),
    valid_at=16,
    valid_width=4,
)
DESCRIPTOR = Layout(
    fields("""
    0 4 - section offset
    4 4 - section length
    8 2 - revision
    10 1 - validation bits
    12 4 - flags
    16 16 - section type: guid
    32 16 0 FRU ID: guid
    48 4 - section severity
    52 20 1 FRU text: text
    """),
    valid_at=10,
    valid_width=1,
)
BLOCK_STATUS = Layout(
    fields("""
    0 4 - block status
    0 4 - error data entry count: bits 4 10
    4 4 - raw data offset
    8 4 - raw data length
    12 4 - data length
    16 4 - error severity
    """)
)
DATA_ENTRY = fields("""
    0 16 - section type: guid
    16 4 - error severity
    20 2 - revision
    22 1 - validation bits
    23 1 - flags
    24 4 - error data length
    28 16 0 FRU ID: guid
    44 20 1 FRU text: text
    """)


def data_entry(revision: int) -> Layout:
    timed = fields("64 8 2 timestamp: time") if revision >= 0x300 else ()
    return Layout(DATA_ENTRY + timed, valid_at=22, valid_width=1)


PROCESSOR = Layout(
    fields("""
    8 1 0 processor type
    9 1 1 processor ISA
    10 1 2 processor error type
    11 1 3 operation
    12 1 4 flags
    13 1 5 level
    16 8 6 CPU version info
    24 128 7 CPU brand string: text
    152 8 8 processor ID
    160 8 9 target address
    168 8 10 requestor identifier
    176 8 11 responder identifier
    184 8 12 instruction IP
    """)
)

# The bits of a check (N.2.4.2.1): each with its validation bit, where it begins and how many they are.
CHECK = [
    (0, 16, 2, "transaction type"),
    (1, 18, 4, "operation"),
    (2, 22, 3, "level"),
    (3, 25, 1, "processor context corrupt"),
    (4, 26, 1, "uncorrected"),
    (5, 27, 1, "precise IP"),
    (6, 28, 1, "restartable IP"),
    (7, 29, 1, "overflow"),
]
BUS_CHECK = CHECK + [(8, 30, 2, "participation type"), (9, 32, 1, "time out"), (10, 33, 2, "address space")]
MS_CHECK = [
    (0, 16, 3, "error type"),
    (1, 19, 1, "processor context corrupt"),
    (2, 20, 1, "uncorrected"),
    (3, 21, 1, "precise IP"),
    (4, 22, 1, "restartable IP"),
    (5, 23, 1, "overflow"),
]
CHECKS = {
    "a55701f5-e3ef-43de-ac72-249b573fad2c": ("cache check", CHECK),
    "fc06b535-5e1f-4562-9f25-0a3b9adb63c3": ("TLB check", CHECK),
    "1cf3f8b3-c5b1-49a2-aa59-5eef92ffa63c": ("bus check", BUS_CHECK),
    "48ab7f57-dc34-4f6c-a7d3-b0b5b0a74314": ("MS check", MS_CHECK),
}
IA32 = Layout(
    fields("""
    8 8 0 local APIC ID
    16 48 1 CPUID info: bytes
    """),
    parts=(
        Part(
            "error information",
            Field(0, 8, None, "", "bits", 2, 6),
            fields("""
    0 16 - error structure type: guid
    24 8 0 check information
    32 8 1 target identifier
    40 8 2 requestor identifier
    48 8 3 responder identifier
    56 8 4 instruction pointer
    """),
            valid_at=16,
            size=64,
        ),
        Part(
            "context",
            Field(0, 8, None, "", "bits", 8, 6),
            fields("""
    0 2 - register context type
    2 2 - register array size
    4 4 - MSR address
    8 8 - MM register address
    """),
            told=Field(2, 2, None, ""),
            more=16,
        ),
    ),
    parts_at=64,
)


def registers(width: int, names: str) -> tuple[Field, ...]:
    return tuple(Field(width * index, width, None, name) for index, name in enumerate(names.split()))


# Registers of contexts by type, without the bytes in front of them (N.2.4.2.2, N.2.4.4.2).
SEGMENTS = "CS DS SS ES FS GS"
IA32_CONTEXTS = {
    2: registers(4, "EAX EBX ECX EDX ESI EDI EBP ESP")
    + tuple(Field(32 + it.at, 2, None, it.name) for it in registers(2, SEGMENTS))
    + tuple(Field(44 + it.at, 4, None, it.name) for it in registers(4, "EFLAGS EIP CR0 CR1 CR2 CR3 CR4"))
    + fields("""
    72 8 - GDTR
    80 8 - IDTR
    88 2 - LDTR
    90 2 - TR
    """),
    3: registers(8, "RAX RBX RCX RDX RSI RDI RBP RSP R8 R9 R10 R11 R12 R13 R14 R15")
    + tuple(Field(128 + it.at, 2, None, it.name) for it in registers(2, SEGMENTS))
    + tuple(Field(144 + it.at, 8, None, it.name) for it in registers(8, "RFLAGS EIP CR0 CR1 CR2 CR3 CR4 CR8"))
    + fields("""
    208 16 - GDTR
    224 16 - IDTR
    240 2 - LDTR
    242 2 - TR
    """),
}
ARM_CONTEXTS = {
    0: registers(4, "R0 R1 R2 R3 R4 R5 R6 R7 R8 R9 R10 R11 R12 R13 R14 R15"),
    1: registers(
        4,
        "DFAR DFSR IFAR ISR MAIR0 MAIR1 MIDR MPIDR NMRR PRRR SCTLR_NS SPSR SPSR_abt SPSR_fiq SPSR_irq SPSR_svc SPSR_und TPIDRPRW TPIDRURO TPIDRURW"
        " TTBCR TTBR0 TTBR1 DACR",
    ),
    2: registers(4, "ELR_hyp HAMAIR0 HAMAIR1 HCR HCR2 HDFAR HIFAR HPFAR HSR HTCR HTPIDR HTTBR SPSR_hyp VTCR VTTBR DACR32_EL2"),
    3: registers(4, "SCTLR_S SPSR_mon"),
    4: registers(8, " ".join(f"X{number}" for number in range(31)) + " SP"),
    5: registers(
        8,
        "ELR_EL1 ESR_EL1 FAR_EL1 ISR_EL1 MAIR_EL1 MIDR_EL1 MPIDR_EL1 SCTLR_EL1 SP_EL0 SP_EL1 SPSR_EL1 TCR_EL1 TPIDR_EL0 TPIDR_EL1 TPIDRRO_EL0"
        " TTBR0_EL1 TTBR1_EL1",
    ),
    6: registers(
        8,
        "ELR_EL2 ESR_EL2 FAR_EL2 HACR_EL2 HCR_EL2 HPFAR_EL2 MAIR_EL2 SCTLR_EL2 SP_EL2 SPSR_EL2 TCR_EL2 TPIDR_EL2 TTBR0_EL2 VTCR_EL2 VTTBR_EL2",
    ),
    7: registers(8, "ELR_EL3 ESR_EL3 FAR_EL3 MAIR_EL3 SCTLR_EL3 SP_EL3 SPSR_EL3 TCR_EL3 TPIDR_EL3 TTBR0_EL3"),
}

# ARM error information by the bits of its type (N.2.4.4.1; the bits as the errata of 2.9 names them: 1 cache, 2 TLB, 3 bus,
# 4 micro-architectural).
ARM_ERROR = [
    (0, 16, 2, "transaction type"),
    (1, 18, 4, "operation"),
    (2, 22, 3, "level"),
    (3, 25, 1, "processor context corrupt"),
    (4, 26, 1, "corrected"),
    (5, 27, 1, "precise PC"),
    (6, 28, 1, "restartable PC"),
]
ARM_BUS_ERROR = ARM_ERROR + [
    (7, 29, 2, "participation type"),
    (8, 31, 1, "time out"),
    (9, 32, 2, "address space"),
    (10, 34, 9, "memory access attributes"),
    (11, 43, 1, "access mode"),
]
# By the type of an error.
ARM_ERRORS = {2: ("cache error", ARM_ERROR), 4: ("TLB error", ARM_ERROR), 8: ("bus error", ARM_BUS_ERROR)}
ARM = Layout(
    fields("""
    4 2 - ERR_INFO_NUM
    6 2 - CONTEXT_INFO_NUM
    8 4 - section length
    12 1 1 error affinity level
    16 8 0 MPIDR_EL1
    24 8 - MIDR_EL1
    32 4 2 running state
    36 4 2 PSCI state
    """),
    valid_width=4,
    parts=(
        Part(
            "error information",
            Field(4, 2, None, ""),
            fields("""
    0 1 - version
    1 1 - length
    4 1 - type
    5 2 0 multiple error
    7 1 1 flags
    8 8 2 error information
    16 8 3 virtual fault address
    24 8 4 physical fault address
    """),
            valid_at=2,
            valid_width=2,
            size=32,
        ),
        Part(
            "context",
            Field(6, 2, None, ""),
            fields("""
    0 2 - version
    2 2 - register context type
    4 4 - register array size
    """),
            told=Field(4, 4, None, ""),
            more=8,
        ),
    ),
    parts_at=40,
)

MEMORY = Layout(
    fields("""
    8 8 0 error status
    8 8 0 error status type: bits 8 8
    16 8 1 physical address
    24 8 2 physical address mask
    32 2 3 node
    34 2 4 card
    36 2 5 module
    38 2 6 bank
    39 1 19 bank group
    38 1 20 bank address
    40 2 7 device
    42 2 8 row
    44 2 9 column
    46 2 10 bit position
    48 8 11 requestor ID
    56 8 12 responder ID
    64 8 13 target ID
    72 1 14 memory error type
    73 1 18 extended row: bits 0 2
    73 1 21 chip identification: bits 5 3
    74 2 15 rank number
    76 2 16 card handle
    78 2 17 module handle
    """)
)
MEMORY_2 = Layout(
    fields("""
    8 8 0 error status
    8 8 0 error status type: bits 8 8
    16 8 1 physical address
    24 8 2 physical address mask
    32 2 3 node
    34 2 4 card
    36 2 5 module
    38 2 6 bank
    39 1 20 bank group
    38 1 21 bank address
    40 4 7 device
    44 4 8 row
    48 4 9 column
    52 4 10 rank
    56 4 11 bit position
    60 1 12 chip identification
    61 1 13 memory error type
    62 1 14 status
    64 8 15 requestor ID
    72 8 16 responder ID
    80 8 17 target ID
    88 4 18 card handle
    92 4 19 module handle
    """)
)
PCIE = Layout(
    fields("""
    8 4 0 port type
    12 1 1 version minor
    13 1 1 version major
    16 2 2 command
    18 2 2 status
    24 2 3 vendor ID
    26 2 3 device ID
    28 3 3 class code
    31 1 3 function number
    32 1 3 device number
    33 2 3 segment number
    35 1 3 primary bus number
    36 1 3 secondary bus number
    37 2 3 slot number: bits 3 13
    40 8 4 device serial number
    48 2 5 secondary status
    50 2 5 bridge control
    52 1 6 capability ID
    53 1 6 next capability
    54 2 6 PCI Express capabilities
    56 4 6 device capabilities
    60 2 6 device control
    62 2 6 device status
    64 4 6 link capabilities
    68 2 6 link control
    70 2 6 link status
    72 4 6 slot capabilities
    76 2 6 slot control
    78 2 6 slot status
    80 2 6 root control
    82 2 6 root capabilities
    84 4 6 root status
    88 4 6 device capabilities 2
    92 2 6 device control 2
    94 2 6 device status 2
    96 4 6 link capabilities 2
    100 2 6 link control 2
    102 2 6 link status 2
    104 4 6 slot capabilities 2
    108 2 6 slot control 2
    110 2 6 slot status 2
    112 4 7 AER capability header
    116 4 7 uncorrectable error status
    120 4 7 uncorrectable error mask
    124 4 7 uncorrectable error severity
    128 4 7 correctable error status
    132 4 7 correctable error mask
    136 4 7 advanced error capabilities and control
    140 4 7 header log 0
    144 4 7 header log 1
    148 4 7 header log 2
    152 4 7 header log 3
    156 4 7 root error command
    160 4 7 root error status
    164 2 7 correctable error source
    166 2 7 uncorrectable error source
    """)
)
PCI_BUS = Layout(
    fields("""
    8 8 0 error status
    8 8 0 error status type: bits 8 8
    16 2 1 error type
    18 1 2 bus number
    19 1 2 segment number
    24 8 3 bus address
    32 8 4 bus data
    40 8 5 bus command
    48 8 6 bus requestor ID
    56 8 7 bus completer ID
    64 8 8 target ID
    """)
)
PAIR = fields("""
    0 8 - address
    8 8 - value
    """)
PCI_COMPONENT = Layout(
    fields("""
    8 8 0 error status
    8 8 0 error status type: bits 8 8
    16 2 1 vendor ID
    18 2 1 device ID
    20 3 1 class code
    23 1 1 function number
    24 1 1 device number
    25 1 1 bus number
    26 1 1 segment number
    32 4 2 memory number
    36 4 3 IO number
    """),
    parts=(Part("memory register", Field(32, 4, None, ""), PAIR, size=16), Part("IO register", Field(36, 4, None, ""), PAIR, size=16)),
    parts_at=40,
)
FIRMWARE = Layout(
    fields("""
    0 1 - firmware error record type
    1 1 - revision
    8 8 - record identifier
    16 16 - record identifier GUID extension: guid
    """)
)
DMAR = Layout(
    fields("""
    0 2 - requester ID
    2 2 - segment number
    4 1 - fault reason
    5 1 - access type
    6 1 - address type
    7 1 - architecture type
    8 8 - device address
    """)
)
VTD = Layout(
    fields("""
    0 1 - version
    1 1 - revision
    2 6 - OEM ID: text
    8 8 - capability register
    16 8 - extended capability register
    24 4 - global command register
    28 4 - global status register
    32 4 - fault status register
    48 16 - fault record
    64 16 - root entry
    80 16 - context entry
    96 8 - level 6 page table entry
    104 8 - level 5 page table entry
    112 8 - level 4 page table entry
    120 8 - level 3 page table entry
    128 8 - level 2 page table entry
    136 8 - level 1 page table entry
    """)
)
IOMMU = Layout(
    fields("""
    0 1 - revision
    8 8 - control register
    16 8 - status register
    32 16 - event log entry
    64 32 - device table entry
    96 8 - level 6 page table entry
    104 8 - level 5 page table entry
    112 8 - level 4 page table entry
    120 8 - level 3 page table entry
    128 8 - level 2 page table entry
    136 8 - level 1 page table entry
    """)
)
CCIX = Layout(
    fields("""
    0 4 - length
    12 1 0 CCIX source ID
    13 1 1 CCIX port ID
    16 0 2 CCIX PER log: bytes
    """),
    valid_at=4,
)
# Linux's own (arch/x86/include/uapi/asm/mce.h, fs/pstore).
LINUX_MACHINE_CHECK = Layout(
    fields("""
    0 8 - status
    8 8 - misc
    16 8 - addr
    24 8 - mcgstatus
    32 8 - ip
    40 8 - tsc
    48 8 - time: seconds
    56 1 - cpuvendor
    57 1 - inject flags
    58 1 - severity
    60 4 - cpuid
    64 1 - cs
    65 1 - bank
    66 1 - cpu
    67 1 - finished
    68 4 - extcpu
    72 4 - socketid
    76 4 - apicid
    80 8 - mcgcap
    88 8 - synd
    96 8 - ipid
    104 8 - ppin
    112 4 - microcode
    120 8 - kflags
    """)
)
LINUX_DMESG = Layout(fields("0 0 - text: lines"))

NAMES = {
    "9876ccad-47b4-4bdb-b65e-16f193c4f3db": ("Processor Generic", PROCESSOR, 192),
    "dc3ea0b0-a144-4797-b95b-53fa242b6e1d": ("IA32/X64 Processor", IA32, 64),
    "e19e3d16-bc11-11e4-9caa-c2051d5d46b0": ("ARM Processor", ARM, 40),
    "a5bc1114-6f64-4ede-b863-3e83ed7c83b1": ("Platform Memory", MEMORY, 80),
    "61ec04fc-48e6-d813-25c9-8daa44750b12": ("Platform Memory 2", MEMORY_2, 96),
    "d995e954-bbc1-430f-ad91-b44dcb3c6f35": ("PCI Express", PCIE, 208),
    "c5753963-3b84-4095-bf78-eddad3f9c9dd": ("PCI/PCI-X Bus", PCI_BUS, 72),
    "eb5e4685-ca66-4769-b6a2-26068b001326": ("PCI Component", PCI_COMPONENT, 40),
    "81212a96-09ed-4996-9471-8d729c8e69ed": ("Firmware Error Record Reference", FIRMWARE, 32),
    "5b51fef7-c79d-4434-8f1b-aa62de3e2c64": ("DMAr Generic", DMAR, 32),
    "71761d37-32b2-45cd-a7d0-b0fedd93e8cf": ("Intel VT for Directed I/O", VTD, 144),
    "036f84e1-7f37-428c-a79e-575fdfaa84ec": ("IOMMU", IOMMU, 144),
    "91335ef6-ebfb-4478-a6a6-88b728cf75d7": ("CCIX PER Log", CCIX, 36),
    "fe08ffbe-95e4-4be7-bc73-4096044a38fc": ("Linux machine check", LINUX_MACHINE_CHECK, 128),
    "c197e04e-d545-4a70-9c17-a5549419eb12": ("Linux dmesg", LINUX_DMESG, 40),
}
