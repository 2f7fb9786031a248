"""What this machine has of hardware errors, for `apei-show --here`: files that Linux shows, by the places that it shows them at.

The places are below the folder that APEI_ROOT names, or below /.
"""

import os
from collections.abc import Iterator
from typing import NamedTuple, Optional

from streams import reason_of

ROOT = os.environ.get("APEI_ROOT") or "/"
# Messages and machine checks that Linux stored, and where systemd moves them at the next boot.
PSTORE = "sys/fs/pstore", "var/lib/systemd/pstore"
TABLES = "sys/firmware/acpi/tables"
# The errors that the firmware found as the machine booted.
REGION = f"{TABLES}/data/BERT"
# The records of the firmware's store, whoever wrote them.
STORE = "dev/erst_dbg"
SMBIOS, ENTRY_POINT = "sys/firmware/dmi/tables/DMI", "sys/firmware/dmi/tables/smbios_entry_point"
BOOT = "proc/sys/kernel/random/boot_id"
# The most bytes of a file that are read, and how many at once: the kernel gives one whole record of the store a call.
MOST, PIECE = 1 << 28, 1 << 20
# The bytes of a status block before its entries.
BLOCK = 20
# Files of pstore that are no errors: what programs and the console wrote, which is there at each boot.
NO_ERRORS = "console-", "pmsg-", "ftrace-"


class Found(NamedTuple):
    """A file: its place below the root, its bytes, and when it was changed, in nanoseconds since 1970."""

    place: str
    data: bytes
    time: int

    @property
    def is_error(self) -> bool:
        """Whether it may hold an error that happened; a table doesn't."""
        return not self.place.startswith(TABLES) and not self.is_smbios or self.place == REGION

    @property
    def is_smbios(self) -> bool:
        return self.place in (SMBIOS, ENTRY_POINT)

    @property
    def is_shown(self) -> bool:
        return not self.is_smbios and not os.path.basename(self.place).startswith(NO_ERRORS)

    @property
    def is_log(self) -> bool:
        """Whether it is the text of a kernel's log, by its name."""
        name = os.path.basename(self.place)
        return name.startswith("dmesg-") and not name.endswith(".enc.z") or name == "dmesg.txt"


class Machine:
    """What a machine has, and what of it can't be read."""

    def __init__(self, root: str = ROOT) -> None:
        self.root = root
        self.files: list[Found] = []
        self.denied: list[str] = []
        self.failed: list[str] = []
        for folder in PSTORE:
            for place in self.places_in(folder):
                self.look(place)
        for place in (REGION, STORE, *(f"{TABLES}/{name}" for name in ("ERST", "HEST", "BERT")), SMBIOS, ENTRY_POINT):
            self.look(place)

    def path(self, place: str) -> str:
        return os.path.join(self.root, place)

    def has(self, place: str) -> bool:
        return os.path.lexists(self.path(place))

    def note(self, error: OSError) -> None:
        """Keeps why a file or a folder can't be read; one that is not there is none of this machine."""
        path = str(error.filename)
        if isinstance(error, PermissionError):
            self.denied.append(path)
        elif not isinstance(error, (FileNotFoundError, NotADirectoryError)):
            self.failed.append(f"{path}: {reason_of(error)}")

    def places_in(self, folder: str) -> Iterator[str]:
        """The files in a folder and in those below it, in the order of their names."""
        for path, folders, names in os.walk(self.path(folder), onerror=self.note):
            folders.sort()
            yield from (os.path.relpath(os.path.join(path, name), self.root) for name in sorted(names))

    def look(self, place: str) -> None:
        """Reads a file, where it is there and may be read."""
        path = self.path(place)
        try:
            pieces, size = list[bytes](), 0
            with open(path, "rb", buffering=0, opener=lambda it, flags: os.open(it, flags | os.O_NONBLOCK)) as file:
                while size <= MOST and (data := file.read(PIECE)):
                    pieces.append(data)
                    size += len(data)
                time = os.fstat(file.fileno()).st_mtime_ns
        except OSError as error:
            error.filename = error.filename or path
            self.note(error)
            return
        if size > MOST:
            self.failed.append(f"{path}: it has more than {MOST} bytes")
        else:
            self.files.append(Found(place, b"".join(pieces), time))

    @property
    def boot(self) -> str:
        """The kernel's name of this boot; nothing where it has none."""
        try:
            with open(self.path(BOOT), encoding="ascii", errors="replace") as file:
                return file.read(64).strip()
        except OSError:
            return ""

    def lacks(self, command: str) -> Iterator[str]:
        """What is said of what was not read. `command` is how the script was called."""
        if self.denied:
            them = "them" if len(self.denied) > 1 else "it"
            helps = f"`sudo {command}` reads {them}" if os.geteuid() else "it is root who asks, so the kernel or its policy forbids it"
            yield f"{', '.join(self.denied)}: Permission denied: {helps}"
        yield from self.failed
        if self.has(f"{TABLES}/ERST") and not self.has(STORE):
            yield f"{self.path(STORE)} is not there: `sudo modprobe erst_dbg` makes it, and it has the records of the firmware's store"


def records_in(data: bytes) -> Iterator[tuple[str, bytes]]:
    """The records of the store one by one, each with its identifier; what is none stands last."""
    at = 0
    while data[at : at + 4] == b"CPER" and len(data) - at >= 128:
        length = int.from_bytes(data[at + 20 : at + 24], "little")
        if not 128 <= length <= len(data) - at:
            break
        yield str(int.from_bytes(data[at + 96 : at + 104], "little")), data[at : at + length]
        at += length
    if data[at:]:
        yield "rest", data[at:]


def split(files: list[Found]) -> Iterator[Found]:
    """The files as they are kept: each record of the store is one of its own."""
    for it in files:
        if it.place != STORE:
            yield it
            continue
        names = dict[str, int]()
        for name, data in records_in(it.data):
            names[name] = names.get(name, 0) + 1
            yield Found(f"{STORE}/{name}" + (f"-{names[name]}" if names[name] > 1 else ""), data, it.time)


def booted(found: Found, boot: str) -> Optional[str]:
    """The boot that a file belongs to: the same region at a later boot is another error."""
    return boot if found.place == REGION and any(found.data) else None


def with_status(region: bytes) -> Optional[bytes]:
    """A region with the block status of each block set again, which Linux clears once it has printed the block (drivers/acpi/apei/bert.c); None where
    none was cleared.

    A status says how severe the errors are, and counts the entries (ACPI 6.4, 18.3.2.7.1): both stand in the block all the same.
    """
    out, at = bytearray(region), 0
    while len(out) - at >= BLOCK:
        status, raw_at, raw, size, severity = (int.from_bytes(out[at + place : at + place + 4], "little") for place in (0, 4, 8, 12, 16))
        end = max(BLOCK + size, raw_at + raw if raw else 0)
        if end > len(out) - at or severity > 3 or not size and not raw:
            break
        if not status:
            entries = entries_in(bytes(out[at + BLOCK : at + BLOCK + size]))
            many = 2 if entries > 1 else 0
            kind = 1 << many if severity in (0, 1) else 2 << many if severity == 2 else 0
            out[at : at + 4] = (kind | min(entries, 1023) << 4).to_bytes(4, "little")
        at += end
    return bytes(out) if out != region else None


def entries_in(data: bytes) -> int:
    """How many entries stand in the data of a block (ACPI 6.4, 18.3.2.7.1): their heads have 72 bytes since revision 3.0, and 64 before."""
    at, count = 0, 0
    while len(data) - at >= 64:
        at += (72 if int.from_bytes(data[at + 20 : at + 22], "little") >= 0x300 else 64) + int.from_bytes(data[at + 24 : at + 28], "little")
        count += 1
    return count
