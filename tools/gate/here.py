"""Has the script apei-show show what a machine has, keep it, and tell what is new, on folders that are made as a machine's.

    tools/run here

A machine has each of its places or lacks it, or its user may not read it: what is shown is what is there, in order, and what can't be read is named with
the command that reads it. What is kept is equal to the byte, with its time and a checksum that sha256sum finds right; nothing that was there is changed,
also where a run is cut, the folder is another's, or its disk is full. What was kept is not new again, by whatever name it comes, and a status says
whether something new was not corrected.
"""

import itertools
import json
import os
import random
import re
import shutil
import stat
import subprocess
from collections.abc import Callable
from pathlib import Path
from typing import Any

from apei import TOP
from apei.frames import MEMORY, Entry, Header, Section, block_of, record_of
from apei.harness import Ended, Program, Tally, scratch
from apei.show.bodies import Chance
from apei.show.files import mutated
from gate.causes import FULL, HAS_FULL, as_another
from gate.packed import LOG, packed
from here import with_status

RECORDS = TOP / "tests/records"
TABLES = "sys/firmware/acpi/tables"
REGION, STORE = f"{TABLES}/data/BERT", "dev/erst_dbg"
STAMP = r"\d{8}T\d{6}Z(-\d+)?"


def of_severity(identifier: int, severity: int, section: int | None = None) -> bytes:
    return record_of(Header(identifier, severity), Section(bytes(80), MEMORY, severity if section is None else section))


def region(severity: int, body: bytes = bytes(80), status: int | None = None) -> bytes:
    """A region with a block, whose status is that which a firmware writes, or another."""
    kind = {0: 1, 1: 1, 2: 2, 3: 0}[severity]
    told = kind | 1 << 4 if status is None else status
    return block_of(told, severity, Entry(body, severity=severity).data).ljust(4096, b"\0")


def table(signature: bytes) -> bytes:
    """A table of no entries, whose bytes add to 0."""
    data = bytearray(signature + (48).to_bytes(4, "little") + b"\1\0" + b"APEI  TRIED   ".ljust(38, b"\0"))
    data[9] = -sum(data) % 256
    return bytes(data)


# What a machine may have, and the first lines of it.
THINGS: dict[str, tuple[bytes, str]] = {
    "sys/fs/pstore/dmesg-efi_pstore-17": (LOG, f"kernel log that Linux stored, {len(LOG)} bytes"),
    "sys/fs/pstore/dmesg-erst-2.enc.z": (packed(LOG), f"kernel log that Linux stored, {len(LOG)} bytes"),
    "sys/fs/pstore/mce-erst-3": (bytes(128), ""),
    "var/lib/systemd/pstore/7/001/dmesg.txt": (b"a log\n", "kernel log that Linux stored, 6 bytes"),
    REGION: (region(1), "fatal memory error"),
    STORE: (of_severity(5, 2), "corrected memory error"),
    f"{TABLES}/ERST": (table(b"ERST"), "Error Record Serialization Table"),
}
ADDED = "sys/fs/pstore/console-ramoops-0", f"{TABLES}/DSDT", "sys/firmware/dmi/tables/DMI"


class Machines(Tally):
    """Runs of the script over folders that stand for machines."""

    def __init__(self, folder: Path) -> None:
        super().__init__()
        self.folder = folder
        folder.chmod(0o755)
        # Other users may run what is installed.
        subprocess.run([TOP / "install", f"--prefix={folder}/installed", "--without-library"], check=True, stdout=subprocess.DEVNULL)
        self.program = Program(folder / "installed/bin/apei-show")

    def machine(self, name: str, things: dict[str, bytes]) -> Path:
        root = self.folder / name
        for place, data in {"proc/sys/kernel/random/boot_id": b"one\n", **things}.items():
            path = root / place
            path.parent.mkdir(parents=True, exist_ok=True)
            path.write_bytes(data)
            os.utime(path, ns=(1_700_000_000_123_456_789, 1_700_000_000_123_456_789))
        return root

    def run(self, root: Path, *words: str, **options: Any) -> Ended:
        environment = {**os.environ, "APEI_ROOT": str(root)}
        return self.program.run("--here", *words, cwd=self.folder, env=environment, **options)

    def wants(self, what: str, done: Ended, status: int, lines: list[str], said: list[str]) -> None:
        """A case: the status, how each line begins, and what each line that is said has in it."""
        found, errors = done.replies, done.said.splitlines()
        fits = len(found) == len(lines) and all(it.startswith(by) for it, by in zip(found, lines))
        told = len(errors) == len(said) and all(it.startswith("apei-show: ") and by in it for it, by in zip(errors, said))
        self.expect(done.status == status and fits and told, f"{what}: wanted {status} {lines} {said}, found {done.status} {found} {errors}")


def has_some(machines: Machines) -> None:
    """Machines that have some of the places, and lack the others."""
    names = list(THINGS)
    some = [(), tuple(names), *((it,) for it in names), *itertools.combinations(names, 2)]
    for at, places in enumerate(some):
        root = machines.machine(f"some {at}", {place: THINGS[place][0] for place in places} | {place: b"no error" for place in ADDED})
        lines = []
        for place in sorted(places, key=names.index):
            mark = " (unpacked)" if place.endswith(".enc.z") else ""
            lines.append(f"{root / place}{mark}: {THINGS[place][1]}")
        hint = [f"{root / STORE} is not there: `sudo modprobe erst_dbg` makes it"] if f"{TABLES}/ERST" in places and STORE not in places else []
        hint += [] if places else ["this machine has no record of an error"]
        machines.wants(f"a machine with {places}", machines.run(root, "--brief"), 0, lines, hint)
        shutil.rmtree(root)
    empty = machines.machine("empty", {})
    machines.wants("a machine with nothing", machines.run(empty), 0, [], ["this machine has no record of an error"])


def no_rights(machines: Machines) -> None:
    """Places that may not be read, by another user."""
    for at, shut in enumerate([(place,) for place in THINGS] + [tuple(THINGS), ("sys/fs/pstore",), ("sys/fs/pstore", REGION)]):
        root = machines.machine(f"shut {at}", {place: data for place, (data, _) in THINGS.items()})
        for place in shut:
            (root / place).chmod(0)
        left = [it for it in THINGS if not any(it.startswith(place) for place in shut)]
        done = machines.run(root, "--brief", **as_another())
        hint = f": Permission denied: `sudo apei-show --here --brief` reads {'it' if len(shut) == 1 else 'them'}"
        named = all(str(root / place) in done.said for place in shut) and done.said.count("\n") == 1 and hint in done.said
        machines.expect(done.status == 5 and len(done.replies) == len(left) and named, f"shut {shut}: {done}")
        for place in shut:
            (root / place).chmod(0o755)


def cleared(machines: Machines) -> None:
    """A region whose status Linux cleared is shown as one whose status it did not clear."""
    entries = [Entry(bytes(80)).data, Entry(bytes(80), revision=0x300).data, Entry(bytes(73)).data + Entry(bytes(80), severity=1).data]
    for severity, data in itertools.product(range(4), entries):
        count = 2 if len(data) > 200 else 1
        kind = ({0: 1, 1: 1, 2: 2, 3: 0}[severity]) << (2 if count == 2 else 0)
        block = block_of(kind | count << 4, severity, data)
        root = machines.machine("cleared", {REGION: bytes(4) + block[4:] + bytes(300)})
        plain = machines.folder / "plain file"
        plain.write_bytes(block + bytes(300))
        wanted = machines.program.run("--json", plain).text.replace(str(plain), f"{root / REGION} (status set again, which Linux clears)")
        found = machines.run(root, "--json")
        machines.expect((found.status, found.text) == (0, wanted), f"severity {severity}, {count} entries: wanted {wanted}, found {found}")
    chance = Chance(random.Random(1))
    for _ in range(2000):
        data = mutated(chance, bytes(4) + region(chance.below(4))[4:200] + bytes(4) + region(1)[4:])
        again = with_status(data)
        machines.expect(again is None or len(again) == len(data) and with_status(again) is None, f"a region with faults: {data.hex()}")
    odd = [bytes(300), b"\0" * 16 + b"\4" + bytes(300), bytes(12) + b"\xff" * 4 + bytes(300), bytes(19), region(1)]
    for at, data in enumerate(odd):
        found = machines.run(machines.machine("odd", {REGION: data}), "--brief")
        machines.expect(found.status == 0 and "set again" not in found.text, f"an odd region, {at}: {found}")


def tree(folder: Path) -> dict[str, tuple[bytes, int]]:
    return {str(it.relative_to(folder)): (it.read_bytes(), it.stat().st_mtime_ns) for it in sorted(folder.rglob("*")) if it.is_file()}


def kept(machines: Machines) -> None:
    """What is kept, and that nothing of it is changed."""
    things = {place: data for place, (data, _) in THINGS.items()} | {place: b"no error" for place in ADDED}
    things[STORE] = of_severity(5, 2) + of_severity(6, 1) + of_severity(5, 1) + b"CPER and no more"
    things["sys/fs/pstore/dmesg-\\ of\na line"] = b"odd name"
    root, folder = machines.machine("kept", things), machines.folder / "keeps"
    first = machines.run(root, f"--keep={folder}", "--brief")
    runs = sorted(folder.iterdir())
    machines.expect(first.status == 0 and len(runs) == 1 and bool(re.fullmatch(STAMP, runs[0].name)), f"the first run: {first}, {runs}")
    run = runs[0]
    machines.expect(f"apei-show: what is new is kept in {run}\n" in first.said, f"it is not said where: {first.said}")
    records = {f"{STORE}/5": of_severity(5, 2), f"{STORE}/6": of_severity(6, 1), f"{STORE}/5-2": of_severity(5, 1), f"{STORE}/rest": b"CPER and no more"}
    wanted = {place: data for place, data in things.items() if place not in (STORE, f"{TABLES}/DSDT")} | records
    own = {"SHA256SUMS", "TIMES", "BOOT"}
    copies = tree(run)
    machines.expect({it: data for it, (data, _) in copies.items() if it not in own} == wanted, f"kept are {sorted(copies)}, wanted {sorted(wanted)}")
    machines.expect(all(time == 1_700_000_000_123_456_789 for it, (_, time) in copies.items() if it not in own), "another time")
    machines.expect(all(not it.stat().st_mode & 0o077 for it in [run, *run.rglob("*")]), "others may read what is kept")
    summed = subprocess.run(["sha256sum", "--strict", "-c", "SHA256SUMS"], cwd=run, capture_output=True, text=True, check=False)
    machines.expect(summed.returncode == 0 and summed.stdout.count(": OK\n") == len(wanted), f"sha256sum says {summed}")
    times = (run / "TIMES").read_text().splitlines()
    machines.expect(len(times) == len(wanted) and all(it.startswith("2023-11-14T22:13:20.123456789Z  ") for it in times), f"{times}")
    shown = [json.loads(line)["file"] for line in machines.run(root, f"--keep={folder}", "--json").replies]
    machines.expect(bool(shown) and all(it.startswith(f"{run}/") for it in shown), f"the copies are not what is shown: {shown}")
    again(machines, root, folder)
    refused(machines, root)


def again(machines: Machines, root: Path, folder: Path) -> None:
    """Later runs, which copy what is new alone."""
    before = tree(folder)
    second = machines.run(root, "--keep", str(folder), "--brief")
    machines.expect(second.status == 0 and tree(folder) == before and not second.said and len(second.replies) > 5, f"the second run: {second}")
    (root / "sys/fs/pstore/mce-erst-3").write_bytes(b"\1" * 128)
    third = machines.run(root, f"--keep={folder}", "--json")
    new = sorted(folder.iterdir())[-1]
    found = sorted(it for it in tree(new) if it not in ("SHA256SUMS", "TIMES", "BOOT"))
    machines.expect(third.status == 0 and found == ["sys/fs/pstore/mce-erst-3"] and before.items() <= tree(folder).items(), f"the third run: {found}, {third}")
    paths = {json.loads(line)["file"].split(" (")[0] for line in third.replies}
    machines.expect(all(Path(it).exists() for it in paths), f"shown are {paths}")
    # A run that was cut, before its checksums were written.
    (new / "SHA256SUMS").unlink()
    cut = tree(folder)
    fourth = machines.run(root, f"--keep={folder}")
    machines.expect(fourth.status == 0 and cut.items() <= tree(folder).items() and len(list(folder.iterdir())) == 3, f"after a cut: {fourth}")


def refused(machines: Machines, root: Path) -> None:
    """Folders in which nothing can be kept: what there is is shown all the same."""
    file, shut = machines.folder / "a file", machines.folder / "shut"
    file.write_bytes(b"its own")
    shut.mkdir()
    shut.chmod(0o500)
    shown = len(machines.run(root, "--brief").replies)
    for path, options in ((file, {}), (file / "below", {}), (shut, as_another()), (shut / "below", as_another())):
        done = machines.run(root, f"--keep={path}", "--brief", **options)
        machines.expect(done.status == 5 and len(done.replies) == shown and ": not all is kept\n" in done.said, f"--keep={path}: {done}")
    machines.expect(file.read_bytes() == b"its own" and not list(shut.iterdir()), "what was there is another")
    if HAS_FULL:
        (machines.folder / "folder").mkdir()
        big = machines.machine("big", {"sys/fs/pstore/dmesg-erst-1": LOG * 20})
        full = machines.run(big, "--keep=folder", "--brief", before=FULL)
        machines.expect(full.status == 5 and len(full.replies) == 1 and "No space left on device: not all is kept" in full.said, f"a full disk: {full}")


# What becomes new, whether it is an error that was not corrected, and how many items are shown of it.
NEWS: list[tuple[str, str, bytes, bool, int]] = [
    ("a corrected record", STORE, of_severity(1, 2), False, 1),
    ("an informational record", STORE, of_severity(2, 3), False, 1),
    ("a recoverable record", STORE, of_severity(3, 0), True, 1),
    ("a fatal record", STORE, of_severity(4, 1), True, 1),
    ("a fatal section in a corrected record", STORE, of_severity(5, 2, 1), True, 1),
    ("a record without its header's end", STORE, b"CPER", True, 1),
    ("a log", "sys/fs/pstore/dmesg-efi_pstore-1", LOG, True, 1),
    ("a packed log", "sys/fs/pstore/dmesg-erst-5.enc.z", packed(LOG + b"!"), True, 1),
    ("a packed log that is none", "sys/fs/pstore/dmesg-erst-6.enc.z", b"\xff" * 300, True, 1),
    ("a machine check that was corrected", "sys/fs/pstore/mce-erst-7", (1 << 63).to_bytes(8, "little") + bytes(120), False, 1),
    ("a machine check that was not", "sys/fs/pstore/mce-erst-8", (5 << 61).to_bytes(8, "little") + bytes(120), True, 1),
    ("a machine check that is cut", "sys/fs/pstore/mce-erst-9", b"\0" * 7, True, 1),
    ("what a console wrote", "sys/fs/pstore/console-ramoops-0", b"hello", False, 0),
    ("a corrected region", REGION, region(2), False, 1),
    ("a fatal region", REGION, region(1), True, 1),
    ("a fatal region whose status was cleared", REGION, region(1, bytes(79) + b"\1", 0), True, 1),
    ("a region that holds nothing", REGION, bytes(4096), False, 1),
    ("a table", f"{TABLES}/HEST", table(b"HEST"), False, 1),
    ("a table of modules", "sys/firmware/dmi/tables/DMI", b"some", False, 0),
]


def since(machines: Machines) -> None:
    """Each kind of news, that it is none again, and that it is news at another boot where it may be another error."""
    folder = machines.folder / "watch"
    for name, place, data, is_alarm, count in NEWS:
        root = machines.machine("watched", {place: data})
        words = [f"--keep={folder}", "--since-last", "--brief"]
        done = machines.run(root, *words)
        machines.expect((done.status, len(done.replies)) == (10 if is_alarm else 0, count), f"{name}: {done}")
        quiet = machines.run(root, *words)
        machines.expect((quiet.status, quiet.text, quiet.said) == (0, "", ""), f"{name}, again: {quiet}")
        moved = machines.machine("watched", {"var/lib/systemd/pstore/9/" + os.path.basename(place): data}) if place.startswith("sys/fs") else root
        quiet = machines.run(moved, *words)
        machines.expect((quiet.status, quiet.text) == (0, ""), f"{name}, moved: {quiet}")
        booted = machines.machine("watched", {place: data, "proc/sys/kernel/random/boot_id": name.encode()})
        later = machines.run(booted, *words)
        is_again = place == REGION and any(data)
        machines.expect((later.status, bool(later.text)) == (10 if is_again and is_alarm else 0, is_again), f"{name}, at another boot: {later}")
        shutil.rmtree(root)
    one_of_two(machines, folder)


def one_of_two(machines: Machines, folder: Path) -> None:
    """Records that come to others in the store, what is new while something can't be read, and a run whose output is lost."""
    words = [f"--keep={folder}", "--since-last", "--brief"]
    store = of_severity(21, 1)
    root = machines.machine("watched", {STORE: store})
    machines.wants("the first record", machines.run(root, *words), 10, [str(folder)], ["what is new is kept in"])
    store += of_severity(22, 2)
    (root / STORE).write_bytes(store)
    machines.wants("a corrected one behind it", machines.run(root, *words), 0, [str(folder)], ["what is new is kept in"])
    (root / STORE).write_bytes(of_severity(23, 1) + store)
    with open("/dev/full", "wb") as full:
        lost = machines.run(root, *words, stdout=full)
    machines.expect(lost.status == 4, f"an output that takes nothing: {lost}")
    machines.wants("what was not shown is new", machines.run(root, *words), 10, [str(folder)], ["what is new is kept in"])
    machines.wants("and then no more", machines.run(root, *words), 0, [], [])


def bad_words(machines: Machines) -> None:
    faults = {
        "file": "--here and a file are one too many",
        "--since-last": "--since-last wants --keep=DIR",
        "--keep=": "--keep=: a path is missing",
        "--here": "--here stands twice",
        "--keep": "--keep has no value behind it, as in --keep=VALUE",
        "--jason": "--jason is no option; the nearest is --json",
    }
    for word, fault in faults.items():
        words = [word]
        machines.wants(f"{words}", machines.run(machines.folder, *words), 1, [], ["bad words", fault, "apei-show --help says which words there are"])
    alone = machines.program.run("--keep=x", "file")
    machines.expect((alone.status, alone.said.splitlines()[1]) == (1, "apei-show: --keep belongs to --here"), f"{alone}")


PARTS: list[Callable[[Machines], None]] = [has_some, no_rights, cleared, kept, since, bad_words]


def main(words: list[str]) -> int:
    with scratch() as folder:
        machines = Machines(folder)
        for part in PARTS:
            if not words or part.__name__ in words:
                part(machines)
        for path in folder.rglob("*"):
            if not path.is_symlink():
                path.chmod(path.stat().st_mode | stat.S_IRWXU)
        return machines.end()
