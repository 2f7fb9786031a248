"""Has apei-show show files, and compares it with an independent reading of them.

    tools/run show [PROGRAM] [FILES] [SEED]

PROGRAM is the built program, by default crates/apei_show/out/apei_show. It is given tables, records and blocks with sections of each
type, drawn at random, those of examples/ and tests/scripts, tables as acpidump writes them, flash images, media of the library, QEMU's
storage and files of pstore: each field, by its name and its value, is that of the plain reading (tools/apei/show), in JSON and as text,
and the text has each at its place. Items with faults are shown as far as they go, and say that they are bad. Then FILES more, 2,000 where
it is not said, are random bytes or well-formed files with faults in them: whatever they are, the program ends with status 0 in little
memory, and its output is JSON whose objects have no key twice. Files that can't be read, standard input, an output that is closed or
full, and command lines of all kinds are tried too. Each item and each file is a case.
"""

import json
import re
import resource
import subprocess
import tempfile
from collections.abc import Iterator
from pathlib import Path
from typing import Any

from apei import names
from apei.bytes import spell
from apei.harness import Ended, Program, Tally, given, scratch
from apei.show import bodies, faults, files, layouts, parts, reading, refusals, smbios
from apei.show.bodies import Chance
from apei.show.compare import ITEM, differences, is_plain, wrong_of, wrong_text
from apei.show.reading import Group, group

KINDS = {"record", "table", "block", "machine-check", "dmesg", "image", "medium", "qemu", "packed", "blank", "empty", "none"}
FORMS: list[list[str]] = [["--json"], ["--json", "--strict"], [], ["--bytes"], ["--brief"]]
FORMS_OF_TEXT: list[list[str]] = [[], ["--json"], ["--brief"], ["--bytes"]]
# The memory that a run has, and how many files it is given.
MEMORY, BATCH = 64 << 20, 100
# Files by their names.
Named = list[tuple[str, bytes]]


def once(pairs: list[tuple[str, Any]]) -> dict[str, Any]:
    """An object, which has no key twice."""
    found = dict(pairs)
    if len(found) != len(pairs):
        raise ValueError(f"a key twice: {[key for key, _ in pairs]}")
    return found


def limit() -> None:
    resource.setrlimit(resource.RLIMIT_AS, (MEMORY, MEMORY))


class Check(Tally):
    """Items and files that were tried."""

    def __init__(self, program: Program, folder: Path) -> None:
        super().__init__("items and files")
        self.program, self.folder = program, folder
        # Why Linux refused something of the tables that were tried.
        self.refused: set[str] = set()
        # How many parts were told.
        self.told = 0

    def run(self, *words: str | Path, **options: Any) -> Ended:
        return self.program.run(*words, timeout=60, preexec_fn=limit, **options)

    def file(self, name: str, data: bytes) -> Path:
        path = self.folder / name
        path.write_bytes(data)
        return path

    def items_of(self, *paths: str | Path) -> list[Group]:
        ran = self.run("--json", *paths)
        if ran.status or ran.said:
            raise ValueError(f"status {ran.status}, {ran.said[:300]!r}")
        return [json.loads(line, object_pairs_hook=once) for line in ran.replies]

    def text_items(self, *paths: str | Path) -> list[list[str]]:
        """The lines of each item, with places."""
        text = self.run("--bytes", *paths).written.decode("latin-1")
        return [it.split("\n") for it in text.rstrip("\n").split("\n\n")]

    def well_formed(self, wanted: files.Wanted) -> None:
        """A file that holds well-formed items: each of them is a case, and the file is one."""
        path = self.file(wanted.name, wanted.data)
        try:
            found = self.items_of(path)
        except ValueError as error:
            self.expect(False, f"{wanted.name}: {error}")
            return
        own = len(wanted.own)
        kinds, its = [it["kind"] for it in found[:own]], found[own:]
        said = f"{wanted.name}: it is told to be {kinds} and is {wanted.own}, with {len(its)} items, wanted {len(wanted.items)}"
        self.expect(kinds == list(wanted.own) and len(its) == len(wanted.items), said)
        texts = self.text_items(path)[own:]
        for at, (item, shown) in enumerate(zip(wanted.items, its)):
            wrong = wrong_item(item, shown, texts[at] if at < len(texts) else [])
            self.add(f"{wanted.name} ({shown['summary']}): {what}" for what in wrong)
        self.refusals(path, [it["data"] for it in wanted.items if it["kind"] == "table"])
        if any(parts.NAMED.keys() & {kind for _, kind, _ in parts.bodies_of(it)} for it in wanted.items if it["kind"] in ("record", "block")):
            self.parts(path, wanted)

    def parts(self, path: Path, wanted: files.Wanted) -> None:
        """The same with the structures of an SMBIOS, which name the parts of the machine."""
        drawn = smbios.Drawn(len(wanted.data))
        table = drawn.naming([pair for it in wanted.items for pair in parts.numbers_of(it)])
        entry = drawn.of.choice([bytes, lambda it: smbios.entry_point_32(it, 32) + it, lambda it: smbios.entry_point_64(it, 32) + it])
        if len(table) > 0xFFFF:
            entry = bytes
        option = f"--smbios={self.file('smbios', entry(table))}"
        found, texts = self.items_of(option, path)[len(wanted.own) :], self.text_items(option, path)[len(wanted.own) :]
        for item, shown, text in zip(wanted.items, found, texts):
            whole = {**item, "groups": item["groups"] + parts.part_groups(table, item)}
            self.told += len(whole["groups"]) - len(item["groups"])
            self.add(f"{wanted.name} with {option}: {what}" for what in wrong_item(whole, shown, text))

    def refusals(self, path: Path, tables: list[bytes]) -> None:
        """--strict has another status where Linux will not take all of a table."""
        refused = {it.why for table in tables for it in reading.refused(table)}
        self.refused |= refused
        if tables:
            status = self.run("--strict", path).status
            self.expect(status == (3 if refused else 0), f"--strict has status {status}, and of the tables Linux refuses {refused}")

    def batch(self, some: Named, words: list[str]) -> list[str]:
        """What is wrong of files that may hold anything: each is shown, and nothing ends the program."""
        paths = []
        for at, (name, data) in enumerate(some):
            (self.folder / str(at)).mkdir(exist_ok=True)
            paths.append(self.file(f"{at}/{name}", data))
        try:
            ran = self.run(*words, *paths)
            said = ran.said.replace("apei-show: an item is bad\n", "") if "--strict" in words else ran.said
            if ran.status not in ((0, 3) if "--strict" in words else (0,)) or said:
                raise ValueError(f"status {ran.status}, {ran.said[-300:]!r}")
            if "--json" in words:
                self.cases += check_lines(ran.text, paths)
            return []
        except (ValueError, subprocess.TimeoutExpired) as error:
            return self.narrowed(some, words, error)

    def narrowed(self, some: Named, words: list[str], error: Exception) -> list[str]:
        """Which of some files are wrong; such a file is kept."""
        if len(some) > 1:
            half = len(some) // 2
            return self.batch(some[:half], words) + self.batch(some[half:], words)
        with tempfile.NamedTemporaryFile(prefix="apei-show-", delete=False) as kept:
            kept.write(some[0][1])
        return [f"{some[0][0]} of {len(some[0][1])} bytes, kept as {kept.name}, {' '.join(words)}: {error}"]


def wrong_item(wanted: Group, found: Group, text: list[str]) -> list[str]:
    """What of an item is wrong in the JSON, or else in the text."""
    wrong = list(wrong_of(wanted, found))
    return (wrong or list(wrong_text(text, wanted, found) if is_plain(found) else []))[:3]


def check_lines(output: str, paths: list[Path]) -> int:
    """How many items the JSON has: each line is one, and each file has one at least."""
    said: dict[str, int] = {}
    for line in output.splitlines():
        item = json.loads(line, object_pairs_hook=once)
        if list(item) != ITEM or item["kind"] not in KINDS or not item["summary"] or item["item"] != said.get(item["file"], 0):
            raise ValueError(f"an item {line[:200]}")
        said[item["file"]] = item["item"] + 1
    if list(said) != list(map(str, paths)):
        raise ValueError(f"{len(said)} of {len(paths)} files have items")
    return sum(said.values())


def header_of(data: bytes) -> Group:
    if data[:4] == b"CPER":
        return group("header", layouts.RECORD_HEADER, data[:128], 0)
    layout, size = (layouts.TABLE_HEADER, 36) if data[:4].isalpha() else (layouts.BLOCK_STATUS, 20)
    return group("header", layout, data[:size], 0)


def wrong_bad(check: Check, fault: faults.Fault) -> Iterator[str]:
    """What is wrong of an item with a fault: the fields before it are shown, the item says where it is bad, and only --strict has another
    status."""
    path = check.file("bad", fault.data)
    try:
        first = check.items_of(path)[0]
    except (ValueError, IndexError) as error:
        yield f"{fault.what}: {error}"
        return
    bad = first["bad"]
    if bad is None or (bad["offset"], fault.word in bad["says"]) != (fault.at, True):
        yield f"{fault.what}: {bad}, wanted one at {fault.at} {fault.word}"
    for text in list(differences("header", header_of(fault.data), first["groups"][0] if first["groups"] else {}))[:1]:
        yield f"{fault.what}: {text}"
    if check.run(path).status != 0 or check.run("--strict", path).status != 3:
        yield f"{fault.what}: its statuses"


def one_of(check: Check, name: str, data: bytes, kind: str) -> None:
    """A file that is one item of a kind."""
    path = check.file(name, data)
    found, strict = [it["kind"] for it in check.items_of(path)], check.run("--strict", path).status
    right = found == [kind] and strict == (3 if kind == "none" else 0)
    check.expect(right, f"{name}: {found}, wanted {kind}; status {strict} with --strict")


def other_files(check: Check, chance: Chance) -> None:
    """Files of pstore by their names, files that hold none of what is known, standard input, and files that can't be read."""
    for name, data in files.of_pstore(chance):
        by_name = "packed" if name.endswith(".z") else "dmesg" if name.startswith("dmesg") else "machine-check"
        one_of(check, name, data, "record" if data[:4] == b"CPER" else by_name)
    one_of(check, "empty", b"", "empty")
    one_of(check, "blank", bytes(300), "blank")
    one_of(check, "empty-block", bytes(16) + spell(3, 4) + bytes(chance.below(300)), "blank")
    said = check.run("--brief", check.folder / "empty-block").text
    check.expect("empty error status block" in said, f"an empty status block: {said!r}")
    one_of(check, "none", b"%PDF-1.4 nothing of this kind", "none")
    plain_file = check.file("plain", bodies.bert(chance))
    by_input = check.run("--json", "-", given=bodies.bert(chance))
    check.expect(by_input.status == 0 and json.loads(by_input.text)["kind"] == "table", f"standard input: {by_input}")
    several = check.run(plain_file, check.folder / "not-there", check.folder, plain_file)
    shown, said = several.text.count("Boot Error Record Table"), several.said.count("\n")
    right = (several.status, shown, said) == (5, 2, 3) and "No such file" in several.said
    check.expect(right, f"files of which two can't be read: {several}")


def command_lines(check: Check, chance: Chance) -> None:
    """Words that are no command line, and outputs that take nothing."""
    path = check.file("table", bodies.erst(chance))
    bad: list[list[str | Path]] = [[], ["--json"], ["--json", "--brief", path], ["--json", "--json", path]]
    bad += [["--color=red", path], ["--none", path], ["--json=1", path]]
    for words in bad:
        ran = check.run(*words)
        check.expect((ran.status, ran.written) == (1, b"") and ran.said != "", f"{words}: {ran}")
    with open("/dev/full", "wb") as full:
        ran = check.program.run(path, stdout=full)
    check.expect(ran.status == 4, f"an output that is full: {ran}")
    records = check.file("records", b"".join(bodies.record(chance, (names.MEMORY, bodies.memory(chance))) for _ in range(4000)))
    closed_output(check, records)
    colored = check.run("--color=always", path).written
    right = b"\x1b[" in colored and re.sub(rb"\x1b\[[0-9;]*m", b"", colored) == check.run(path).written
    check.expect(right, "the coloured output is another")
    brief = check.run("--brief", records).replies
    check.expect(brief == [it["summary"] for it in check.items_of(records)], "the lines of --brief are others than the summaries")


def closed_output(check: Check, path: Path) -> None:
    """An output that is closed behind its first line ends a run well."""
    with subprocess.Popen([check.program.path, path], stdout=subprocess.PIPE, stderr=subprocess.PIPE) as run:
        assert run.stdout and run.stderr
        run.stdout.readline()
        run.stdout.close()
        said = run.stderr.read()
    check.expect((run.returncode, said) == (0, b""), f"an output that is closed: status {run.returncode}, {said!r}")


def greedy(check: Check) -> None:
    """Files of few bytes that say of themselves that they are very long, and a record whose sections all are the whole record: memory does
    not grow."""
    count, signature = 600, b"CPER" + spell(0x101, 2)
    length = 128 + 72 * count
    descriptor = spell(length, 4) + spell(20_000, 4) + bytes(64)
    head = signature + b"\xff" * 4 + spell(count, 2) + bytes(8) + spell(length + 20_000, 4) + bytes(104)
    told = [head + descriptor * count + bytes(20_000), signature + b"\xff" * 16 + bytes(108), b"HEST" + b"\xff" * 40]
    told += [b"ERST" + b"\xff" * 60, spell(0x12, 4) + b"\xff" * 12 + spell(2, 4) + bytes(80)]
    told += [b"ERSTSTOR" + b"\xff" * 4096, b"APEIERST" + b"\xff" * 4096]
    for data in told:
        path, wrong = check.file("greedy", data), []
        for form in FORMS_OF_TEXT:
            ran = check.run(*form, path, stdout=subprocess.DEVNULL)
            if ran.status or ran.said:
                wrong.append(f"{data[:12]!r} of {len(data)} bytes, {form}: status {ran.status}, {ran.said!r}")
        check.add(wrong)


def any_files(check: Check, chance: Chance, count: int, whole: list[bytes]) -> None:
    """Random bytes, and well-formed files with faults in them."""
    for begun in range(0, count, BATCH):
        some = [files.any_file(chance, whole) for _ in range(min(BATCH, count - begun))]
        wrong = check.batch(some, ["--json"]) + check.batch(some, chance.of.choice(FORMS))
        check.cases += len(some) - len(wrong)
        for what in wrong:
            check.add([what])


def main(words: list[str]) -> int:
    asked = given(words, more=2000, crate="apei_show")
    chance, whole = Chance(asked.chance), []
    with scratch() as folder:
        check = Check(asked.program, folder)
        for wanted in files.well_formed(chance, 8):
            whole.append(wanted.data)
            check.well_formed(wanted)
        check.expect(len(check.refused) == refusals.REASONS, f"Linux refused the tables for {sorted(check.refused)} alone")
        for fault in faults.faults(chance):
            check.add(wrong_bad(check, fault))
        other_files(check, chance)
        command_lines(check, chance)
        greedy(check)
        any_files(check, chance, asked.more, whole)
    return check.end()
