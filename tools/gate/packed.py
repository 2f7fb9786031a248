"""Has the script apei-show show logs that Linux packed, and files that some program packed or wrote as text.

    tools/run packed

The record of tests/records, made records with logs that are whole, cut at each of many lengths, damaged, followed by more, empty and too long, alone
and beside others, and files of pstore: what is shown unpacked is what zlib makes of the same stream, behind what the program says of the file itself.
Of each file that holds nothing of what is known, the command that is said shows what it holds.
"""

import bz2
import gzip
import json
import lzma
import random
import re
import shutil
import signal
import subprocess
import zlib
from collections.abc import Iterator
from pathlib import Path
from typing import Any

from apei import TOP
from apei.bytes import guid_bytes
from apei.flash import Geometry
from apei.frames import Header, Section, record, record_of
from apei.harness import Ended, Program, Tally, scratch
from apei.looks import PER_SLOT, SECTOR, medium_header
from apei.show.bodies import Chance
from apei.show.files import mutated, qemu_storage
from apei.store import Store

PACKED = guid_bytes("4f118707-04dd-4055-b5dd-956d34ddfac6")
RECORDS = TOP / "tests/records"
MOST = 1 << 24
LOG = b"Panic#1 Part1\n" + b"".join(b"<4>[%5d.000000] line %d: %d\n" % (it, it, it * it * 7919 % 9973) for it in range(300))


def packed(text: bytes) -> bytes:
    packing = zlib.compressobj(9, zlib.DEFLATED, -15)
    return packing.compress(text) + packing.flush()


def plain(stream: bytes) -> bytes:
    """What zlib makes of a stream that may be cut: byte by byte."""
    unpacking, out = zlib.decompressobj(-15), b""
    for at in range(len(stream)):
        try:
            out += unpacking.decompress(stream[at : at + 1])
        except zlib.error:
            break
    return out


def of_logs(*streams: bytes, identifier: int = 7) -> bytes:
    return record_of(Header(identifier, 1), *(Section(it, PACKED, 1) for it in streams))


class Shows(Tally):
    """Runs of the script in a folder."""

    def __init__(self, folder: Path) -> None:
        super().__init__()
        self.folder = folder

    def run(self, *words: str | Path, **options: Any) -> Ended:
        return Program(TOP / "apei-show").run(*words, cwd=self.folder, **options)

    def file(self, name: str, data: bytes) -> str:
        (self.folder / name).write_bytes(data)
        return name

    def wants(self, what: str, done: Ended, status: int, lines: list[str], said: list[str]) -> None:
        """A case: status, first lines and what is said, each of which may be the beginning of what came."""
        found, errors = done.replies, done.said.splitlines()
        fits = len(found) == len(lines) and len(errors) == len(said) and all(it.startswith(by) for it, by in zip(found + errors, lines + said))
        self.expect(done.status == status and fits, f"{what}: wanted {status} {lines} {said}, found {done.status} {found} {errors}")

    def texts(self, *words: str | Path, **options: Any) -> dict[str, str]:
        """The texts of the logs that are shown, by the names of their files."""
        shown = [json.loads(line) for line in self.run("--json", *words, **options).replies]
        return {it["file"]: it["groups"][0].get("text", "") for it in shown if it["kind"] == "dmesg"}


def shown(text: bytes) -> str:
    """A text as the program has it in JSON."""
    return text.decode("latin-1")


def linux(shows: Shows) -> None:
    """What Linux wrote."""
    for path in sorted(RECORDS.glob("*.bin")):
        sentence = path.with_suffix(".sentence").read_text().rstrip("\n")
        data = path.read_bytes()
        if PACKED in data:
            text = plain(data[200:])
            lines = [f"{path}: {sentence}", f"{path} (item 0, section 0, unpacked): kernel log that Linux stored, {len(text)} bytes"]
            shows.wants(path.name, shows.run("--brief", path), 0, lines, [])
            shows.expect(list(shows.texts(path).values()) == [shown(text)], f"{path.name}: another text")
        else:
            shows.wants(path.name, shows.run("--brief", path), 0, [sentence], [])


def streams() -> Iterator[tuple[str, bytes, str | None]]:
    """Streams by what is wrong of them, and how the line begins that says so."""
    whole = packed(LOG)
    yield "whole", whole, None
    yield "stored", zlib.compressobj(0, zlib.DEFLATED, -15).flush(), None
    yield "more", whole + b"\0" * 100, "100 bytes stand behind the end of its stream"
    yield "just more", whole + b"\0", "1 bytes stand behind the end of its stream"
    yield "longest", packed(bytes(MOST - 9) + b"the end\n\n"), None
    yield "bomb", packed(bytes(MOST + 1)), f"unpacked it has more than {MOST} bytes"
    yield "great bomb", packed(bytes(MOST * 16)), f"unpacked it has more than {MOST} bytes"
    yield "empty", b"", "its stream is cut: it has 0 bytes and no end"
    for length in range(1, len(whole), 331):
        yield f"cut at {length}", whole[:length], f"its stream is cut: it has {length} bytes and no end"
    for at in range(64, len(whole), 662):
        yield f"damaged at {at}", whole[:at] + b"\xff" * 70 + whole[at + 70 :], None
    yield "zlib", zlib.compress(LOG), "its stream is damaged, or is no deflate, within the 64 bytes from byte 0"
    yield "digits", b"0123456789abcdef" * 8, "its stream is damaged, or is no deflate, within the 64 bytes from byte 0"


def made(shows: Shows) -> None:
    """Records and files of pstore with each stream."""
    for what, stream, why in streams():
        if what == "longest":
            done = shows.run("--brief", shows.file("record", of_logs(stream)))
            shows.expect(done.text.endswith(f"unpacked): kernel log that Linux stored, {MOST} bytes\n") and not done.said, f"{what}: {done}")
            continue
        text = b"" if "bomb" in what else plain(stream)
        is_damaged = what.startswith("damaged")
        path, stored = shows.file("record", of_logs(stream)), shows.file("dmesg-erst-7.enc.z", stream)
        for file, name, place in ((path, f"{path} (item 0, section 0, unpacked)", f"{path}: item 0, section 0"), (stored, f"{stored} (unpacked)", stored)):
            done, found = shows.run("--json", file), shows.texts(file)
            said = f"apei-show: {place}: {why}\n" if why else ""
            right = re.fullmatch(f"(apei-show: {re.escape(place)}: (its stream is|[0-9]+ bytes stand) .*\n|)", done.said) if is_damaged else done.said == said
            shows.expect(done.status == 0 and bool(right), f"{what}, {file}: {done.status} {done.said!r}, wanted {said!r}")
            # What stands before a fault is kept up to the pieces in which it is unpacked.
            told = found.get(name, "")
            fits = shown(text).startswith(told) and len(told) >= len(text) - 70_000 if is_damaged else told == shown(text)
            shows.expect(fits and len(found) == bool(told), f"{what}, {file}: shows {list(found)} of {len(told)} bytes, wanted {len(text)}")


def several(shows: Shows) -> None:
    """Logs beside others, and the forms of the output."""
    one, two = b"one\n" * 9, b"two \x80\xff \"quoted\"\n"
    file = shows.file('a "b" \\ c', record(1, 300) + of_logs(packed(one), packed(b""), packed(two), identifier=2) + of_logs(packed(LOG), identifier=3))
    other = shows.file("other", record(5, 300))
    names = [f"{file} (item {item}, section {index}, unpacked)" for item, index in ((1, 0), (1, 2), (2, 0))]
    shows.expect(shows.texts(file, other) == dict(zip(names, map(shown, (one, two, LOG)))), f"{file}: {shows.texts(file, other)}")
    brief = shows.run("--brief", other, file, other).replies
    wanted = [other, file, file, file, *names, other]
    shows.expect([line.rpartition(": ")[0].partition(": ")[0] for line in brief] == wanted, f"{brief}")
    text = shows.run(file).text
    shows.expect([it[1] for it in re.finditer(r"^(\S.*):$", text, re.MULTILINE)] == [file, *names], f"the heads of the files: {text[:300]}")
    alone = shows.file("dmesg-efi_pstore-9.enc.z", packed(one))
    shows.wants("a file alone", shows.run("--brief", alone), 0, [f"{alone} (unpacked): kernel log that Linux stored, 36 bytes"], [])
    head, sentence, *rest = shows.run(alone).replies
    shows.expect((head, sentence) == (f"{alone} (unpacked):", "kernel log that Linux stored, 36 bytes") and len(rest) > 2, f"{head}, {sentence}")
    with open(shows.folder / file, "rb") as opened:
        both = [shows.texts("-", given=(shows.folder / file).read_bytes()), shows.texts("-", stdin=opened)]
    wanted_names = [it.replace(file, "-") for it in names]
    shows.expect(all(list(it) == wanted_names for it in both), f"standard input: {both}")
    # Nothing is left of what was unpacked.
    temporary = shows.folder / "temporary"
    temporary.mkdir()
    shows.run(file, env={"TMPDIR": str(temporary), "PATH": "/usr/bin:/bin"})
    shows.expect(not list(temporary.iterdir()), "a copy is left")
    small = Program(Path("sh")).run("-c", f"ulimit -f 0; exec {TOP}/apei-show --brief {alone}", cwd=shows.folder, preexec_fn=ignore_limit)
    shows.wants("no room for copies", small, 0, ["the body of a record that Linux packed"], [f"apei-show: {alone}: it is not unpacked: "])
    many = shows.file("many", b"".join(of_logs(packed(b"%d" % it), identifier=it) for it in range(1, 1003)))
    done = shows.run("--json", many)
    shows.expect(len(done.replies) == 2002 and done.said.count("1000 logs of 2893 bytes were unpacked before it\n") == 2, f"many: {done.said}")


def stores(shows: Shows) -> None:
    """Logs in records that stand in flash images, in a medium of the library, and in QEMU's storage, where they may lie in several slots."""
    texts = [b"short\n", LOG[:900]]
    records = [of_logs(packed(text), identifier=at) for at, text in enumerate(texts, 1)]
    played = Store(Geometry(SECTOR, PER_SLOT, 16))
    for it in records:
        played.play("write " + it.hex())
    medium = medium_header(SECTOR, PER_SLOT, 16) + played.image
    for name, data, first in (("image", played.image, 1), ("medium", medium, 2), ("storage", qemu_storage(records), 1)):
        wanted = {f"{name} (item {first + at}, section 0, unpacked)": shown(text) for at, text in enumerate(texts)}
        found = shows.texts(shows.file(name, data))
        shows.expect(found == wanted, f"{name}: {list(found)}, wanted {list(wanted)}")


def mutations(shows: Shows) -> None:
    """Files with faults in them: whatever they are, they are shown, and what is said is the script's."""
    chance = Chance(random.Random(1))
    whole = [of_logs(packed(LOG), packed(b"two")), qemu_storage([of_logs(packed(LOG[:300]))]), packed(LOG), gzip.compress(LOG), LOG.hex().encode()]
    for _ in range(12):
        files = [shows.file(f"{at}.enc.z" if chance.below(5) == 0 else f"{at}", mutated(chance, chance.of.choice(whole))) for at in range(25)]
        done = shows.run("--json", *files)
        named = {json.loads(line)["file"].partition(" (")[0] for line in done.replies}
        said = all(line.startswith("apei-show: ") for line in done.said.splitlines())
        shows.expect(done.status == 0 and named == set(files) and said, f"files with faults: {done.status} {done.said[:500]} {set(files) - named}")


def ignore_limit() -> None:
    signal.signal(signal.SIGXFSZ, signal.SIG_IGN)


def others(shows: Shows) -> None:
    """Files that hold nothing of what is known, and the commands by which they are shown all the same."""
    data = record(7, 300)
    wanted = shows.run("--json", shows.file("plain", data)).replies
    digits = data.hex()
    forms = {
        "records.gz": (gzip.compress(data), "zcat"),
        "records.xz": (lzma.compress(data), "xzcat"),
        "records.bz2": (bz2.compress(data), "bzcat"),
        "digits": (digits.encode() + b"\n", "xxd"),
        "digits in pairs": (b"\n".join(b" ".join(b"%02X" % it for it in data[at : at + 16]) for at in range(0, len(data), 16)), "xxd"),
        "it's a dump": (b"".join(b"%08x: %s  ....\n" % (at, data[at : at + 16].hex(" ", 2).encode()) for at in range(0, len(data), 16)), "xxd"),
        "behind": (b"\x55" * 100 + data, "tail"),
    }
    if shutil.which("zstd"):
        forms["records.zst"] = (subprocess.run(["zstd", "-c"], input=data, capture_output=True, check=True).stdout, "zstdcat")
    for name, (held, command) in forms.items():
        done = shows.run("--brief", shows.file(name, held))
        found = re.fullmatch(rf"apei-show: {re.escape(name)}: .*`({command} .* \| \./apei-show) -`\n", done.said)
        shows.expect(done.status == 0 and found is not None and "none of these" in done.text, f"{name}: {done}")
        if found and shutil.which(command):
            said = found[1].replace("./apei-show", f"{TOP}/apei-show --json -")
            again = subprocess.run(["sh", "-c", said], cwd=shows.folder, capture_output=True, text=True, check=False)
            shows.expect(again.stdout.replace('"file":"-"', '"file":"plain"').splitlines() == wanted, f"{name}: {said}: {again}")
        piped = shows.run("--brief", "-", given=held)
        shows.expect(f"standard input: {found[0].split(': ', 2)[2].partition('`')[0] if found else ''}" in piped.said, f"{name}: {piped.said}")
    # What is known is not told about, whatever stands in it.
    for name, held in (("none", b"nothing at all"), ("record", data + data), ("blank", bytes(300)), ("empty", b"")):
        shows.expect(shows.run("--brief", shows.file(name, held)).said == "", f"{name}: something is said")
    shows.expect("CPER stands at byte 100: `tail -c +101 behind | ./apei-show -`" in shows.run("behind").said, "the place of a record")


def main(_words: list[str]) -> int:
    with scratch() as folder:
        shows = Shows(folder)
        linux(shows)
        made(shows)
        several(shows)
        stores(shows)
        mutations(shows)
        others(shows)
        return shows.end()
