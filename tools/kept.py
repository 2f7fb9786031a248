"""What was kept of a machine's errors, for `apei-show --here --keep=DIR`.

Each run that finds something new makes a folder of its own below DIR, by its time in UTC. It has copies of what is new, below the names that they had,
with their times; SHA256SUMS, which `sha256sum -c` reads; TIMES; and BOOT, the kernel's name of the boot. SHA256SUMS is written last, with
--since-last once all was shown, so a folder without it belongs to a run that was cut, and counts for nothing. Nothing that is there is opened for writing.
"""

import hashlib
import os
import re
import time
from typing import NamedTuple, Optional

from here import Found, booted

SUMS, TIMES, BOOT = "SHA256SUMS", "TIMES", "BOOT"
LINE = re.compile(r"(\\?)([0-9a-f]{64})  (.+)")


class Key(NamedTuple):
    """What makes a copy the copy of a file: the file's place, the checksum of its bytes, and its boot, where that matters."""

    place: str
    sum: str
    boot: Optional[str]


def key_of(found: Found, boot: str) -> Key:
    return Key(found.place, hashlib.sha256(found.data).hexdigest(), booted(found, boot))


class Kept:
    """The folder of what was kept, and what its runs say of it."""

    def __init__(self, folder: str) -> None:
        self.folder = folder
        # The copies by what they are of. A region is found by its boot, and without it.
        self.copies: dict[Key, str] = {}
        # The folder of this run, and what it has.
        self.run: Optional[str] = None
        self.new: list[tuple[Found, Key]] = []
        for name in sorted(os.listdir(folder)) if os.path.isdir(folder) else []:
            self.read_run(os.path.join(folder, name))
        self.sums = {(it.sum, it.boot) for it in self.copies}

    def read_run(self, run: str) -> None:
        try:
            with open(os.path.join(run, SUMS), encoding="utf-8", errors="surrogateescape") as file:
                lines = file.read().split("\n")
            with open(os.path.join(run, BOOT), encoding="utf-8", errors="replace") as file:
                boot = file.read().strip()
        except (FileNotFoundError, NotADirectoryError):
            return
        for line in lines:
            if found := LINE.fullmatch(line):
                place = unescaped(found[3]) if found[1] else found[3]
                for key in {Key(place, found[2], None), Key(place, found[2], boot)}:
                    self.copies.setdefault(key, os.path.join(run, place))

    def is_new(self, found: Found, boot: str) -> bool:
        """Whether the same bytes were not kept before, by whatever name."""
        key = key_of(found, boot)
        return (key.sum, key.boot) not in self.sums

    def keep(self, files: list[Found], boot: str) -> dict[str, str]:
        """Copies what is not there yet; the path of each file's copy."""
        keys = [(it, key_of(it, boot)) for it in files]
        self.new = [(it, key) for it, key in keys if key not in self.copies]
        if self.new:
            self.run = self.new_run()
            write(os.path.join(self.run, BOOT), f"{boot}\n".encode())
            lines = "".join(f"{told_time(it.time)}  {len(it.data)}  {escaped(it.place)}\n" for it, _ in self.new)
            write(os.path.join(self.run, TIMES), lines.encode(errors="surrogateescape"))
        for it, key in self.new:
            path = os.path.join(self.run or "", it.place)
            make_folder(os.path.dirname(path))
            write(path, it.data)
            os.utime(path, ns=(it.time, it.time))
            self.copies[key] = path
        return {it.place: self.copies[key] for it, key in keys}

    def new_run(self) -> str:
        """Makes the folder of this run, which no other has."""
        make_folder(self.folder)
        stem = os.path.join(self.folder, time.strftime("%Y%m%dT%H%M%SZ", time.gmtime()))
        for number in range(1, 1000):
            try:
                run = stem if number == 1 else f"{stem}-{number}"
                os.mkdir(run, 0o700)
                return run
            except FileExistsError:
                continue
        raise FileExistsError(17, "there are a thousand folders of this second", stem)

    def seal(self) -> None:
        """Writes the checksums of what is new, by which it is known from now on."""
        if self.run is None:
            return
        for folder, _, _ in os.walk(self.run):
            sync(folder)
        new = os.path.join(self.run, f".{SUMS}")
        write(new, b"".join(sum_line(key) for _, key in self.new))
        os.rename(new, os.path.join(self.run, SUMS))
        sync(self.run)
        sync(self.folder)


def make_folder(path: str) -> None:
    """Makes a folder that is not there, and those that it is in, for their owner alone."""
    if not os.path.isdir(path):
        make_folder(os.path.dirname(os.path.abspath(path)))
        os.mkdir(path, 0o700)


def write(path: str, data: bytes) -> None:
    """Writes a file that is not there yet, up to the disk."""
    try:
        file = os.open(path, os.O_WRONLY | os.O_CREAT | os.O_EXCL | os.O_NOFOLLOW, 0o600)
        try:
            left = memoryview(data)
            while left:
                left = left[os.write(file, left) :]
            os.fsync(file)
        finally:
            os.close(file)
    except OSError as error:
        error.filename = error.filename or path
        raise


def sync(folder: str) -> None:
    """Brings the names in a folder to the disk."""
    file = os.open(folder, os.O_RDONLY | os.O_DIRECTORY)
    try:
        os.fsync(file)
    finally:
        os.close(file)


def escaped(place: str) -> str:
    return place.replace("\\", "\\\\").replace("\n", "\\n").replace("\r", "\\r")


def unescaped(place: str) -> str:
    return re.sub(r"\\(.)", lambda it: {"n": "\n", "r": "\r"}.get(it[1], it[1]), place)


def sum_line(key: Key) -> bytes:
    """A line as sha256sum writes it."""
    mark = "\\" if escaped(key.place) != key.place else ""
    return f"{mark}{key.sum}  {escaped(key.place)}\n".encode(errors="surrogateescape")


def told_time(ns: int) -> str:
    seconds, rest = divmod(ns, 10**9)
    return time.strftime("%Y-%m-%dT%H:%M:%S", time.gmtime(seconds)) + f".{rest:09}Z"
