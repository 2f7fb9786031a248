"""What the script apei-show does around its program.

The program reads no deflate. So a kernel log that Linux packed is unpacked here, and given to the program as a file of its own behind the one
that holds it; its name in the output says so: `records.bin (item 0, section 0, unpacked)`. A file that Linux could not unpack is shown unpacked in
its place. Of a file that holds nothing of what is known, a line on standard error says what it is, and the command that helps.
"""

import errno
import json
import os
import stat
import subprocess
from collections.abc import Callable, Iterator
from contextlib import ExitStack
from typing import Any, NamedTuple, Optional

from installed import called
from launcher import Ended, Input, Output, Program, run, told
from packed import ENDING, PACKED_LOG, bytes_of, quoted, unpack, what_else
from pci_names import TYPES, Beside, list_at
from streams import reason_of
from words import OF_THE_SCRIPT, Line, read

# The most bytes of a file that the program shows, and of all logs that are unpacked in a run, and how many those are.
MOST, MOST_UNPACKED, MOST_LOGS = 1 << 28, 1 << 28, 1000
# The most bytes of files of which the devices are named with --brief, for which they are read twice.
MOST_NAMED = 1 << 22
# The status where an error is new and was not corrected.
ALARM = 10


class File(NamedTuple):
    """A file that the program is given, and what it is called in the output."""

    path: str
    name: str


class Plan:
    """Which files the program is given, and in which form it shows them."""

    def __init__(self, program: Program, line: Line, given: Input, stack: ExitStack) -> None:
        self.program, self.line, self.given, self.stack = program, line, given, stack
        self.files: list[File] = []
        self.said: list[str] = []
        self.left, self.count = MOST_UNPACKED, 0
        self.folder: Optional[str] = None
        self.places = 0
        # Whether something could not be read, or is new and was not corrected.
        self.is_unread = self.is_alarm = False
        # How many bytes the files have, and whether one may have a device of PCI.
        self.size, self.has_pci = 0, False
        # What standard input holds, where it is shown and can be read before the program does.
        self.input = b""
        # What is done once all was shown.
        self.at_end: Optional[Callable[[], None]] = None

    def add(self, path: str, name: str) -> None:
        """Adds a file, and what there is to show beside it."""
        data = self.bytes_in(path)
        self.size += len(data or b"")
        self.has_pci |= data is not None and any(bytes_of(it) in data for it in TYPES)
        if data is None:
            self.files.append(File(path, name))
        elif path.endswith(ENDING):
            self.add_log(f"{name} (unpacked)", data, name) or self.files.append(File(path, name))
        else:
            self.files.append(File(path, name))
            if bytes_of(PACKED_LOG) in data:
                self.add_logs(name, self.items([path]))
            else:
                self.tell(path, name, data)

    def bytes_in(self, path: str) -> Optional[bytes]:
        """What a file holds that can be read more than once; None for any other."""
        if path == "-":
            self.input = self.given.whole(MOST) or b""
            return self.input
        try:
            if not stat.S_ISREG(os.stat(path).st_mode):
                return None
            with open(path, "rb") as file:
                return file.read(MOST + 1)
        except (OSError, ValueError):
            return None

    def items(self, paths: list[str]) -> Iterator[dict[str, Any]]:
        """The items that the program shows of files."""
        done = subprocess.run([self.program.path, "--json", "--", *paths], input=self.input, capture_output=True, check=False)
        yield from (json.loads(line) for line in done.stdout.splitlines() if done.returncode in (0, 5))

    def add_logs(self, name: str, items: Iterator[dict[str, Any]]) -> None:
        """Adds the logs that stand packed in the sections of a file's records."""
        for item in items:
            for group in item["groups"]:
                if group["group"] == "section" and group["guid"] == PACKED_LOG:
                    place = f"item {item['item']}, section {group['index']}"
                    self.add_log(f"{name} ({place}, unpacked)", bytes.fromhex(group.get("bytes", "")), f"{name}: {place}")

    def add_log(self, name: str, stream: bytes, what: str) -> bool:
        """Adds a log, unpacked as far as it goes. What stands in the way is said."""
        found = unpack(stream)
        if found.why:
            self.said.append(f"{what}: {found.why}")
        if not found.text:
            return False
        if len(found.text) > self.left or self.count == MOST_LOGS:
            self.said.append(f"{what}: it is not unpacked: {self.count} logs of {MOST_UNPACKED - self.left} bytes were unpacked before it")
            return False
        try:
            # The program knows a log by the name that Linux gives to its file.
            self.files.append(File(self.copy("dmesg-erst-0", found.text), name))
        except OSError as error:
            self.said.append(f"{what}: it is not unpacked: {error.strerror or error}")
            return False
        self.left, self.count = self.left - len(found.text), self.count + 1
        return True

    def copy(self, name: str, data: bytes) -> str:
        """The path of a file with such a name and such bytes, which is gone once the program has ended."""
        path = self.place_of(name)
        with open(path, "xb") as file:
            file.write(data)
        return path

    def link(self, name: str, path: str) -> str:
        """The path of a file by another name."""
        link = self.place_of(name)
        os.symlink(os.path.abspath(path), link)
        return link

    def place_of(self, name: str) -> str:
        if self.folder is None:
            import tempfile

            self.folder = self.stack.enter_context(tempfile.TemporaryDirectory(prefix="apei-show-"))
        self.places += 1
        folder = os.path.join(self.folder, str(self.places))
        os.mkdir(folder)
        return os.path.join(folder, name)

    def tell(self, path: str, name: str, data: bytes) -> None:
        """Says what a file is that holds nothing of what is known."""
        what = what_else(data, name, called("apei-show"))
        if what and [it["kind"] for it in self.items([path])] == ["none"]:
            self.said.append(f"{'standard input' if name == '-' else name}: {what}")

    def words(self) -> list[str]:
        """The words that the program is given."""
        options = {name: value for name, value in self.line.options.items() if name not in ("--color", *OF_THE_SCRIPT)}
        color = self.line.options.get("--color") or "auto"
        options["--color"] = "always" if color == "auto" and os.isatty(1) else color
        return [*(name if value is None else f"{name}={value}" for name, value in options.items()), "--", *(it.path for it in self.files)]

    def status_of(self, status: int) -> int:
        """The status of the run, where that of the program is known."""
        if status not in (0, 3, 5):
            return status
        if self.at_end:
            self.at_end()
        return ALARM if self.is_alarm else 5 if self.is_unread else status

    def output(self) -> Optional[Output]:
        """What the output comes through, where a file has another name there."""
        names, beside = Names(self.line, self.files, self.folder or ""), self.beside()
        if not (self.folder or names.alone or beside):
            return None
        return Output(lambda line: names.line(beside.line(line) if beside else line))

    def beside(self) -> Optional[Beside]:
        """What has the names of devices, where a file has one and the machine has the list."""
        path = self.line.options.get("--pci-ids")
        try:
            found = list_at(path) if self.has_pci or path else None
        except OSError as error:
            self.is_unread = True
            self.said.append(f"{error.filename}: {reason_of(error)}")
            return None
        is_brief = "--brief" in self.line.options
        if not found or not self.has_pci or is_brief and self.size > MOST_NAMED:
            return None
        return Beside(found, self.line.options, self.items([it.path for it in self.files]) if is_brief else iter(()))


class Names:
    """The lines of the output, with the name of each file in the place of its path."""

    def __init__(self, line: Line, files: list[File], folder: str) -> None:
        self.in_json, self.is_brief = "--json" in line.options, "--brief" in line.options
        self.begins = self.beginning(folder)
        self.ends = b'",' if self.in_json else b":"
        self.names = {self.beginning(it.path): self.beginning(it.name) for it in files if it.path != it.name}
        # The program does not name a file that it was given alone. One that the words do not name is named all the same.
        is_named = len(files) != 1 or self.in_json or files[0].name in line.files
        self.alone = None if is_named else files[0].name.encode()
        self.is_first = True

    def beginning(self, path: str) -> bytes:
        """What a line begins with that names a file."""
        return b'{"file":"' + in_json(path.encode()) if self.in_json else path.encode()

    def line(self, line: bytes) -> bytes:
        if self.alone:
            is_first, self.is_first = self.is_first, False
            return self.alone + b": " + line if self.is_brief else (self.alone + b":\n") * is_first + line
        if not self.names or not line.startswith(self.begins):
            return line
        end = line.find(self.ends, len(self.begins))
        return self.names.get(line[:end], line[:end]) + line[end:]


def in_json(text: bytes) -> bytes:
    """A text as the program writes it in a string of JSON."""
    out = text.replace(b"\\", b"\\\\").replace(b'"', b'\\"')
    return b"".join(b"\\u%04x" % it if it < 32 else bytes([it]) for it in out)


def show(program: Program, words: list[str], given: Input, is_old: bool) -> int:
    """Runs the program on the files that the words name, and on what is shown beside them; a status."""
    line = read(program.name, words)
    is_own = any(name in line.options for name in OF_THE_SCRIPT)
    if line.fault:
        return told(program, words, given, bad_words(program) if is_own else run([program.path, *words], given), is_old)
    with ExitStack() as stack:
        plan = Plan(program, line, given, stack)
        if "--here" in line.options:
            from watch import add_here

            add_here(plan, " ".join(quoted(it) for it in (called(program.name), *words)))
        for path in line.files:
            plan.add(path, path)
        output = plan.output()
        ended = run([program.path, *(plan.words() if output or is_own else words)], given, output) if plan.files else Ended(0, b"")
    if output and output.failed and output.failed.errno != errno.EPIPE:
        program.say("write failed")
        ended = Ended(4, ended.said)
    status = told(program, words, given, ended, is_old)
    for text in plan.said:
        program.say(text)
    return plan.status_of(status)


def bad_words(program: Program) -> Ended:
    """Ends as the program does where its words are bad."""
    program.say("bad words")
    return Ended(1, b"")
