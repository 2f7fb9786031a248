"""Lines that name a file: `write @FILE` becomes the line with the bytes of the file as digits. The program sees the digits alone.

A line whose file can't be read is handed on as it stands, so that the program refuses it, and `explain` says why.
"""

import os
import re
from typing import Callable, NamedTuple, Optional

# How each line goes on after its keyword, by the job that takes it.
SCRIPT = {
    "write": "HEX", "read": "NUM", "clear": "NUM", "count": "", "next": "", "dummy": "", "action": "CODE NUM",
    "table": "HEX, own or shadow",
    "error": "HEX", "turns": "LETTERS (F and R)", "bridge": "NUM", "heard": "", "peek": "NUM LEN", "fatal": "HEX", "bert": "",
    "reset": "", "power": "",
}
CHECK = {name: "HEX" for name in ("erst", "hest", "bert", "record", "block")}
HUB = {"hest": "HEX", "error": "I HEX", "turns": "PAIRS (a source from 0 to f, and F or R)", "heard": "I", "drop": "I AT"}
LINES = {"sim": SCRIPT, "play": SCRIPT, "check": CHECK, "hub": HUB}
LONGEST_LINE = 140_000
# As much of a file as is read: more digits than a line may have.
MOST = LONGEST_LINE // 2 + 1
# What is before the digits of a line: keyword, source, `@`, and the path up to the end of the line.
NAMED = re.compile(rb"([a-z]+)( \d+)? @([^\n]+)")
# No path is longer, so a line that goes on is none that names a file.
LONGEST_NAMED = 5_000
# What the bytes of each line begin with; the status blocks of the others have no signature.
SIGNATURES = {"write": b"CPER", "record": b"CPER", "table": b"ERST", "erst": b"ERST", "hest": b"HEST", "bert": b"BERT"}


class Named(NamedTuple):
    """A file that a line names: how many bytes were read of it, or why it could not be."""

    path: str
    size: int
    why: Optional[str]


def takes_bytes(job: Optional[str], keyword: str, has_source: bool) -> bool:
    """Whether a line of a job has the bytes of something in this place."""
    form = LINES.get(job or "", {}).get(keyword, "")
    return form.startswith("I HEX" if has_source else "HEX")


def read_most(path: bytes) -> tuple[bytes, Named]:
    shown = path.decode("utf-8", "backslashreplace")
    try:
        with open(path, "rb") as file:
            data = file.read(MOST)
    except (OSError, ValueError) as error:
        return b"", Named(shown, 0, getattr(error, "strerror", None) or str(error))
    return data, Named(shown, len(data), None if data else "the file is empty")


def oddity(keyword: str, data: bytes) -> Optional[str]:
    """What is odd of the bytes of a file for a line; what they are is the program's to say."""
    wanted = SIGNATURES.get(keyword)
    if re.fullmatch(rb"[0-9a-fA-F\s]+", data):
        return "the file holds digits in text, and not the bytes themselves"
    if wanted and not data.startswith(wanted):
        return f"the file does not begin with {wanted.decode()}"
    return None


class Filled:
    """An input whose lines that name a file are filled with its bytes, as they come."""

    def __init__(self, job_of: Callable[[], Optional[str]], say: Callable[[str], None]) -> None:
        self.job_of, self.say = job_of, say
        self.files: dict[int, Named] = {}
        self.number, self.rest, self.is_long = 1, b"", False

    def take(self, data: bytes) -> bytes:
        """The lines that are whole by now. What is too long to name a file goes on as it comes."""
        *lines, self.rest = (self.rest + data).split(b"\n")
        out = [self.line(line) + b"\n" for line in lines]
        if self.is_long or len(self.rest) > LONGEST_NAMED:
            out.append(self.rest)
            self.rest, self.is_long = b"", True
        return b"".join(out)

    def last(self) -> bytes:
        """A last line without an end."""
        return self.line(self.rest) if self.rest else b""

    def line(self, line: bytes) -> bytes:
        found = None if self.is_long else NAMED.fullmatch(line)
        number, self.number, self.is_long = self.number, self.number + 1, False
        if not found or not takes_bytes(self.job_of(), found[1].decode(), found[2] is not None):
            return line
        data, self.files[number] = read_most(found[3])
        odd = oddity(found[1].decode(), data) if data else None
        if odd:
            self.say(f"line {number}: {self.files[number].path}: {odd}")
        return line[: found.start(3) - 1] + data.hex().encode() if data else line


def names_files(text: bytes) -> bool:
    """Whether a line of a text may name a file."""
    return b" @" in text


def why_not_filled(named: Named) -> str:
    """What is said if the program refused a line whose bytes are those of a file."""
    if named.why:
        return f"{named.path}: {named.why}"
    more = " or more" if named.size == MOST else ""
    return f"{named.path} has {named.size} bytes{more}, whose digits are more than the {LONGEST_LINE} bytes that a line may have"
