"""What a program's status means, in plain words: lines that the scripts at the top add after what the program itself said.

`explain` is asked only if a status is not 0. It looks at the words, at what was said, at the file that the words name, and at the
input as far as it is known; it changes nothing and runs nothing but `apei-look`.
"""

import errno
import fcntl
import os
import re
import resource
import stat
from difflib import get_close_matches
from typing import Any, Callable, Iterator, Optional

from installed import called
from lines import LINES, LONGEST_LINE, Named, why_not_filled
from words import GRAMMARS, Line, listed, read

TextOf = Callable[[], Optional[bytes]]
KEEPS = "sim keeps no records from run to run, so those of this one are gone: play --image=FILE keeps them in a file"
LONGEST_INPUT = 1 << 24
MARKS = {b"\xef\xbb\xbf": "a byte order mark", b"\xff\xfe": "the mark of UTF-16", b"\xfe\xff": "the mark of UTF-16"}


def explain(program: str, words: list[str], status: int, said: str, text_of: TextOf, files: dict[int, Named], by_hand: bool) -> list[str]:
    """The lines that are added, without the program's name. `files` are those that lines of the input name; the input was typed where
    `by_hand` says so."""
    if status == 1:
        return command_line(program, words)
    line = read(program, words) if program in GRAMMARS else Line()
    first = said.splitlines()[0] if said else ""
    if program == "apei":
        added = list(of_apei(line, status, first, text_of, files))
        return [*added, KEEPS] if status == 2 and line.job == "sim" and by_hand else added
    if program == "apei-look":
        return list(of_look(line, status, first))
    if program == "apei-show" and status == 3:
        return []  # What is bad stands in the output.
    return list(of_streams(status))


def command_line(program: str, words: list[str]) -> list[str]:
    what = {"apei": "which jobs and options there are", "apei-show": "which words there are"}.get(program, "which options there are")
    fault = read(program, words).fault if program in GRAMMARS else None
    if program == "apei" and "--force" in words:
        fault = "--force stands before the job"
    return [*([fault] if fault else []), f"{called(program)} --help says {what}"]


def of_apei(line: Line, status: int, first: str, text_of: TextOf, files: dict[int, Named]) -> Iterator[str]:
    place = re.search(r"line (\d+)", first)
    named = files.get(int(place[1])) if place and status in (2, 7) else None
    if named and (named.why or status == 7):
        yield why_not_filled(named)
    elif status == 2 and place:
        yield of_line(line.job or "", int(place[1]), int(first.split()[-1]), text_of())
    elif status == 5:
        yield why_flash_failed(line)
    elif status == 6:
        yield from of_geometry(line, [int(it) for it in first.split()[-4:]])
    elif status == 7 and place:
        yield which_limit(int(place[1]), text_of())
    else:
        yield from of_streams(status)


# A line that is none.


def of_line(job: str, number: int, column: int, text: Optional[bytes]) -> str:
    lines = text.split(b"\n") if text is not None else []
    if number > len(lines):
        return f"docs/SCRIPT.md says what the column of a bad line means: no line of {job} goes on so from column {column} of line {number}"
    return why_no_line(LINES.get(job, {}), lines[number - 1], column)


def why_no_line(known: dict[str, str], text: bytes, column: int) -> str:
    """Why a text is no line of those known."""
    for mark, name in MARKS.items():
        if text.startswith(mark):
            return f"{name} stands at the front of the line; a script has none"
    if text.endswith(b"\r"):
        return "there is a carriage return at the end of the line; lines end in a newline alone"
    if text[:1] in (b" ", b"\t"):
        return f"{blank(text[0])} stands at the front of the line"
    at = column - 1
    if text.strip() != text and at >= len(text.rstrip()):
        return f"{blank(text[at])} stands at the end of the line"
    shown = text.decode("utf-8", "backslashreplace")
    keyword, _, behind = shown.partition(" ")
    keyword = keyword.partition("\t")[0]
    if keyword not in known:
        return of_keyword(known, keyword)
    wanted = f"{keyword} {known[keyword]}".rstrip()
    if at < len(text) and text[at] in b" \t" and text[at - 1 : at] in (b" ", b"\t"):
        return f"{blank(text[at])} too many: one space stands between the parts of a line"
    if at < len(text) and text[at] == 9:
        return "a tab: one space stands between the parts of a line"
    if at >= len(text):
        return f"the line ends too early: {pair_is_half(text, at)}it has the form {wanted}"
    if not known[keyword] or not behind:
        return f"nothing stands behind {keyword}" if not known[keyword] else f"the line has the form {wanted}"
    if known[keyword].endswith("shadow") and behind.lower() in ("own", "shadow"):
        return f"upper case: did you mean {keyword} {behind.lower()}?"
    return f"{of_place(known[keyword], text, at)}; the line has the form {wanted}"


def blank(byte: int) -> str:
    return "a tab" if byte == 9 else "a blank"


def pair_is_half(text: bytes, at: int) -> str:
    return "hexadecimal digits come in pairs, and " if re.search(rb" [0-9a-fA-F]+$", text[:at]) and at % 2 == text.rindex(b" ") % 2 else ""


def of_keyword(known: dict[str, str], keyword: str) -> str:
    if keyword.lower() in known:
        return f"upper case: did you mean {keyword.lower()}?"
    other = next((job for job, names in LINES.items() if keyword in names), None)
    if other:
        return f"{keyword} is a line of the job {other}, and not of this one"
    found = get_close_matches(keyword, list(known), 1, 0.5) or [it for it in known if keyword and it.startswith(keyword)][:1]
    near = f"; the nearest that does is {found[0]}" if found else f": {listed(list(known), 'and')} do"
    return f"no line begins with {keyword!r}{near}"


def of_place(form: str, text: bytes, at: int) -> str:
    """What is wrong of the byte at a place of a line's arguments."""
    start = text.rindex(b" ", 0, at + 1) + 1
    given = text[start:].split(b" ")[0].decode("utf-8", "backslashreplace")
    shown = text[at : at + 1].decode("utf-8", "backslashreplace")
    if "HEX" in form and (form.startswith("HEX") or b" " in text[text.index(b" ") + 1 : at + 1]):
        return f"{shown!r} is no hexadecimal digit"
    if form.startswith(("LETTERS", "PAIRS")):
        return "there are more turns than a line may have" if at > 4096 else f"{shown!r} is no letter of a turn"
    if re.fullmatch(r"0\d+", given):
        return f"{given} has a zero before its other digits"
    if given == "0":
        return "0 is too small"
    if given.isdigit():
        return f"{given} is too great"
    return f"{shown!r} is no decimal digit" if shown != " " else "there is a part too many"


def which_limit(number: int, text: Optional[bytes]) -> str:
    """Which of the two limits a line is past."""
    lines = text.split(b"\n") if text is not None else []
    if number <= len(lines):
        length = len(lines[number - 1])
        if length > LONGEST_LINE:
            return f"line {number} has {length} bytes or more, and a line may have {LONGEST_LINE}"
        where = f"it ends past the first {LONGEST_INPUT} bytes (16 MiB) of the input"
        return f"line {number} has {length} bytes, which are few enough, but {where}"
    return f"a line may have {LONGEST_LINE} bytes, and has to end within the first {LONGEST_INPUT} bytes (16 MiB) of the input"


# The flash.


def why_flash_failed(line: Line) -> str:
    image = line.options.get("--image")
    if line.job != "play" or image is None:
        told = [f"{name}={line.options[name]}" for name in ("--fail", "--fail-read", "--cut") if name in line.options]
        return f"{listed(told, 'or')} made the flash fail as the machine was booted, reset or given power" if told else "the flash failed"
    return why_file_fails(image) or "the file can be read and written now: it failed as the machine was booted, reset or given power"


def reason(code: int) -> str:
    return os.strerror(code)


def why_file_fails(image: str) -> Optional[str]:
    """Why the file of a flash can't be used, with the system's reason; None if nothing is seen that forbids it."""
    folder = os.path.dirname(image) or "."
    if os.path.islink(image) and not os.path.exists(image):
        return f"{image} is a link that leads nowhere: there is no {os.path.realpath(image)}"
    if not os.path.isdir(folder):
        return f"{folder}: {reason(errno.ENOTDIR if os.path.exists(folder) else errno.ENOENT)}: the folder of the image has to be there"
    try:
        found = os.stat(image)
    except FileNotFoundError:
        return why_none_is_made(folder, image)
    except OSError as error:
        return f"{image}: {error.strerror}"
    if stat.S_ISDIR(found.st_mode):
        return f"{image}: {reason(errno.EISDIR)}"
    if not stat.S_ISREG(found.st_mode):
        return f"{image} is no regular file"
    return why_not_opened(image)


def why_none_is_made(folder: str, image: str) -> Optional[str]:
    if not os.access(folder, os.W_OK | os.X_OK):
        return f"there is no {image} yet, and none can be made in {folder}: {reason(errno.EACCES)}"
    if os.statvfs(folder).f_flag & os.ST_RDONLY:
        return f"there is no {image} yet, and none can be made in {folder}: {reason(errno.EROFS)}"
    if is_full(os.statvfs(folder)):
        return f"there is no {image} yet, and none can be made in {folder}: {reason(errno.ENOSPC)}"
    return f"there is no {image} yet, and none could be made in {folder}, as where it takes no hard links"


def is_full(disk: os.statvfs_result) -> bool:
    return disk.f_bavail == 0 and disk.f_blocks != 0


def why_not_opened(image: str) -> Optional[str]:
    """Why a regular file can't be opened, locked or read. It is opened for reading alone."""
    if not os.access(image, os.R_OK | os.W_OK):
        return f"{image}: {reason(errno.EACCES)}: it has to be readable and writable"
    try:
        with open(image, "rb") as file:
            fcntl.flock(file, fcntl.LOCK_SH | fcntl.LOCK_NB)
            while file.read(1 << 20):
                pass
    except BlockingIOError:
        return f"another run holds {image}"
    except OSError as error:
        return f"{image}: {error.strerror}"
    return None


# The geometry.


def of_geometry(line: Line, numbers: list[int]) -> Iterator[str]:
    sector, per_slot, slots, size = numbers
    if size == 0:
        yield which_bound(sector, per_slot, slots) or is_empty(line.options.get("--image"))
        return
    yield f"the file has {size} bytes, and this geometry {sector * per_slot * slots}: {what_fits(line.options.get('--image'), sector, per_slot, size)}"


def is_empty(image: Optional[str]) -> str:
    """What is said of a file without a byte: the program says no more of it than of a geometry outside its limits."""
    return f"{image} is empty, and a flash is not: play makes the file where there is none"


def which_bound(sector: int, per_slot: int, slots: int) -> Optional[str]:
    """The limit that a geometry is outside of. Within these no flash has more than 64 MiB."""
    if sector not in [256 << bit for bit in range(8)]:
        return f"--sector={sector}: a sector has a power of two from 256 to 32768 bytes"
    if not 2 <= per_slot <= 16:
        return f"--per-slot={per_slot}: a slot has 2 to 16 sectors"
    if sector * per_slot > 65600:
        return f"a slot of {per_slot} sectors of {sector} has {sector * per_slot} bytes, and room for 65536 is the most"
    if not 2 <= slots <= 1024:
        return f"--slots={slots}: there are 2 to 1024 slots"
    return None


def what_fits(image: Optional[str], sector: int, per_slot: int, size: int) -> str:
    """The options that would fit a file of N bytes: by its heads if it has some, else by its length."""
    seems = seen_heads(image) if image else None
    if seems:
        return (f"heads stand where slots of {seems['per_slot']} sectors of {seems['sector']} begin, and "
                f"--sector={seems['sector']} --per-slot={seems['per_slot']} --slots={seems['slots']} would fit")
    if size == 0:
        return f"{image} is empty"
    slots, rest = divmod(size, sector * per_slot)
    if rest == 0 and 2 <= slots <= 1024:
        return f"--slots={slots} would fit"
    return "no number of slots of this size would fit"


def seen_heads(image: str) -> Optional[dict[str, Any]]:
    """The geometry that a file seems to have, by apei-look if that is built."""
    import json
    import subprocess

    from launcher import Program

    program = Program("apei-look").path
    if not os.path.exists(program):
        return None
    done = subprocess.run([program, f"--image={image}", "--guess", "--json"], capture_output=True, check=False)
    return json.loads(done.stdout)["seems"] if done.stdout else None


def is_medium(image: Optional[str]) -> bool:
    """Whether a file begins as a library's medium does."""
    try:
        with open(image or "", "rb") as file:
            return file.read(8) == b"APEIERST"
    except OSError:
        return False


# Streams and memory.


def of_streams(status: int) -> Iterator[str]:
    if status == 3:
        yield f"standard input: {why_not_read()}"
    elif status == 4:
        yield f"standard output: {why_not_written()}"
    elif status == 8:
        limit = resource.getrlimit(resource.RLIMIT_AS)[0]
        yield "ulimit -v allows this process " + (f"{limit >> 10} KiB" if limit != resource.RLIM_INFINITY else "all memory: the machine has too little")


def why_not_read() -> str:
    try:
        os.read(0, 1)
    except OSError as error:
        return error.strerror or ""
    return "it can be read now; a read of it failed before"


def why_not_written() -> str:
    try:
        found = os.fstat(1)
    except OSError as error:
        return error.strerror or ""
    if stat.S_ISFIFO(found.st_mode) or stat.S_ISSOCK(found.st_mode):
        return "who read it has ended"
    if not stat.S_ISREG(found.st_mode):
        return f"{os.path.realpath('/proc/self/fd/1')} takes nothing"
    if is_full(os.fstatvfs(1)):
        return reason(errno.ENOSPC)
    return "the file took no more, as behind a limit of its size or on a disk that is full"


# An image that is looked at.


def of_look(line: Line, status: int, first: str) -> Iterator[str]:
    image = line.options.get("--image") or line.path
    if status == 5 and image:
        why = why_look_fails(image)
        if why:
            yield why
    elif status == 6:
        if not first.startswith("apei-look: a medium"):
            yield from look_geometry(line, image, re.findall(r"\d+", first))
    else:
        yield from of_streams(status)


def why_look_fails(image: str) -> Optional[str]:
    if os.path.islink(image) and not os.path.exists(image):
        return f"{image} is a link that leads nowhere: there is no {os.path.realpath(image)}"
    try:
        with open(image, "rb"):
            return None
    except OSError as error:
        return f"{image}: {error.strerror}"


def look_geometry(line: Line, image: Optional[str], numbers: list[str]) -> Iterator[str]:
    given = [int(line.options.get(name) or default) for name, default in (("--sector", 4096), ("--per-slot", 2), ("--slots", 32))]
    if len(numbers) < 2:
        yield which_bound(*given) or "the geometry is outside its limits"
    elif is_medium(image):
        yield f"its first sector says that it is a medium of {numbers[1]} bytes: it was cut off, or more stands behind it"
    else:
        yield what_fits(image, given[0], given[1], int(numbers[0]))
