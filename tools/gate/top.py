"""Runs the scripts at the top as their user would, from where ./install puts them, and compares what they add to the programs.

    tools/run top

What a script writes on standard output, its status, and the first line on standard error are the program's own; the lines behind that are
compared with those wanted here. A file of another geometry, one that is none of ours and a library's medium are left as they are, a signal
ends the program too, and a program that is older than its sources runs where there is no toolchain.
"""

import fcntl
import os
import pty
import re
import shutil
import signal
import subprocess
import tempfile
import time
from pathlib import Path
from typing import Any

from apei import TOP
from apei.flash import Geometry
from apei.harness import Ended, Program, Tally, scratch, script
from apei.library import pkg_config
from apei.looks import medium_header
from apei.scripts import write
from gate.options import IN_FORM, OUT_OF_FORM, split
from words import read

BAD = "apei: apei --help says which jobs and options there are"
LOOK_BAD = "apei-look: apei-look --help says which options there are"
MEDIUM = "play would write over its first sector. No options would fit; --force before the job writes over it."
SHOW_BAD = "apei-show: apei-show --help says which words there are"
# The signals that end a run.
ENDING = signal.SIGTERM, signal.SIGINT, signal.SIGHUP
# Words and input, the status, and the lines on standard error.
SAID: list[tuple[str, bytes, int, list[str]]] = [
    ("apei simulate", b"", 1, ["apei: bad words", "apei: 'simulate' is no job; the nearest is sim", BAD]),
    ("apei sim --slot=3", b"", 1, ["apei: bad words", "apei: --slot is no option; the nearest is --slots", BAD]),
    ("apei play --force --image=x", b"", 1, ["apei: bad words", "apei: --force stands before the job", BAD]),
    ("apei check --show=HEAD,parts", b"", 1, ["apei: bad words", "apei: --show=HEAD|parts: did you mean PARTS?", BAD]),
    ("apei sim", b"count\r\n", 2,
     ["apei: line 1 column 6", "apei: there is a carriage return at the end of the line; lines end in a newline alone"]),
    ("apei sim", b"\xef\xbb\xbfcount\n", 2,
     ["apei: line 1 column 1", "apei: a byte order mark stands at the front of the line; a script has none"]),
    ("apei sim", b"\n#\nCOUNT\n", 2, ["apei: line 3 column 1", "apei: upper case: did you mean count?"]),
    ("apei sim", b"cuont\n", 2, ["apei: line 1 column 2", "apei: no line begins with 'cuont'; the nearest that does is count"]),
    ("apei sim", b"erst 00\n", 2, ["apei: line 1 column 3", "apei: erst is a line of the job check, and not of this one"]),
    ("apei sim", b"read 01\n", 2, ["apei: line 1 column 7", "apei: 01 has a zero before its other digits; the line has the form read NUM"]),
    ("apei sim", b"count \n", 2, ["apei: line 1 column 6", "apei: a blank stands at the end of the line"]),
    ("apei sim", b"read  7\n", 2, ["apei: line 1 column 6", "apei: a blank too many: one space stands between the parts of a line"]),
    ("apei check", b"erst 4F4\n", 2,
     ["apei: line 1 column 9", "apei: the line ends too early: hexadecimal digits come in pairs, and it has the form erst HEX"]),
    ("apei hub", b"turns 0FX\n", 2,
     ["apei: line 1 column 9", "apei: 'X' is no letter of a turn; the line has the form turns PAIRS (a source from 0 to f, and F or R)"]),
    ("apei play --image=none/x", b"", 5,
     ["apei: flash failed", "apei: none: No such file or directory: the folder of the image has to be there"]),
    ("apei play --image=.", b"", 5, ["apei: flash failed", "apei: .: Is a directory"]),
    ("apei play --image=nowhere", b"", 5,
     ["apei: flash failed", f"apei: nowhere is a link that leads nowhere: there is no {os.path.realpath('/none/x')}"]),
    ("apei sim --fail-read=0", b"", 5,
     ["apei: flash failed", "apei: --fail-read=0 made the flash fail as the machine was booted, reset or given power"]),
    ("apei sim --slots=1", b"", 6, ["apei: bad geometry 4096 2 1 0", "apei: --slots=1: there are 2 to 1024 slots"]),
    ("apei play --image=empty", b"", 6,
     ["apei: bad geometry 4096 2 32 0", "apei: empty is empty, and a flash is not: play makes the file where there is none"]),
    ("apei-look empty", b"", 6, ["apei-look: the image has 0 bytes, and the geometry 262144", "apei-look: empty is empty"]),
    ("apei play --image=short", b"", 6,
     ["apei: bad geometry 4096 2 32 65536", "apei: the file has 65536 bytes, and this geometry 262144: --slots=8 would fit"]),
    ("apei play --image=six --slots=16", b"", 6, ["apei: bad geometry 4096 2 16 262144",
     "apei: the file has 262144 bytes, and this geometry 131072: heads stand where slots of 2 sectors of 4096 begin, and "
     "--sector=4096 --per-slot=2 --slots=32 would fit"]),
    ("apei sim", b"#" * 140001 + b"\n", 7, ["apei: line 1 too long", "apei: line 1 has 140001 bytes or more, and a line may have 140000"]),
    ("apei sim", (b"#" * 131071 + b"\n") * 128 + b"count\n", 7, ["apei: line 129 too long",
     "apei: line 129 has 5 bytes, which are few enough, but it ends past the first 16777216 bytes (16 MiB) of the input"]),
    ("apei sim", b"count\nwrite @none\n", 2, ["apei: line 2 column 7", "apei: none: No such file or directory"]),
    ("apei sim", b"write @.\n", 2, ["apei: line 1 column 7", "apei: .: Is a directory"]),
    ("apei sim", b"error @empty\n", 2, ["apei: line 1 column 7", "apei: empty: the file is empty"]),
    ("apei sim", b"read @record\n", 2, ["apei: line 1 column 6", "apei: '@' is no decimal digit; the line has the form read NUM"]),
    ("apei sim", b"table @six\n", 7, ["apei: line 1: six: the file does not begin with ERST", "apei: line 1 too long",
     "apei: six has 70001 bytes or more, whose digits are more than the 140000 bytes that a line may have"]),
    ("apei-look --jason six", b"", 1, ["apei-look: bad words", "apei-look: --jason is no option; the nearest is --json", LOOK_BAD]),
    ("apei-show", b"", 1, ["apei-show: bad words", "apei-show: there is no file to show", SHOW_BAD]),
    ("apei-show --json --brief six", b"", 1, ["apei-show: bad words", "apei-show: --json and --brief are one too many", SHOW_BAD]),
    ("apei-show --here six", b"", 1, ["apei-show: bad words", "apei-show: --here and a file are one too many", SHOW_BAD]),
    ("apei-show --keep=kept six", b"", 1, ["apei-show: bad words", "apei-show: --keep belongs to --here", SHOW_BAD]),
    ("apei-show none", b"", 5, ["apei-show: none: No such file or directory (os error 2)", "apei-show: a file can't be read"]),
    ("apei-look none", b"", 5, ["apei-look: there is no such image", "apei-look: none: No such file or directory"]),
    ("apei play --image=six --per-slot=4 --slots=16", b"count\n", 6,
     ["apei: six has another geometry: heads stand where slots of 2 sectors of 4096 begin. "
     "--sector=4096 --per-slot=2 --slots=32 would fit; --force before the job plays on it as it is."]),
    ("apei play --image=random", b"count\n", 6,
     ["apei: random is none of ours: 32 of its 32 slots hold what apei never writes, and none holds a record. "
     "No options would fit; --force before the job writes over it."]),
    ("apei play --image=medium --sector=256 --slots=8", b"count\n", 6,
     ["apei: medium is a medium of the library, of version 1: " + MEDIUM]),
    ("apei play --image=medium2 --sector=256 --slots=8", b"count\n", 6,
     ["apei: medium2 is a medium of the library, of version 2: " + MEDIUM]),
    ("apei play --image=damaged --sector=256 --slots=8", b"count\n", 6,
     ["apei: damaged is a medium of the library, whose first sector is damaged: " + MEDIUM]),
    ("apei-look medium2", b"", 6, ["apei-look: a medium of the library, version 2: version 1 is the only one that is shown"]),
    ("apei-look damaged", b"", 6, ["apei-look: a medium of the library whose first sector is damaged: its geometry is not known"]),
    ("apei-look cut", b"", 6, ["apei-look: the image has 1000 bytes, and the geometry 4096",
     "apei-look: its first sector says that it is a medium of 4096 bytes: it was cut off, or more stands behind it"]),
]
# Words and input that are answered, the replies, and what is said of the files that lines name.
NAMED: list[tuple[str, bytes, str, str]] = [
    ("apei sim", b"write @record\ncount", "wrote 7 300 @7\ncount 1 @7\n", ""),
    ("apei sim", b"# no @record\n\nwrite @two words\nread 7\n", "wrote 7 300 @7\nrecord 7 300 HEX @7\n", ""),
    ("apei check", b"record @record\nblock @record", "record 300 sections 0 severity 2 id 7 rest 0\nbad block WHY\n", ""),
    ("apei sim", b"write @digits\n", "refused WHY @0\n", "apei: line 1: digits: the file holds digits in text, and not the bytes themselves\n"),
    ("apei sim", b"count\ntable @record\n", "count 0 @0\nrefused WHY @0\n", "apei: line 2: record: the file does not begin with ERST\n"),
    ("apei hub", b"error 0 @record\n", "refused WHY\n", ""),
]
# Words and input that are answered, and the replies.
ANSWERED: list[tuple[str, bytes, str]] = [
    ("apei sim", b"count\n", "count 0 @0\n"),
    ("apei check --show=HEAD,PARTS", b"# nothing\n", ""),
    ("apei check --show HEAD,PARTS", b"# nothing\n", ""),
    ("apei play --image=six", b"count\n", "count 6 @0\n"),
    ("apei play --image=torn", b"count\n", "count 0 @0\n"),
    ("apei --force play --image=random", b"count\n", "count 0 @0\n"),
    ("apei --force play --image=forced --sector=256 --slots=8", b"count\n", "count 0 @0\n"),
]


class Runs(Tally):
    """The programs as they were installed, in a folder with files to try them on."""

    def __init__(self, folder: Path) -> None:
        super().__init__()
        self.folder = folder
        subprocess.run([TOP / "install", f"--prefix={folder}", "--without-library"], check=True, stdout=subprocess.DEVNULL, umask=0o077)
        self.environment = {**os.environ, "PATH": f"{folder}/bin:{os.environ['PATH']}"}
        os.symlink("/none/x", folder / "nowhere")
        (folder / "short").write_bytes(b"\xff" * 65536)
        (folder / "empty").write_bytes(b"")
        digits = write(7, 300).split()[1]
        for name in ("record", "two words"):
            (folder / name).write_bytes(bytes.fromhex(digits))
        (folder / "digits").write_text(digits + "\n")
        (folder / "random").write_bytes(bytes((at * 7 + at // 251) % 255 for at in range(Geometry().size)))
        # A first write whose first erase was torn.
        (folder / "torn").write_bytes(bytes(4096) + Geometry().erased[4096:])
        self.write_mediums()
        self.run("apei play --image=six", script(write(it, 300) for it in range(1, 7)))

    def write_mediums(self) -> None:
        """A library's medium, as long as a flash of 8 slots of two sectors of 256; one of another version, one whose first sector is
        damaged, and one that is cut off."""
        medium = medium_header(256, 3, 5).ljust(4096, b"\xff")
        (self.folder / "medium").write_bytes(medium)
        (self.folder / "forced").write_bytes(medium)
        (self.folder / "medium2").write_bytes(medium_header(256, 3, 5, 2).ljust(4096, b"\xff"))
        (self.folder / "damaged").write_bytes(medium[:20] + b"\x04" + medium[21:])
        (self.folder / "cut").write_bytes(medium[:1000])

    def run(self, words: str, given: bytes = b"", **options: Any) -> Ended:
        name, *rest = words.split(" ")
        program = Program(self.folder / "bin" / name)
        settings: dict[str, Any] = {"cwd": self.folder, "env": self.environment, **options}
        return program.run(*rest, given=given, **settings)

    def files(self) -> dict[str, bytes]:
        return {name: (self.folder / name).read_bytes() for name in ("six", "random", "short", "medium", "medium2", "damaged", "cut")}


    def start(self, words: str, **options: Any) -> "subprocess.Popen[bytes]":
        """A run that may be told to end."""
        return subprocess.Popen(words.split(" "), cwd=self.folder, env=self.environment, preexec_fn=let_signals_end_it, **options)


def said(runs: Runs) -> None:
    before = runs.files()
    for words, given, status, lines in SAID:
        done = runs.run(words, given)
        found = done.said.splitlines()
        runs.expect((done.status, found) == (status, lines), f"{words}: wanted {status} {lines}, found {done.status} {found}")
        # The same from a file in place of a pipe.
        with tempfile.TemporaryFile() as file:
            file.write(given)
            file.seek(0)
            again = runs.run(words, stdin=file)
        runs.expect((again.said, again.written) == (done.said, done.written), f"{words}: from a file it says {again.said!r}")
    runs.expect(runs.files() == before, "a file that was refused is another")
    for words, given, replies in ANSWERED:
        done = runs.run(words, given)
        runs.expect((done.status, done.text, done.said) == (0, replies, ""), f"{words}: {done}")


def files_in_lines(runs: Runs) -> None:
    """A line that names a file is played with its bytes, from a pipe, from a file, and as it is typed."""
    for words, given, replies, lines in NAMED:
        with tempfile.TemporaryFile() as file:
            file.write(given)
            file.seek(0)
            for done in (runs.run(words, given), runs.run(words, stdin=file)):
                right = re.fullmatch(re.escape(replies).replace("WHY", "[^\\n]+").replace("HEX", "[0-9a-f]+"), done.text)
                runs.expect(done.status == 0 and right is not None and done.said == lines, f"{words}, {given!r}: {done}")
    whole = runs.run("apei sim", b"write @record\n" * 3 + b"#" * 140_000 + b"\nwrite @record\nwrite " + (runs.folder / "record").read_bytes().hex().encode())
    runs.expect(whole.status == 0 and len(whole.replies) == 5, f"lines beside long ones: {whole}")


def typed(runs: Runs) -> None:
    """A line that is none ends a run whose input is typed, and is said to end it."""
    for words, keeps in (("apei sim", True), ("apei play --image=six", False)):
        ours, theirs = pty.openpty()
        os.write(ours, b"write @record\ncuont\n")
        done = runs.run(words, stdin=theirs)
        os.close(theirs)
        os.close(ours)
        said = "sim keeps no records from run to run, so those of this one are gone: play --image=FILE keeps them in a file" in done.said
        runs.expect((done.status, len(done.replies), said) == (2, 1, keeps) and "line 2 column 2" in done.said, f"{words}, typed: {done}")


def faults(runs: Runs) -> None:
    """The command lines that the tool `options` tries have a fault where the program refuses them."""
    for words in IN_FORM:
        runs.expect(read("apei", split(words)).fault is None, f"{words}: a fault is found")
    for words in OUT_OF_FORM:
        runs.expect(read("apei", split(words)).fault is not None, f"{words}: no fault is found")


def is_alive(pid: int) -> bool:
    if not Path(f"/proc/{pid}").exists():
        return False
    return Path(f"/proc/{pid}/stat").read_text().rpartition(")")[2].split()[0] != "Z"


def child_of(pid: int) -> int | None:
    """The process that the script started, once it is there."""
    for _ in range(200):
        for found in Path(f"/proc/{pid}/task/{pid}/children").read_text().split():
            try:
                if b"/out/apei\0play\0" in Path(f"/proc/{found}/cmdline").read_bytes():
                    return int(found)
            except FileNotFoundError:
                pass  # It has ended meanwhile, as the look at the file does.
        time.sleep(0.02)
    return None


def let_signals_end_it() -> None:
    """A run in the background, as a gate's may be, passes on that it ignores them."""
    for number in ENDING:
        signal.signal(number, signal.SIG_DFL)


def signals(runs: Runs) -> None:
    """A script that is told to end ends when its program has, and the lock is free then."""
    for number in ENDING:
        started = runs.start("apei play --image=six", stdin=subprocess.PIPE, stdout=subprocess.DEVNULL, stderr=subprocess.PIPE)
        child = child_of(started.pid)
        started.send_signal(number)
        status = started.wait(20)
        assert started.stderr
        said = started.stderr.read().decode()
        is_said = said.startswith("apei: ") and said.endswith(": the lines that were answered were played, and six has their records\n")
        runs.expect(child is not None and not is_alive(child) and status == -number and is_said, f"{number}: status {status}, the program {child}, {said}")
        with open(runs.folder / "six", "rb") as file:
            fcntl.flock(file, fcntl.LOCK_EX | fcntl.LOCK_NB)


# A build that says when it begins and when it is ended.
BUILD = """#!/bin/sh
trap 'echo > ended; exit 130' INT TERM HUP
echo > begun
for turn in $(seq 200); do sleep 0.05; done
"""


def builds(runs: Runs) -> None:
    """A script that is told to end while its program is being built ends when the build has."""
    kept = runs.folder / "lib/apei"
    program, away = kept / "crates/apei_look/out/apei_look", runs.folder / "away"
    program.rename(away)
    (kept / "crates.txt").write_text("")
    (kept / "tools/build").write_text(BUILD)
    (kept / "tools/build").chmod(0o755)
    for number in ENDING:
        started = runs.start("apei-look six", stdin=subprocess.DEVNULL)
        begun, ended = runs.folder / "begun", runs.folder / "ended"
        for _ in range(200):
            if begun.exists():
                break
            time.sleep(0.02)
        started.send_signal(number)
        status = started.wait(20)
        runs.expect(begun.exists() and ended.exists() and status == -number, f"{number} while it is built: status {status}")
        begun.unlink(missing_ok=True)
        ended.unlink(missing_ok=True)
    (kept / "tools/build").unlink()
    (kept / "crates.txt").unlink()
    away.rename(program)


def held(runs: Runs) -> None:
    with open(runs.folder / "six", "rb") as file:
        fcntl.flock(file, fcntl.LOCK_EX)
        done = runs.run("apei play --image=six")
    runs.expect((done.status, done.said) == (5, "apei: flash failed\napei: another run holds six\n"), f"a file that is held: {done}")


def on_terminal(runs: Runs, words: str) -> tuple[int, bytes]:
    """Status and output of a run whose standard output is a terminal."""
    ours, theirs = pty.openpty()
    done = runs.run(words, stdin=subprocess.DEVNULL, stdout=theirs)
    os.close(theirs)
    try:
        shown = os.read(ours, 1 << 16)
    except OSError:
        shown = b""
    os.close(ours)
    return done.status, shown


def terminals(runs: Runs) -> None:
    runs.expect(on_terminal(runs, "apei-look --record=1 six") == (4, b""), "the bytes of a record are written to a terminal")
    status, shown = on_terminal(runs, "apei-look --force --record=1 six")
    runs.expect(status == 0 and shown.startswith(b"CPER"), "--force does not write to a terminal")
    runs.expect(runs.run("apei-look --record=1 six").written[:4] == b"CPER", "the bytes of a record are not written to a pipe")


def answers(runs: Runs) -> None:
    """What is answered without the program, and what ./install put where."""
    is_checkout = (TOP / ".git").exists()
    for name in ("apei", "apei-look", "apei-show"):
        helped = runs.run(f"{name} --help")
        foreign = [it for it in ("./", "docs/", "README") if it in helped.text]
        usage = (TOP / "tools" / f"help{name[4:]}.txt").read_text().partition("exit status")[0].partition("Exit status")[0].replace("./apei", "apei")
        runs.expect(helped.status == 0 and helped.text.startswith(usage) and not foreign, f"{name} --help speaks of {foreign}")
        shown = runs.run(f"{name} --version").text
        runs.expect(shown.startswith(f"{name} ") and ("(no commit)" not in shown or not is_checkout), f"{name} --version: {shown}")
        for path in (f"share/man/man1/{name}.1", f"share/bash-completion/completions/{name}"):
            runs.expect((runs.folder / path).exists(), f"{path} is not installed")
    kept = [path for part in ("bin", "lib", "share") for path in (runs.folder / part).rglob("*") if "__pycache__" not in path.parts]
    runs.expect(all(path.stat().st_mode & 0o044 == 0o044 for path in kept), "other users can't read what is installed")
    wrong = subprocess.run([TOP / "install"], capture_output=True, check=False)
    runs.expect(wrong.returncode == 2 and b"say where to: --prefix=DIR" in wrong.stderr, "./install without a folder")


def first_page(runs: Runs) -> None:
    """README names the toolchain before the first command that wants it, by the words that the toolchain has for itself."""
    before = (TOP / "README.md").read_text().partition("./apei sim")[0]
    runs.expect("rt version" in before and "Python 3.10" in before and "No licence has been chosen" in before, "README does not begin with what is needed")
    if shutil.which("rt"):
        has = Program(Path("rt")).run("version").text.strip()
        runs.expect(f"`{has}`" in before, f"README names another toolchain than {has}")


def placed(runs: Runs) -> None:
    """What ./install --what lists is where it says, a folder that was moved works, and the tools for scripts are called by their names."""
    moved = runs.folder / "moved" / "to"
    library = runs.folder / "library"
    library.mkdir()
    write_library(library)
    words: list[str | Path] = [TOP / "install", f"--prefix={runs.folder / 'at'}", f"--library={library}"]
    subprocess.run(words, check=True, stdout=subprocess.DEVNULL)
    moved.parent.mkdir()
    (runs.folder / "at").rename(moved)
    listed = Program(TOP / "install").run("--what")
    there = Program(TOP / "install").run("--what", f"--prefix={moved}")
    places = [line.split()[0] for line in listed.replies]
    runs.expect(listed.status == 0 and listed.text == there.text and len(places) > 15, f"./install --what: {listed}, {there}")
    runs.expect(all((moved / it).exists() for it in places), f"not there: {[it for it in places if not (moved / it).exists()]}")
    for name in ("sweep", "cut", "explore"):
        helped = Program(moved / "bin" / f"apei-{name}").run("--help")
        runs.expect(helped.text.startswith(f"usage: apei-{name} "), f"apei-{name} --help: {helped}")
    example = Program(moved / "bin/apei").run("sim", given=(moved / "share/apei/examples/two-records/script").read_bytes())
    runs.expect(example.text == "wrote 1 128 @6\nwrote 7 300 @13\n", f"an example that is installed: {example}")
    swept = Program(moved / "bin/apei-sweep").run("--slots=4", "--sector=256", moved / "share/apei/examples/crash-in-a-replacement/script")
    runs.expect(swept.status == 0 and swept.text.endswith(" cases, 0 wrong\n"), f"apei-sweep: {swept}")
    linked(runs, moved)


def write_library(folder: Path) -> None:
    """What ./libapei leaves, with an archive of one call in the place of its own."""
    (folder / "call.c").write_text("int apei_tried(void);\nint apei_tried(void) { return 7; }\n")
    for path in (TOP / "include/apei.h", *(TOP / "glue").glob("heap_arena.*")):
        shutil.copy(path, folder)
    (folder / "libapei.pc").write_text(pkg_config())
    if shutil.which("cc") and shutil.which("ar"):
        subprocess.run(["cc", "-c", "call.c"], cwd=folder, check=True)
        subprocess.run(["ar", "rc", "libapei.a", "call.o"], cwd=folder, check=True)
    else:
        (folder / "libapei.a").write_bytes(b"!<arch>\n")


def linked(runs: Runs, prefix: Path) -> None:
    """A program finds header and archive by pkg-config, wherever the folder was moved to."""
    text = (prefix / "lib/pkgconfig/libapei.pc").read_text()
    runs.expect("${pcfiledir}" in text and str(runs.folder) not in text, f"libapei.pc names a place: {text}")
    if not (shutil.which("cc") and shutil.which("pkg-config")):
        print("top: there is no cc or no pkg-config here, so nothing was linked by libapei.pc")
        return
    source, program = runs.folder / "tried.c", runs.folder / "tried"
    source.write_text("#include <apei.h>\nint apei_tried(void);\nint main(void) { return apei_tried(); }\n")
    asked = Program(Path("pkg-config")).run("--cflags", "--libs", "libapei", env={**os.environ, "PKG_CONFIG_PATH": str(prefix / "lib/pkgconfig")})
    made = Program(Path("cc")).run(source, "-o", program, *asked.text.split())
    runs.expect(made.status == 0 and Program(program).run().status == 7, f"by pkg-config: {asked}, {made}")


def without_toolchain(runs: Runs) -> None:
    """A program that is older than its sources is run, and said to be, where there is no toolchain to build it."""
    kept = runs.folder / "lib/apei"
    (kept / "crates.txt").write_text("")
    done = runs.run("apei sim", b"count\n", env={"PATH": f"{runs.folder}/bin:/usr/bin:/bin"})
    said_so, wanted = "the sources are newer than the program" in done.said, shutil.which("rt", path="/usr/bin:/bin") is None
    runs.expect((done.status, done.text, said_so) == (0, "count 0 @0\n", wanted), f"without the toolchain: {done}")
    (kept / "crates.txt").unlink()


def main(_words: list[str]) -> int:
    with scratch() as folder:
        runs = Runs(folder)
        faults(runs)
        said(runs)
        held(runs)
        signals(runs)
        builds(runs)
        terminals(runs)
        answers(runs)
        first_page(runs)
        placed(runs)
        files_in_lines(runs)
        typed(runs)
        without_toolchain(runs)
        return runs.end()
