"""Runs a program of the repository, for the scripts at its top: `tools/launch NAME WORD..`; `tools/launch --build NAME` only builds it.

- --help, -h and --version are answered here, and built nothing for.
- Where the program has not been built since the last change of the sources, it is proved and built first. Where it is built and there is no
  toolchain, it is run as it is.
- `apei`: --show takes a comma for the | that a shell wants in quotes. A line that names a file, as `write @FILE`, gets the digits of its bytes
  (tools/lines.py). `play` looks at its file first, by apei-look: a file that seems to be none
  of the geometry, none of ours, or a library's medium ends the run with status 6 before anything is touched, but behind the word --force before
  the job.
- `apei-look`: the bytes of a record are not written to a terminal, but behind the word --force.
- `apei-show`: logs that Linux packed are shown unpacked, too (tools/shown.py).
- Signals are passed on, and the script ends when the program has.
- Where the status is not 0, lines in plain words come behind what the program said (tools/explain.py).

A program that is installed (`./install`) has no crates.txt beside it, and is never built.
"""

import os
import signal
import stat
import subprocess
import sys
import threading
from typing import Any, Callable, NamedTuple, Optional

import streams
from installed import in_place
from lines import Filled, names_files
from streams import write_all

TOP = os.path.dirname(os.path.dirname(os.path.realpath(__file__)))
# As much of an input as a program reads: 16 MiB and the longest line, and what its reader takes at once.
KEPT = (1 << 24) + (1 << 20)
PASSED_ON = [signal.SIGHUP, signal.SIGINT, signal.SIGQUIT, signal.SIGTERM, signal.SIGUSR1, signal.SIGUSR2]
NOT_BUILT = 70


class Program(NamedTuple):
    """A program by its name at the top."""

    name: str

    @property
    def crate(self) -> str:
        return self.name.replace("-", "_")

    @property
    def path(self) -> str:
        return os.path.join(TOP, "crates", self.crate, "out", self.crate)

    @property
    def help(self) -> str:
        return os.path.join(TOP, "tools", "help" + self.name.removeprefix("apei") + ".txt")

    def say(self, text: str) -> None:
        streams.say(self.name, text)


def text_in(path: str) -> str:
    with open(path, encoding="utf-8") as file:
        return file.read()


def text_of(words: list[str]) -> str:
    """What a command writes, without its last newline; nothing where it can't be run."""
    try:
        done = subprocess.run(words, capture_output=True, text=True, check=True)
    except (OSError, subprocess.CalledProcessError):
        return ""
    return done.stdout.strip()


def version(program: Program) -> str:
    kept = os.path.join(TOP, "version")
    if os.path.exists(kept):
        return f"{program.name} {text_in(kept).strip()}"
    # A folder of another user is read, too.
    commit = text_of(["git", "-c", f"safe.directory={TOP}", "-C", TOP, "describe", "--always", "--dirty"])
    return f"{program.name} {commit or '(no commit)'}, by {text_of(['rt', 'version']) or 'no toolchain'}"


def answered(program: Program, words: list[str]) -> bool:
    """Whether the words are answered here."""
    before = words[: words.index("--")] if "--" in words else words
    for word in before:
        if word in ("--help", "-h"):
            sys.stdout.write(in_place(program.name, text_in(program.help)))
            return True
        if word == "--version":
            print(version(program))
            return True
    return False


def has_newer_sources(program: Program) -> bool:
    """Whether a source was changed since the program was built."""
    built = os.stat(program.path).st_mtime
    folders = [os.path.join(TOP, "crates")]
    if os.stat(os.path.join(TOP, "crates.txt")).st_mtime > built:
        return True
    while folders:
        with os.scandir(folders.pop()) as found:
            for it in found:
                if it.is_dir(follow_symlinks=False):
                    folders += [it.path] if it.name != "out" else []
                elif it.name.endswith((".rt", ".antt")) and it.stat().st_mtime > built:
                    return True
    return False


def which(command: str) -> Optional[str]:
    return next((path for folder in os.get_exec_path() if os.access(path := os.path.join(folder, command), os.X_OK)), None)


def build(program: Program) -> tuple[int, bool]:
    """Builds the program where it has to be: a status, and whether its sources are newer and it could not be."""
    is_built = os.access(program.path, os.X_OK)
    if not os.path.exists(os.path.join(TOP, "crates.txt")):
        if not is_built:
            why = "it may not be run" if os.path.exists(program.path) else "it is not there"
            program.say(f"{program.path}: {why}: ./install puts it there")
        return (0 if is_built else NOT_BUILT), False
    if is_built and not has_newer_sources(program):
        return 0, False
    if is_built and not which("rt"):
        return 0, True
    status = build_all([program.crate])
    if status == 0:
        os.utime(program.path)
    return (status if status >= 0 else 128 - status), False


def build_all(crates: list[str]) -> int:
    """Proves and builds crates. A signal that would end this script ends the build, and this script once that has ended."""
    taken: list[int] = []
    child: list[subprocess.Popen[bytes]] = []

    def end(number: int, _frame: object) -> None:
        taken.append(number)
        if child:
            child[0].terminate()

    ending = (signal.SIGINT, signal.SIGTERM, signal.SIGHUP)
    kept = {number: signal.signal(number, end) for number in ending if signal.getsignal(number) != signal.SIG_IGN}
    child.append(subprocess.Popen([os.path.join(TOP, "tools", "build"), *crates], stdin=subprocess.DEVNULL))
    if taken:
        child[0].terminate()
    status = child[0].wait()
    for number, before in kept.items():
        signal.signal(number, before)
    return streams.end_by(taken[0]) if taken else status


class Input:
    """Standard input, of which what the program may read is kept where it comes through here, so that a line can be shown.

    A terminal and a pipe come through here, and a file that names others. The program reads any other file itself."""

    def __init__(self, program: Program, words: list[str]) -> None:
        self.kept = bytearray()
        # What was read before the program began.
        self.ahead = b""
        self.start: Optional[int] = None
        self.failed: Optional[OSError] = None
        try:
            mode = os.fstat(0).st_mode
        except OSError:
            mode = 0
        self.by_hand = program.name == "apei" and stat.S_ISCHR(mode) and os.isatty(0)
        self.comes_through = self.by_hand or stat.S_ISFIFO(mode) or stat.S_ISSOCK(mode)
        self.filled = Filled(lambda: job_of(program, words), program.say)
        if stat.S_ISREG(mode):
            self.start = os.lseek(0, 0, os.SEEK_CUR)
            self.comes_through = program.name == "apei" and names_files(self.text() or b"")
        self.fills = program.name == "apei"

    def read(self) -> bytes:
        if self.ahead:
            ahead, self.ahead = self.ahead, b""
            return ahead
        try:
            return os.read(0, 1 << 16)
        except OSError as error:
            self.failed = error
            return b""

    def whole(self, most: int) -> Optional[bytes]:
        """All of it, up to a number of bytes, where it can be known before the program reads it."""
        if self.comes_through:
            pieces, size = list[bytes](), 0
            while size <= most and (data := self.read()):
                pieces.append(data)
                size += len(data)
            self.ahead = b"".join(pieces)
            return self.ahead
        if self.start is None:
            return None
        try:
            return os.pread(0, most + 1, self.start)
        except OSError:
            return None

    def pump(self, sink: int) -> None:
        """Gives the program what comes, as it comes."""
        try:
            while data := self.read():
                self.give(sink, self.filled.take(data) if self.fills else data)
            self.give(sink, self.filled.last())
        except OSError:
            pass  # The program has ended.
        finally:
            os.close(sink)

    def give(self, sink: int, data: bytes) -> None:
        if len(self.kept) < KEPT:
            self.kept += data
        while data:
            data = data[os.write(sink, data) :]

    def text(self) -> Optional[bytes]:
        """What the program was given, as far as it reads; None where that is not known."""
        if self.comes_through:
            return bytes(self.kept)
        if self.start is None:
            return None
        try:
            return os.pread(0, KEPT, self.start)
        except OSError:
            return None


def job_of(program: Program, words: list[str]) -> Optional[str]:
    from words import read

    return read(program.name, words).job


class Ended(NamedTuple):
    """How a program ended: its status, as subprocess tells it, and what it said on standard error."""

    status: int
    said: bytes


class Output:
    """Standard output, where what the program writes there comes through here, line by line."""

    def __init__(self, line_of: Callable[[bytes], bytes]) -> None:
        self.line_of = line_of
        self.failed: Optional[OSError] = None

    def pump(self, source: int) -> None:
        """Writes what the program writes, up to its end. Where nothing more can be written, the program is told so."""
        out = bytearray()
        with os.fdopen(source, "rb") as lines:
            for line in lines:
                out += self.line_of(line)
                if len(out) >= 1 << 16 and not self.write(out):
                    return
            self.write(out)

    def write(self, out: bytearray) -> bool:
        try:
            while out:
                del out[: os.write(1, out)]
        except OSError as error:
            self.failed = error
        return self.failed is None


def run(words: list[str], given: Input, output: Optional[Output] = None) -> Ended:
    """Runs a program on standard input; signals that come meanwhile are passed on to it."""
    early: list[int] = []
    child: list[subprocess.Popen[bytes]] = []

    def pass_on(number: int, _frame: object) -> None:
        if child:
            child[0].send_signal(number)
        else:
            early.append(number)

    for number in PASSED_ON:
        if signal.getsignal(number) != signal.SIG_IGN:
            signal.signal(number, pass_on)
    if given.comes_through:
        source, sink = os.pipe()
    else:
        source, sink = 0, -1
    started = subprocess.Popen(words, stdin=source, stdout=subprocess.PIPE if output else None, stderr=subprocess.PIPE)
    child.append(started)
    for early_one in early:
        started.send_signal(early_one)
    if given.comes_through:
        os.close(source)
        threading.Thread(target=given.pump, args=(sink,), daemon=True).start()
    written = None
    if output and started.stdout:
        written = threading.Thread(target=output.pump, args=(os.dup(started.stdout.fileno()),))
        started.stdout.close()
        written.start()
    said = bytearray()
    assert started.stderr
    # What is said passes through as it comes.
    while data := os.read(started.stderr.fileno(), 1 << 16):
        said += data
        write_all(2, data)
    if written:
        written.join()
    return Ended(started.wait(), bytes(said))


def with_commas(words: list[str]) -> list[str]:
    """The words of apei, with a | in place of each comma of --show."""
    out: list[str] = []
    for at, word in enumerate(words):
        is_value = at > 0 and words[at - 1] == "--show"
        out.append(word.replace(",", "|") if word.startswith("--show=") or is_value else word)
    return out


def without_force(program: Program, words: list[str]) -> tuple[bool, list[str]]:
    """Whether --force was given, before the job of apei or among the words of apei-look, and the other words."""
    if program.name not in ("apei", "apei-look") or "--force" not in words:
        return False, words
    at = words.index("--force")
    if "--" in words[:at] or program.name == "apei" and any(word in ("play", "sim", "check", "gen", "hub") for word in words[:at]):
        return False, words
    return True, words[:at] + words[at + 1 :]


def geometry_words(options: dict[str, Optional[str]]) -> list[str]:
    return [f"{name}={options[name]}" for name in ("--sector", "--per-slot", "--slots") if options.get(name)]


def seen_by_look(image: str, words: list[str]) -> Optional[dict[str, Any]]:
    """What apei-look shows of a file, as JSON; None where it shows nothing."""
    import json

    done = subprocess.run([Program("apei-look").path, f"--image={image}", "--json", *words], capture_output=True, check=False)
    return json.loads(done.stdout) if done.stdout else None


def looks_foreign(image: str, shown: dict[str, Any]) -> Optional[str]:
    """Two sentences on a file that `play` would not find its records in: what was found, and which options would fit."""
    if shown["file"] in ("medium", "other-version", "damaged-medium"):
        version = shown["medium"]["version"]
        what = "whose first sector is damaged" if version is None else f"of version {version}"
        return f"{image} is a medium of the library, {what}: play would write over its first sector. " \
            "No options would fit; --force before the job writes over it."
    if shown["file"] == "other-geometry":
        seems = shown["seems"]
        found = f"heads stand where slots of {seems['per_slot']} sectors of {seems['sector']} begin"
        fits = f"--sector={seems['sector']} --per-slot={seems['per_slot']} --slots={seems['slots']} would fit"
        return f"{image} has another geometry: {found}. {fits}; --force before the job plays on it as it is."
    if shown["file"] == "foreign":
        unknown = sum(slot["kind"] == "unknown" for slot in shown["slots"])
        held = f"{unknown} of its {len(shown['slots'])} slots hold what apei never writes, and none holds a record"
        return f"{image} is none of ours: {held}. No options would fit; --force before the job writes over it."
    return None


def look_first(program: Program, words: list[str]) -> int:
    """A status other than 0 where the file of `play` seems to be none of this geometry, or none of ours."""
    from words import read

    line = read("apei", words)
    image = line.options.get("--image")
    if line.fault or line.job != "play" or not image or not os.path.isfile(image) or os.path.getsize(image) == 0:
        return 0
    status, _ = build(Program("apei-look"))
    if status:
        program.say(f"{image} was not looked at, since apei-look is not built. --force before the job plays on it unseen.")
        return status
    shown = seen_by_look(image, geometry_words(line.options))
    found = shown and looks_foreign(image, shown)
    if not found:
        return 0
    program.say(found)
    return 6


def writes_to_terminal(words: list[str]) -> bool:
    """Whether apei-look would write the bytes of a record to a terminal."""
    is_record = any(word == "--record" or word.startswith("--record=") for word in words)
    return is_record and os.isatty(1)


def told_to_end(program: Program, words: list[str], number: int) -> str:
    """A sentence on a run that a signal ended."""
    from words import read

    line = read(program.name, words)
    what = "interrupted" if number == signal.SIGINT else f"ended by the signal {signal.Signals(number).name}"
    if line.job == "play" and os.path.exists(line.options.get("--image") or ""):
        return f"{what}: the lines that were answered were played, and {line.options.get('--image')} has their records"
    return what


def launch(program: Program, words: list[str]) -> int:
    if answered(program, words):
        return 0
    is_forced, words = without_force(program, words)
    if program.name == "apei":
        words = with_commas(words)
    status, is_old = build(program)
    if status:
        return status
    if program.name == "apei" and not is_forced and "play" in words:
        status = look_first(program, words)
        if status:
            return status
    if program.name == "apei-look" and not is_forced and writes_to_terminal(words):
        program.say("the bytes of a record are not written to a terminal. Send them to a file or a pipe; --force writes them all the same.")
        return 4
    given = Input(program, words)
    if program.name == "apei-show":
        from shown import show

        return show(program, words, given, is_old)
    return told(program, words, given, run([program.path, *words], given), is_old)


def told(program: Program, words: list[str], given: Input, ended: Ended, is_old: bool) -> int:
    """Says what there is to say of a run that has ended, and answers its status."""
    if is_old:
        program.say("the sources are newer than the program, which was run as it is: there is no toolchain here to build it")
    if ended.status < 0:
        program.say(told_to_end(program, words, -ended.status))
        return streams.end_by(-ended.status)
    if ended.status > 0:
        from explain import explain

        said = ended.said.decode(errors="replace")
        for line in explain(program.name, words, ended.status, said, given.text, given.filled.files, given.by_hand):
            program.say(line)
    if given.failed and ended.status == 0:
        program.say(f"standard input: {given.failed.strerror}")
        return streams.NOT_READ
    return ended.status


def main() -> int:
    if len(sys.argv) < 2 or sys.argv[1:] == ["--build"]:
        raise streams.Failed(1, "usage: tools/launch NAME WORD.. | tools/launch --build NAME")
    if sys.argv[1] == "--build":
        return build(Program(sys.argv[2]))[0]
    return launch(Program(sys.argv[1]), sys.argv[2:])


def start() -> None:
    streams.end(next((it for it in sys.argv[1:] if it != "--build"), "launch"), main)
