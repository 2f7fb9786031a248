"""How a script meets its streams and its end: with a sentence and a status, whatever is closed, missing, full or interrupted.

`tools/python` has seen to it that the three streams are open.
"""

import os
import signal
import sys
from typing import Callable, NoReturn, Optional

# The statuses that the scripts have in common with the programs: standard input, or the script that is played, can't be read; the output
# can't be written; a file can't be used.
NOT_READ, NOT_WRITTEN, NO_FILE = 3, 4, 5


class Failed(Exception):
    """What ends a script: a status and a sentence."""

    def __init__(self, status: int, text: str) -> None:
        super().__init__(text)
        self.status = status


def is_ignored(number: int) -> bool:
    return signal.getsignal(number) == signal.SIG_IGN


def say(name: str, text: str) -> None:
    """Says something on standard error, if that can be written."""
    write_all(2, f"{name}: {text}\n".encode(errors="backslashreplace"))


def write_all(sink: int, data: bytes) -> None:
    try:
        while data:
            data = data[os.write(sink, data) :]
    except OSError:
        pass


def input_of(path: str) -> bytes:
    """The bytes of a file, or of standard input if the path is `-`."""
    try:
        if path == "-":
            return sys.stdin.buffer.read()
        with open(path, "rb") as file:
            return file.read()
    except OSError as error:
        raise Failed(NOT_READ, f"{'standard input' if path == '-' else path}: {error.strerror}") from error


def of_error(error: OSError) -> Failed:
    """What an error of the system ends a script with: it is that of standard output if it names no file."""
    if error.filename is None:
        return Failed(NOT_WRITTEN, f"standard output: {error.strerror}")
    name = os.fsdecode(error.filename) if isinstance(error.filename, (str, bytes)) else str(error.filename)
    return Failed(NO_FILE, f"{name}: {error.strerror}")


def reason_of(error: OSError) -> str:
    return error.strerror or str(error)


def flush() -> None:
    """Writes what Python still holds. What can't be written is thrown away, since Python would try it again at its end."""
    for stream, number in ((sys.stderr, 2), (sys.stdout, 1)):
        try:
            stream.flush()
        except OSError:
            os.dup2(os.open(os.devnull, os.O_WRONLY), number)
            if number == 1:
                raise


def end_by(number: int) -> int:
    """Ends by a signal, as a program does that leaves it alone."""
    signal.signal(number, signal.SIG_DFL)
    os.kill(os.getpid(), number)
    return 128 + number


def status_of(work: Callable[[], int]) -> int:
    """The status of some work, what it wrote being written."""
    try:
        status = work()
    except SystemExit as ended:
        # As argparse ends: what is wrong of the words stands on standard error.
        status = ended.code if isinstance(ended.code, int) else 0 if ended.code is None else 1
        if isinstance(ended.code, str):
            raise Failed(1, ended.code) from ended
    flush()
    return status


def end(name: str, work: Callable[[], int], interrupted: str = "interrupted") -> NoReturn:
    """Does the work of a script, and ends it by the status of that: or by a sentence and a status if something forbids it."""
    failed: Optional[Failed] = None
    try:
        if not is_ignored(signal.SIGINT):
            signal.signal(signal.SIGINT, signal.default_int_handler)
        sys.exit(status_of(work))
    except KeyboardInterrupt:
        say(name, interrupted)
        throw_away()
        sys.exit(end_by(signal.SIGINT))
    except OSError as error:
        failed = of_error(error)
    except Failed as known:
        failed = known
    say(name, str(failed))
    throw_away()
    sys.exit(failed.status)


def throw_away() -> None:
    """Lets go of output that is not written yet: a whole line of it may be missing, which the status says."""
    try:
        flush()
    except OSError:
        pass
