"""One build at a time in a copy of the repository: whose turn it is, and how long that one has left."""

import fcntl
import json
import math
import os
import time
from collections.abc import Callable
from dataclasses import asdict, dataclass
from typing import IO, Optional

from apei import TOP
from apei.pace import in_minutes

# Where the one that builds says how far it is.
NOTE = TOP / "out" / "building"
# How often one that waits says so, in seconds, and how often it looks whether its turn has come.
SAYS_EVERY, LOOKS_EVERY = 60.0, 0.2


@dataclass(frozen=True)
class Builder:
    """A process that builds, how far it is, and when it said so."""

    process: int
    names: str
    built: int
    count: int
    left: Optional[int]
    at: float

    def note(self) -> None:
        """Leaves this for those that wait; without a disk that takes it they wait for a build that they don't know."""
        made = NOTE.with_name(f"building-{self.process}")
        try:
            NOTE.parent.mkdir(exist_ok=True)
            made.write_text(json.dumps(asdict(self)))
            made.replace(NOTE)
        except OSError:
            pass

    def told(self) -> str:
        left = "" if self.left is None else f", about {in_minutes(max(1, self.left - math.floor((time.time() - self.at) / 60)))} left"
        return f"the build of {self.names} by process {self.process}: {self.built} of {self.count} crates are built{left}"


def noted() -> Optional[Builder]:
    """Who builds, if that is known."""
    try:
        found = Builder(**json.loads(NOTE.read_text()))
        os.kill(found.process, 0)
        return found
    except PermissionError:
        return found
    except (OSError, ValueError, TypeError):
        return None


def take(lock: IO[str], say: Callable[[str], None]) -> None:
    """Takes the turn to build. While another has it this says so, for whom it waits, and how long that one has left."""
    says = time.monotonic()
    while not is_taken(lock):
        if time.monotonic() >= says:
            builder = noted()
            say("waiting for " + (builder.told() if builder else "another build in this copy of the repository"))
            says = time.monotonic() + SAYS_EVERY
        time.sleep(LOOKS_EVERY)


def is_taken(lock: IO[str] | int) -> bool:
    """Takes a lock if nobody has it."""
    try:
        fcntl.flock(lock, fcntl.LOCK_EX | fcntl.LOCK_NB)
    except BlockingIOError:
        return False
    return True
