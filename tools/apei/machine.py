"""What a machine has free for a build."""

import os
import shutil
import tempfile
from collections.abc import Iterator
from pathlib import Path

from apei import TOP

# What a build of all crates wants, in bytes.
MEMORY, DISK = 8 << 30, 6 << 30


def free_memory() -> int:
    """The memory that the system can give, in bytes."""
    lines = dict(line.split(":") for line in Path("/proc/meminfo").read_text().splitlines())
    return int(lines["MemAvailable"].split()[0]) << 10


def in_gigabytes(count: int) -> str:
    return f"{count / (1 << 30):.1f} GB"


def wants() -> Iterator[str]:
    """What a build may fail for on this machine."""
    memory = free_memory()
    if memory < MEMORY:
        yield f"{in_gigabytes(memory)} of memory are free, and a build wants {in_gigabytes(MEMORY)}: it may end for want of it"
    folders = {os.stat(it).st_dev: it for it in (tempfile.gettempdir(), str(TOP))}
    for folder in folders.values():
        free = shutil.disk_usage(folder).free
        if free < DISK:
            yield f"{in_gigabytes(free)} of disk are free in {folder}, and a build wants {in_gigabytes(DISK)}: it may end for want of it"
