"""What the gate does after the proofs: each of its steps in order, until one fails.

    tools/run rest SAID

SAID is a file with what the gate said so far; the release has its counts. The programs are those that `rt ci` built. A step without what it
needs on this machine says so in a line, and the next one follows.
"""

import os
import shutil
import subprocess
import sys
from collections.abc import Callable, Iterator
from pathlib import Path

from apei import TOP
from apei.harness import scratch

APEI, LOOK, SHOW = (TOP / f"crates/{crate}/out/{crate}" for crate in ("apei", "apei_look", "apei_show"))
C11 = "cc -std=c11 -O2 -Wall -Wextra -Wpedantic -Werror -fsyntax-only -Iinclude -Iglue"
C99 = "cc -std=c99 -Wall -Wextra -Wpedantic -Werror -fsyntax-only -Iinclude -x c -"
C_FILES = "examples/embed/*.c", "bench/*.c", "glue/*.c", "tests/embed/*.c"
# The exit status of a step that says in a line what it would need.
NOT_HERE = 77

Words = list[str | Path]


class Wrong(Exception):
    """A step failed."""


def run(label: str, *words: str | Path, status: tuple[int, ...] = (0,), **options: object) -> int:
    """Runs a step behind its label, and ends the gate where its status is another one."""
    print(f"{label}: " if label else "", end="", flush=True)
    done = subprocess.run(words, cwd=TOP, check=False, **options)  # type: ignore[call-overload]
    if done.returncode not in status:
        raise Wrong(f"{label or words[0]} ended with status {done.returncode}")
    return int(done.returncode)


def tool(name: str, *words: str | Path, **options: object) -> None:
    run(name, TOP / "tools/run", name, *words, **options)  # type: ignore[arg-type]


def texts() -> None:
    """What is compared without the programs."""
    run("", TOP / "tools/gate/must-not-compile")
    tool("option_texts", "--check")
    run("", TOP / "tests/completions")
    tool("changing")
    tool("promises")
    tool("crates", "--check")
    tool("counts", "--check")
    tool("links")
    tool("unused", "--check")
    tool("facts")
    tool("statuses")


def programs() -> None:
    """The programs beside plain models, and with flash, file, input and output failing."""
    for program in (APEI, LOOK, SHOW):
        if not os.access(program, os.X_OK):
            raise Wrong(f"{program} was not built")
        # What an earlier run kept is older than this copy of its sources. So the scripts at the top would build it again.
        program.touch()
    for name in ("scripts", "options", "columns", "faults", "slots", "device", "check", "gen", "bridge", "shadow", "file_faults", "hub"):
        tool(name, APEI)
    tool("look", LOOK)
    tool("pictures", LOOK, "--check")
    for name in ("show", "records"):
        tool(name, SHOW)
    for name in ("packed", "here", "pci_names", "top", "causes", "tears", "building", "packages"):
        tool(name)
    if shutil.which("chromium") and shutil.which("strace"):
        tool("browse")
    else:
        print("browse: there is no chromium or no strace (Debian packages), so the page of explore was not opened")
    tool("figures", "--check")


def library(said: Path, room: Path) -> None:
    """The archives, programs in C and Rust that lose power over them, and the release."""
    if not shutil.which("cc"):
        print("embed: there is no C compiler, so the library's programs were not compiled")
        return
    run("C11", *C11.split(), *(path for pattern in C_FILES for path in sorted(TOP.glob(pattern))))
    run("C99", *C99.split(), input=b'#include "apei.h"\n')
    print()
    folder = room / "archives"
    if run("archives", TOP / "tools/run", "archives", folder, status=(0, NOT_HERE)) == NOT_HERE:
        return
    print()
    tool("embed", *sorted(folder.glob("*.a")))
    client(folder / "llvm.a")
    so_far = room / "said"
    shutil.copyfile(said, so_far)
    tool("release", folder, so_far)


def client(archive: Path) -> None:
    """The library's client in the place of Linux's driver, and over firmwares that answer anything."""
    done = subprocess.run([TOP / "tests/client/scenarios", archive], stdout=subprocess.PIPE, stderr=subprocess.STDOUT, text=True, check=False)
    if done.returncode:
        raise Wrong(f"the client:\n{done.stdout}")
    lines = done.stdout.splitlines()
    print("the client:", "; ".join(it for it in lines if it.endswith((" failed", " wrong"))))


def linux(room: Path) -> None:
    """Linux's own driver over the stand-in, its prints beside those of apei-show, and its driver of error sources."""
    if subprocess.run([TOP / "tests/linux/fetch", "--there"], check=False).returncode:
        print("Linux's files were not fetched, so its driver and its prints do not run (tests/linux/fetch)")
        return
    written = room / "linux"
    with written.open("wb") as file:
        done = subprocess.run([TOP / "tests/linux/run", "--standin"], stdout=file, stderr=file, check=False)
    lines = written.read_text().splitlines()
    if done.returncode not in (0, NOT_HERE):
        raise Wrong("\n".join(["linux:", *lines]))
    print("linux:", lines[-1] if done.returncode else next(it for it in lines if it.endswith(" failed")))
    run("linux's prints", TOP / "tests/linux/cper/run", SHOW, status=(0, NOT_HERE), stderr=subprocess.STDOUT)
    linux_sources(room / "archives" / "llvm.a")


def linux_sources(archive: Path) -> None:
    """Linux's driver of error sources over those of the library, or of a stand-in where there is no archive."""
    words = TOP / "tests/linux/ghes/run", archive if archive.exists() else "--standin"
    done = subprocess.run(words, stdout=subprocess.PIPE, stderr=subprocess.STDOUT, text=True, check=False)
    if done.returncode not in (0, NOT_HERE):
        raise Wrong(f"linux's error sources:\n{done.stdout}")
    print("linux's error sources:", done.stdout.splitlines()[-1])


def iasl() -> None:
    if shutil.which("iasl") or (TOP / "tests/iasl/out/tools").is_dir():
        run("iasl", TOP / "tests/iasl/run", SHOW, status=(0, NOT_HERE), stderr=subprocess.STDOUT)
    else:
        print("there is no iasl, so the tables are not compared with it (tests/iasl/run fetches it)")


def steps(said: Path, room: Path) -> Iterator[Callable[[], None]]:
    yield texts
    yield programs
    yield lambda: library(said, room)
    yield lambda: linux(room)
    yield iasl


def main(words: list[str]) -> int:
    if len(words) != 1:
        sys.exit(__doc__)
    with scratch() as room:
        try:
            for step in steps(Path(words[0]), room):
                step()
        except Wrong as why:
            print(why, file=sys.stderr)
            return 1
    return 0
