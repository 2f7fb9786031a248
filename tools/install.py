"""Puts what there is below a folder: `./install --prefix=DIR`. What is not built yet is proved and built first.

DIR/bin has the programs and the tools for scripts, which look for what they need in DIR/lib/apei, and DIR/lib the library with what pkg-config
reads. All is named from where it is, so DIR may be moved as a whole; nothing else is written. The library is taken from a folder that ./libapei
has filled, where one is named, and left out where the words say so.
"""
import argparse
import os
import shutil
import subprocess
import sys
import tempfile
from collections.abc import Iterator
from pathlib import Path
from typing import NamedTuple, Optional

import streams
from parser import Parser
from streams import Failed

TOP = Path(__file__).resolve().parent.parent
PROGRAMS = {"apei": "plays scripts on the machine, and checks tables and records", "apei-look": "shows what an image of a flash holds",
            "apei-show": "shows what error records and tables in files say"}
TOOLS = {"sweep": "loses power in each change of a script", "cut": "leaves the image of one loss of power",
         "explore": "writes a page on a script and its flash"}
# What the programs and the tools for scripts read beside themselves.
READ = "python", "start.py", "parser.py", "launch", "launcher.py", "streams.py", "installed.py", "lines.py", "words.py", "explain.py", "shown.py", "packed.py", "watch.py", "here.py", "kept.py", "pci_names.py", "explore.html"
EXAMPLES = "scripts to play"
EXAMPLES_FOLDER = "share/apei/examples"
# The status of ./libapei where something is missing that the library is made with.
LACKS = 69
LIBRARY = {"libapei.a": "the library for C and Rust", "apei.h": "its header, with every call",
           "libapei.pc": "for pkg-config, which finds the rest from here", "heap_arena.c": "memory from one array, for a program without malloc"}
# Where each kind of these files is put: a header that belongs to a source is beside that.
PLACES = {".a": "lib", ".h": "include", ".c": "share/apei", "heap_arena.h": "share/apei"}
PKG_CONFIG = """prefix=${pcfiledir}/../..
libdir=${prefix}/lib
includedir=${prefix}/include
"""


class Part(NamedTuple):
    """What is put at a place below the folder: a copy of a file, a text, or a link to another place."""

    place: str
    source: Optional[Path] = None
    text: str = ""
    link: str = ""
    # What it is for its user; nothing for what the others read.
    what: str = ""


def programs() -> Iterator[Part]:
    for name, what in PROGRAMS.items():
        crate = name.replace("-", "_")
        yield Part(f"lib/apei/crates/{crate}/out/{crate}", TOP / "crates" / crate / "out" / crate)
        yield Part(f"lib/apei/{name}", TOP / name)
        yield Part(f"bin/{name}", link=f"../lib/apei/{name}", what=what)
        yield Part(f"share/bash-completion/completions/{name}", TOP / "tools/completions" / f"{name}.bash", what=f"completes the words of {name}")


def tools() -> Iterator[Part]:
    for name, what in TOOLS.items():
        for file in (name, f"{name}.py"):
            yield Part(f"lib/apei/tools/{file}", TOP / "tools" / file)
        yield Part(f"bin/apei-{name}", link=f"../lib/apei/tools/{name}", what=what)
    for file in (*READ, *(it.name for it in sorted((TOP / "tools").glob("help*.txt")))):
        yield Part(f"lib/apei/tools/{file}", TOP / "tools" / file)
    for path in sorted((TOP / "tools/apei").glob("*.py")):
        yield Part(f"lib/apei/tools/apei/{path.name}", path)


def pages() -> Iterator[Part]:
    for path in sorted((TOP / "docs").glob("*.1")):
        yield Part(f"share/man/man1/{path.name}", path, what=f"the man page {path.stem}(1)")
    for path in sorted((TOP / "examples").glob("*/script")):
        yield Part(f"{EXAMPLES_FOLDER}/{path.parent.name}/script", path, what=EXAMPLES)
    for path in sorted((TOP / "docs").glob("apei-watch.*")):
        yield Part(f"share/apei/{path.name}", path, what="for systemd, which looks for new errors each hour by it")


def library(folder: Optional[Path]) -> Iterator[Part]:
    """What ./libapei left in a folder; where none is named, the places of what it leaves."""
    for name in sorted(it.name for it in folder.iterdir()) if folder else LIBRARY:
        source = folder / name if folder else None
        if name.endswith(".pc"):
            yield Part(f"lib/pkgconfig/{name}", text=moved(source.read_text() if source else ""), what=LIBRARY.get(name, ""))
        elif name.endswith((".a", ".h", ".c")):
            yield Part(f"{PLACES.get(name, PLACES[name[-2:]])}/{name}", source, what=LIBRARY.get(name, ""))


def moved(said: str) -> str:
    """The text for pkg-config with the folders as they are here."""
    return PKG_CONFIG + "".join(f"{it}\n" for it in said.splitlines() if not it.startswith(("prefix=", "libdir=", "includedir=")))


def put(prefix: Path, part: Part) -> None:
    """Puts a part in its place in one step: a program that runs is not disturbed."""
    place = prefix / part.place
    place.parent.mkdir(parents=True, exist_ok=True)
    new = place.with_name(f".{place.name}.{os.getpid()}")
    try:
        if part.link:
            new.symlink_to(part.link)
        elif part.source:
            shutil.copyfile(part.source, new)
            new.chmod(0o755 if os.access(part.source, os.X_OK) else 0o644)
        else:
            new.write_text(part.text)
            new.chmod(0o644)
        new.replace(place)
    except OSError as error:
        new.unlink(missing_ok=True)
        raise Failed(streams.NO_FILE, f"{place if error.filename in (None, str(new)) else error.filename}: {error.strerror}") from error


def called(*words: str | Path) -> None:
    """Calls a script of the top, whose status ends this one where it is not 0."""
    status = subprocess.run(words, check=False).returncode
    if status:
        sys.exit(status if status > 0 else 128 - status)


def is_made(folder: Path) -> bool:
    """Has the library made in a folder. On a machine that lacks what it is made with, which is said, the rest is installed without it."""
    status = subprocess.run([TOP / "libapei", f"--out={folder}"], check=False).returncode
    if status not in (0, LACKS):
        sys.exit(status if status > 0 else 128 - status)
    return status == 0


def version() -> str:
    return subprocess.run([TOP / "apei", "--version"], capture_output=True, text=True, check=True).stdout.partition(" ")[2]


def install(prefix: Path, given: argparse.Namespace) -> None:
    # Other users may run what is installed, whatever the mask of this one is.
    os.umask(0o022)
    prefix.mkdir(parents=True, exist_ok=True)
    for name in PROGRAMS:
        called(TOP / "tools/launch", "--build", name)
    with tempfile.TemporaryDirectory() as made:
        folder = None if given.without_library else given.library or Path(made)
        if folder and not given.library and not is_made(folder):
            folder = None
        parts = [*programs(), *tools(), *pages(), *(library(folder) if folder else ()), Part("lib/apei/version", text=version())]
        for part in parts:
            put(prefix, part)
    print(f"install: {prefix} has what {given.prog} --what lists" + ("" if folder else ", but for the library"))


def lists(prefix: Optional[Path]) -> None:
    """What there is to install, or what of it is in a folder."""
    there = [it for it in (*programs(), *tools(), *pages(), *library(None)) if it.what and (prefix is None or os.path.lexists(prefix / it.place))]
    # The examples are listed by the folder of all.
    rows = {EXAMPLES_FOLDER if it.what == EXAMPLES else it.place: it.what for it in there}
    for place, what in rows.items():
        print(f"{place:42} {what}")


def main() -> int:
    parser = Parser(prog="./install", description="puts what there is below a folder, which may be moved as a whole",
                                     epilog="status: 0 done (without the library where something is missing that it is made with, which is said), 2 bad words, "
                                            "4 the output can't be written, 5 a file can't be read or written, 70 something is not proved or not built")
    parser.add_argument("--prefix", type=Path, metavar="DIR", help="the folder; it is made where it is not there")
    parser.add_argument("--what", action="store_true", help="lists what is put there, or with --prefix what of it is there, and ends")
    one = parser.add_mutually_exclusive_group()
    one.add_argument("--library", type=Path, metavar="DIR", help="takes the library from DIR, where ./libapei --out=DIR put it")
    one.add_argument("--without-library", action="store_true", help="leaves the library out")
    given = parser.parse_args()
    given.prog = parser.prog
    if given.what:
        lists(given.prefix)
    elif given.prefix is None:
        parser.error("say where to: --prefix=DIR")
    else:
        install(given.prefix, given)
    return 0


def start() -> None:
    streams.end("install", main)
