"""Makes one archive of all that is handed on: `tools/release --out=DIR`.

It has the programs and the tools for scripts as ./install places them, with man pages and completions, the library of both compilers, its header,
the Rust crate, the examples, the licences of what is linked in, a list of checksums, and a page that names the commit and what the gate counted.
It runs where there is no toolchain, from any folder. Of the same commit and the same builds it is the same to the byte.
"""

import argparse
import gzip
import hashlib
import os
import shutil
import subprocess
import tarfile
import tempfile
from collections.abc import Iterator
from pathlib import Path

import streams
from apei import TOP, kit
from apei.library import lay_out
from parser import Parser
from streams import Failed

COMPILERS = "llvm", "rattle"
LLVM, RATTLE = COMPILERS
VERSION = "1.0.0"
READ_ME = """apei {version}

    bin/apei sim < examples/two-records/script

plays a script on a simulated machine whose hardware error records survive its reset. bin/apei --help lists the jobs, and
man -M share/man apei is its man page. The scripts in bin want Python 3.9, those named apei-sweep, apei-cut and apei-explore 3.10. The programs
themselves want nothing: lib/apei/crates/apei/out/apei is one of them. The folder may be put anywhere.

bin                 the programs apei, apei-look and apei-show, and apei-sweep, apei-cut and apei-explore for scripts
lib/libapei.a       the library for C and Rust: smaller code
lib/rattle          the same by the other compiler: faster code, that wants no vector registers but movups
lib/pkgconfig       for pkg-config: libapei, and libapei-rattle
include/apei.h      the library's header, with every call
rust/apei           the crate for Rust, which takes lib/libapei.a
examples            scripts with their replies; embed has a firmware in C, and a monitor and error sources in Rust
share               man pages, completions of words for bash, units for systemd, and memory from one array for a firmware without malloc
licences            of what is linked in
ABOUT               the commit, the toolchain, and what the tests counted
SHA256SUMS          sha256sum -c SHA256SUMS checks each file

No licence has been chosen yet for apei itself: until its owner has, nobody is given leave to pass it on or to change it.
"""


def text_of(*words: str) -> str:
    done = subprocess.run(words, cwd=TOP, capture_output=True, text=True, check=False)
    return done.stdout.strip() if done.returncode == 0 else ""


def git(*words: str) -> str:
    return text_of("git", "-c", f"safe.directory={TOP}", *words)


def call(*words: str | Path) -> None:
    if subprocess.run(words, stdout=subprocess.DEVNULL, check=False).returncode:
        raise Failed(70, f"{Path(words[0]).name} has not built all, so there is no release")


def libraries(given: argparse.Namespace, made: Path) -> dict[str, Path]:
    """The library by each compiler, in folders as ./libapei leaves them."""
    for compiler in COMPILERS:
        if given.archives:
            lay_out(given.archives / f"{compiler}.a", made / compiler)
        else:
            call(TOP / "libapei", f"--compiler={compiler}", f"--out={made / compiler}")
    return {compiler: made / compiler for compiler in COMPILERS}


def copy_tree(source: Path, target: Path) -> None:
    shutil.copytree(source, target, ignore=shutil.ignore_patterns("__pycache__", "target", "out"))


def fill(stage: Path, given: argparse.Namespace, made: Path) -> None:
    """Puts all into a folder, but for the checksums."""
    of = libraries(given, made)
    call(TOP / "install", f"--prefix={stage}", f"--library={of[LLVM]}")
    (stage / "lib/rattle").mkdir()
    shutil.copyfile(of[RATTLE] / "libapei.a", stage / "lib/rattle/libapei.a")
    said = (stage / "lib/pkgconfig/libapei.pc").read_text()
    (stage / "lib/pkgconfig/libapei-rattle.pc").write_text(said.replace("libdir=${prefix}/lib", "libdir=${prefix}/lib/rattle"))
    copy_tree(TOP / "rust/apei", stage / "rust/apei")
    copy_tree(TOP / "examples", stage / "examples")
    write_licences(stage / "licences")
    (stage / "README").write_text(READ_ME.format(version=VERSION))
    (stage / "ABOUT").write_text(about(given.counts))


def write_licences(folder: Path) -> None:
    found = kit.kit()
    if found is None:
        raise Failed(69, "there is no toolchain on this machine, which has the licences of what is linked in")
    without = []
    for name, paths in kit.licences(found):
        (folder / name).mkdir(parents=True)
        for path in paths:
            shutil.copyfile(path, folder / name / path.name)
        if not paths:
            (folder / name).rmdir()
            without.append(name)
    text = "The folders here have the licences of the crates that the programs and the library are linked with.\n"
    if without:
        text += f"These parts of the toolchain are linked in too, and it has no text of a licence for them: {', '.join(without)}.\n"
    (folder / "README").write_text(text)


def about(counts: Path | None) -> str:
    """The commit, the toolchain, and what was counted."""
    commit = git("rev-parse", "HEAD") or "not known"
    changed = "\nchanged since: yes" if git("status", "--porcelain", "--untracked-files=no") else ""
    said = counts.read_text().splitlines() if counts else []
    counted = [it for it in said if it.endswith((" wrong", " failed")) and any(mark in it for mark in (" passed, ", " runs, ", " cases, ", " builds, "))]
    tests = "\n".join(counted) if counted else "not run for this archive"
    return f"version: {VERSION}\ncommit: {commit}{changed}\ntoolchain: {text_of('rt', 'version') or 'not known'}\n\nwhat the gate counted:\n{tests}\n"


def files(stage: Path) -> Iterator[Path]:
    """Each file and link, in order of their paths; what Python keeps of its own is none of them."""
    found = (Path(folder) / name for folder, _, names in os.walk(stage) for name in names if "__pycache__" not in Path(folder).parts)
    return iter(sorted(found))


def sums(stage: Path) -> str:
    there = [it for it in files(stage) if not it.is_symlink()]
    return "".join(f"{hashlib.sha256(it.read_bytes()).hexdigest()}  {it.relative_to(stage)}\n" for it in there)


def pack(stage: Path, name: str, target: Path) -> None:
    """One archive, with nothing of the machine, the user or the hour in it."""
    at = int(git("show", "-s", "--format=%ct", "HEAD") or 0)

    def plain(it: tarfile.TarInfo) -> tarfile.TarInfo:
        it.uid = it.gid = 0
        it.uname = it.gname = ""
        it.mtime = at
        it.mode = 0o755 if it.mode & 0o100 else 0o644
        return it

    with tempfile.TemporaryFile() as whole, open(target, "wb") as file:
        with tarfile.open(fileobj=whole, mode="w") as archive:
            for path in files(stage):
                archive.add(path, f"{name}/{path.relative_to(stage)}", recursive=False, filter=plain)
        whole.seek(0)
        with gzip.GzipFile("", "wb", 9, file, mtime=0) as packed:
            shutil.copyfileobj(whole, packed)


def release(given: argparse.Namespace) -> Path:
    commit = git("rev-parse", "--short=12", "HEAD")
    name = f"apei-{VERSION}" + (f"-{commit}" if commit else "")
    given.out.mkdir(parents=True, exist_ok=True)
    with tempfile.TemporaryDirectory() as folder:
        stage = Path(folder) / name
        fill(stage, given, Path(folder) / "library")
        (stage / "SHA256SUMS").write_text(sums(stage))
        made = Path(folder) / "packed"
        pack(stage, name, made)
        target: Path = given.out / f"{name}.tar.gz"
        shutil.move(made, target)
    target.chmod(0o644)
    return target


def main() -> int:
    parser = Parser(prog="tools/release", description="makes one archive of programs, library, crate and examples, which runs without the toolchain",
                    epilog="status: 0 done, 2 bad words, 4 the output can't be written, 5 a file can't be read or written, 69 something is missing "
                           "that is needed here, 70 something is not proved or not built")
    parser.add_argument("--out", type=Path, required=True, metavar="DIR", help="the folder that the archive is put into; it is made where it is not there")
    parser.add_argument("--archives", type=Path, metavar="DIR", help="takes the library from DIR, where `tools/run archives DIR` put llvm.a and rattle.a")
    parser.add_argument("--counts", type=Path, metavar="FILE", help="what the gate said, whose counts are told")
    target = release(parser.parse_args())
    print(target)
    return 0


def start() -> None:
    streams.end("release", main)
