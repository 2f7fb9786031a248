"""Makes the release twice, unpacks it elsewhere, and uses it where there is no toolchain.

    tools/run release ARCHIVES SAID

ARCHIVES is a folder that the tool `archives` has filled, and SAID what the gate said so far. The two archives are the same to the byte. As another
user, and with a path on which no toolchain is, the examples are played and compared with their replies, a script is swept, and the checksums are
looked up. The firmware is linked with the library of each compiler by pkg-config, and the crate's example with cargo, where those are here.
"""

import os
import shutil
import subprocess
import sys
import tarfile
from collections.abc import Iterator
from pathlib import Path
from typing import Any

from apei import TOP
from apei.harness import Ended, Program, Tally, scratch

NOBODY = 65534


def made(out: Path, archives: str, said: str, **settings: Any) -> Path:
    """The archive in a folder."""
    words = [TOP / "tools/release", f"--out={out}", f"--archives={archives}", f"--counts={said}"]
    subprocess.run([str(it) for it in words], check=True, stdout=subprocess.DEVNULL, **settings)
    return next(out.iterdir())


class Unpacked(Tally):
    """The release, unpacked in a folder."""

    def __init__(self, archive: Path, folder: Path) -> None:
        super().__init__("cases")
        with tarfile.open(archive) as packed:
            packed.extractall(folder)
        self.top = next(folder.iterdir())
        self.path = {"PATH": "/usr/bin:/bin", "PKG_CONFIG_PATH": str(self.top / "lib/pkgconfig")}

    def run(self, *words: str | Path, given: bytes = b"") -> Ended:
        """A run in the folder, as nobody: its first word is a path in it, or a command."""
        name, *rest = words
        there = self.top / name
        other: dict[str, Any] = {"user": NOBODY, "group": NOBODY, "extra_groups": []} if os.geteuid() == 0 else {}
        return Program(there if there.exists() else Path(name)).run(*rest, given=given, cwd=self.top, env=self.path, **other)


def examples(unpacked: Unpacked) -> Iterator[tuple[Path, list[str]]]:
    """The examples that are played to their end over no file, with their words."""
    for path in sorted((unpacked.top / "examples").glob("*/script")):
        words = path.with_name("words")
        given = words.read_text().split() if words.exists() else ["sim"]
        if not path.with_name("status").exists() and "IMAGE" not in words_of(given):
            yield path, given


def words_of(given: list[str]) -> str:
    return " ".join(given)


def plays(unpacked: Unpacked) -> None:
    for path, words in examples(unpacked):
        done = unpacked.run("bin/apei", *words, given=path.read_bytes())
        unpacked.expect((done.status, done.written) == (0, path.with_name("replies").read_bytes()), f"{path.parent.name}: {done}")
    swept = unpacked.run("bin/apei-sweep", "--sector=256", "--slots=4", "examples/crash-in-a-replacement/script")
    unpacked.expect(swept.status == 0 and swept.text.endswith(" 0 wrong\n"), f"apei-sweep: {swept}")
    record = bytes.fromhex((unpacked.top / "examples/two-records/script").read_text().splitlines()[1].split()[-1])
    shown = unpacked.run("bin/apei-show", "--brief", "-", given=record)
    unpacked.expect(shown.status == 0 and bool(shown.text), f"apei-show: {shown}")
    for name in ("apei", "apei-look", "apei-show"):
        commit = subprocess.run(["git", "-c", f"safe.directory={TOP}", "-C", TOP, "describe", "--always", "--dirty"], capture_output=True, text=True, check=False)
        done = unpacked.run(f"bin/{name}", "--version")
        unpacked.expect(done.text.startswith(f"{name} {commit.stdout.strip()}"), f"{name} --version: {done}")


def tells(unpacked: Unpacked) -> None:
    """The checksums, and what the release says of itself."""
    done = unpacked.run("sha256sum", "--check", "--quiet", "SHA256SUMS")
    listed = len((unpacked.top / "SHA256SUMS").read_text().splitlines())
    there = sum(it.is_file() and not it.is_symlink() for it in unpacked.top.rglob("*")) - 1
    unpacked.expect(done.status == 0 and listed == there, f"SHA256SUMS has {listed} of {there} files: {done}")
    about = (unpacked.top / "ABOUT").read_text()
    unpacked.expect("commit: " in about and (" passed, " in about or " 0 wrong" in about), f"ABOUT: {about}")
    licences = [it for it in (unpacked.top / "licences").iterdir() if it.is_dir() and any(it.iterdir())]
    unpacked.expect(len(licences) > 5, f"licences: {licences}")


def links(unpacked: Unpacked, folder: Path) -> None:
    """Programs in C over the library of each compiler."""
    if not (shutil.which("cc") and shutil.which("pkg-config")):
        print("release: there is no cc or no pkg-config here, so nothing was linked")
        return
    folder.chmod(0o777)
    for library in ("libapei", "libapei-rattle"):
        flags = unpacked.run("pkg-config", "--cflags", "--libs", library).text.split()
        program, medium = folder / library, folder / f"{library}.medium"
        done = unpacked.run("cc", "examples/embed/firmware.c", "-o", program, *flags)
        ends = [unpacked.run(program, medium, job).status for job in ("format", "play", "list")] if done.status == 0 else []
        unpacked.expect(ends == [0, 0, 0], f"{library}: {flags}, {done}, {ends}")


def crate(unpacked: Unpacked, folder: Path) -> None:
    """The crate's example takes the library from beside it."""
    if shutil.which("cargo") is None:
        print("release: there is no cargo here, so the crate was not tried")
        return
    environment = {**os.environ, "CARGO_TARGET_DIR": str(folder / "target")}
    environment.pop("APEI_LIB_DIR", None)
    words = ("cargo", "run", "--offline", "--quiet", "--example", "vmm")
    done = subprocess.run(words, cwd=unpacked.top / "rust/apei", env=environment, capture_output=True, text=True, check=False)
    unpacked.expect(done.returncode == 0 and done.stdout.count("as written: true") == 2, f"the crate's example: {done}")


def main(words: list[str]) -> int:
    if len(words) != 2:
        sys.exit(__doc__)
    given = [str(Path(it).resolve()) for it in words]
    with scratch() as folder:
        folder.chmod(0o755)
        first = made(folder / "first", *given)
        second = made(folder / "second", *given, umask=0o077, cwd="/", env={**os.environ, "TZ": "Asia/Tokyo", "LC_ALL": "C"})
        for name in ("elsewhere", "made"):
            (folder / name).mkdir(mode=0o755)
        unpacked = Unpacked(first, folder / "elsewhere")
        unpacked.expect(first.name == second.name and first.read_bytes() == second.read_bytes(), "two archives of one commit are not the same")
        plays(unpacked)
        tells(unpacked)
        links(unpacked, folder / "made")
        crate(unpacked, folder / "made")
        return unpacked.end()
