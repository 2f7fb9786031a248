"""How an archive of the library is made: of the crate apei_c, over the libraries of the crates below it.

`rt lib` builds it too, but by the kit's own folder of compilers and for its default processor alone. So the toolchain's own command is called
here: `rattle check` proves the crate for one processor, and `rattle build` compiles what was proved.
"""

import shlex
import shutil
import subprocess
import sys
from collections.abc import Iterator
from contextlib import contextmanager
from dataclasses import dataclass
from pathlib import Path

from apei import TOP, crates
from apei.harness import scratch

CRATE = "apei_c"
X86, ARM = "x86-64", "aarch64"
TRIPLES = {X86: "x86_64-unknown-linux-gnu", ARM: "aarch64-unknown-linux-gnu"}
COMPILERS = "llvm", "rattle"
# The words that keep LLVM from all registers but the general ones.
GENERAL = ("-mgeneral-regs-only",)


class NotBuilt(Exception):
    """Something was not proved or not built; it carries what was said."""


@dataclass(frozen=True)
class Kind:
    """What an archive is made for."""

    compiler: str = "llvm"
    target: str = X86
    # The processor; None is the toolchain's default for the target.
    cpu: str | None = None
    # Whether the code may use vector registers, or general ones alone.
    vectors: bool = True

    @property
    def words(self) -> list[str]:
        """What the check of the crate and the build are both told of it."""
        return ["--target", TRIPLES[self.target], *(["--cpu", self.cpu] if self.cpu else [])]

    @property
    def is_possible(self) -> bool:
        """The toolchain's own compiler has no words about registers, and this kit's makes no code for ARM."""
        return self.compiler == "llvm" or (self.vectors and self.target == X86)


def kit() -> Path | None:
    """The toolchain's folder, where all is there that the archives are built over; None if there is no rt."""
    command = shutil.which("rt")
    return Path(command).resolve().parent.parent if command else None


def rlib(crate: str) -> Path:
    return TOP / "crates" / crate / "out" / "rlib" / f"{crate}.rlib"


def libraries() -> list[str]:
    """The crates below, whose libraries the archive is built over."""
    return sorted(crates.below(CRATE, crates.depends()) - {CRATE})


def run(*words: str | Path) -> None:
    folder = TOP / "crates" / CRATE
    done = subprocess.run(words, cwd=folder, stdout=subprocess.PIPE, stderr=subprocess.STDOUT, text=True, errors="replace", check=False)
    if done.returncode:
        raise NotBuilt(done.stdout)


@contextmanager
def compilers(kit_folder: Path, kind: Kind) -> Iterator[Path]:
    """The kit's folder of compilers, but that its clang is called by `plain_stack`, which keeps code from memory below the stack pointer."""
    theirs = kit_folder / "toolchain"
    with scratch() as room:
        (room / "bin").mkdir()
        (room / "lib").symlink_to(theirs / "lib")
        for it in (theirs / "bin").iterdir():
            (room / "bin" / it.name).symlink_to(it)
        clang = room / "bin" / "clang"
        clang.unlink()
        more = () if kind.vectors else GENERAL
        words = [sys.executable, str(TOP / "tools" / "apei" / "plain_stack.py"), str(theirs / "bin" / "clang"), *more]
        clang.write_text(f'#!/bin/sh\nexec {shlex.join(words)} "$@"\n')
        clang.chmod(0o755)
        yield room


class Archives:
    """The archives of one processor: the crate is proved once for it, and what was proved is built by either compiler."""

    def __init__(self, kit_folder: Path, proved: Path) -> None:
        self.kit = kit_folder
        self.proved = proved

    def words(self, kind: Kind) -> list[str | Path]:
        """What the compiler is told of the crate: its source, the libraries that it names, and where those are found."""
        ours = libraries()
        words: list[str | Path] = ["--crate-name", CRATE, "src/lib.rt", "--crate-type", "staticlib", "--links", f"{CRATE}=", *kind.words]
        for name in ("std", *crates.named()[CRATE]):
            words += ["--extern", f"{name}={rlib(name) if name in ours else self.kit / 'rlibs' / f'{name}.rlib'}"]
        for place in (self.kit / "rlibs", *(rlib(it).parent for it in ours)):
            words += ["-L", f"dependency={place}"]
        return [*words, "--antt-project", self.kit / "rattle" / "logic" / "antt-project.json"]

    def prove(self, kind: Kind, jobs: int) -> None:
        rattle = self.kit / "bin" / "rattle"
        run(rattle, "check", *self.words(kind), "--logic-built", self.kit / "logic_built", "--jobs", str(jobs), "-o", self.proved)

    def build(self, kind: Kind, made: Path) -> None:
        """Compiles what was proved."""
        words = [*self.words(kind), "--crate-checked", self.proved, "--backend", kind.compiler, "-o", made.resolve()]
        with compilers(self.kit, kind) as folder:
            run(self.kit / "bin" / "rattle", "build", *words, "--toolchain", folder)
