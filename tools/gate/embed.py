"""Has programs embed the library, and loses power in each change that they make.

    tools/run embed [--write] ARCHIVE [ARCHIVE ..]

ARCHIVE is what the crate apei_c is built to, as the tool `archives` builds it. With each the example firmware of examples/embed is linked
and formats a medium. Then power is lost in each change of its formatting and of its run, from the first to the last, and leaves four things
in the range of that change: nothing, all of it, zeros, and 0xA5 in each byte. Each medium that is left is opened again: one whose formatting
was cut is refused, or is empty; any other has the records from before the command that was cut or those after it, and each record that was
told as stored. All archives leave the same medium. The names that an archive wants of its program are those that docs/EMBED.md lists.
A linker drops the calls that a program does not use, unless all code is one section.
Programs of tests/embed count what an archive takes of memory and gives back, try the arena of glue/, run error sources against guests, and
lay blocks into boot error regions. The example client writes, lists, reads and clears records of a device. Then the Rust crate's tests and its examples run, where cargo is there.

The machine code of each archive is read, and first that of tests/embed/footprint.c, of which is known what is found: no archive reaches memory below the stack pointer, those named general.a use no vector registers,
and what docs/EMBED.md says of sizes, registers and stack is what is counted. With --write it is written there, and nothing is run.

Programs for ARM64 are compiled by Debian's gcc-aarch64-linux-gnu and run by its qemu-user. Where these are not there, or there is no C
compiler, one line says so.
"""

import os
import shutil
import subprocess
import sys
from collections.abc import Iterator
from dataclasses import dataclass
from pathlib import Path
from typing import Any

from apei import TOP, made
from apei.footprint import Footprint, differences, write
from apei.harness import Tally, scratch, side_by_side
from apei.machine_code import Code

TEARS = ("nothing", "whole", "zeros", "marks")
# What the names of the archive's calls begin with that a program without a device, sources, a region and a client does not use.
CALLS = "apei_c_erst", "apei_c_ghes", "apei_c_boot", "apei_c_client", "apei_c_make"
WANTED = {"memcpy", "memmove", "memset", "memcmp", "rattle_alloc", "rattle_realloc", "rattle_dealloc"}
# The archives whose code is one section.
ONE_SECTION = {"rattle"}
WARNINGS = ("-std=c11", "-O2", "-Wall", "-Wextra", "-Wpedantic", "-Werror")
# What power that was lost ends the example firmware with.
CUT = 9
# The command status of a command of which the flash failed a change.
FAILED = "3"

# How the Rust crate is tried, and what an example writes twice.
TRIALS = (
    (("test",), ""),
    (("test", "--no-default-features"), ""),
    (("run", "--example", "vmm"), "as written: true"),
    (("run", "--example", "sources"), "as submitted: true"),
)

Records = dict[str, str]


def call(*words: str | os.PathLike[str], **options: Any) -> subprocess.CompletedProcess[str]:
    return subprocess.run(words, capture_output=True, text=True, check=False, **options)


def make(*words: str | Path) -> None:
    done = call(*words)
    if done.returncode:
        sys.exit(f"embed: {words[0]}: {done.stderr}")


@dataclass(frozen=True)
class System:
    """How programs for a processor are compiled and run here."""

    # What the names of the compiler and of the programs beside it begin with.
    prefix: str
    # What runs a program.
    runner: tuple[str, ...]
    # What cargo calls it; None is this machine.
    triple: str | None = None

    @property
    def cc(self) -> str:
        return f"{self.prefix}gcc" if self.prefix else "cc"

    @property
    def lacks(self) -> list[str]:
        return [it for it in (self.cc, f"{self.prefix}ar", *self.runner[:1]) if shutil.which(it) is None]

    def linked(self, library: Path, program: Path, *sources: Path) -> Path:
        """A program over the library."""
        make(self.cc, *WARNINGS, f"-I{TOP / 'include'}", f"-I{TOP / 'glue'}", *sources, library, "-o", program)
        return program

    def run(self, program: Path, *words: str | Path) -> subprocess.CompletedProcess[str]:
        return call(*self.runner, program, *words)


HERE = System("", ())
ARM = System("aarch64-linux-gnu-", ("qemu-aarch64", "-L", "/usr/aarch64-linux-gnu"), "aarch64-unknown-linux-gnu")


def system_of(archive: Path) -> System:
    return HERE if "x86-64" in call("objdump", "-f", archive).stdout else ARM


def built(system: System, archive: Path, folder: Path) -> Path:
    """The library as ./libapei lays it out, and the example firmware over it."""
    folder.mkdir()
    heap, library = folder / "heap.o", folder / "libapei.a"
    shutil.copy(archive, library)
    shutil.copy(archive, folder / "libapei_bare.a")
    make(system.cc, *WARNINGS, "-fPIC", "-c", TOP / "glue" / "heap_malloc.c", "-o", heap)
    make(f"{system.prefix}ar", "r", library, heap)
    return system.linked(library, folder / "firmware", TOP / "examples" / "embed" / "firmware.c")


# What error sources are tried by, and where their memory is the C library's.
GUESTS, MALLOC = "tests/embed/guests.c", "glue/heap_malloc.c"
# The programs that try an archive, with the files of each.
PROGRAMS = {
    "memory": ("tests/embed/heap.c", "tests/embed/memory.c", "tests/embed/opening.c"),
    "arena": ("glue/heap_arena.c", "tests/embed/arena.c", "tests/embed/opening.c"),
    "source_memory": ("tests/embed/heap.c", GUESTS, "tests/embed/source_memory.c"),
    "sources": (MALLOC, GUESTS, "tests/embed/sources.c"),
    "boot": (MALLOC, GUESTS, "tests/embed/boot.c"),
    "makers": (MALLOC, "tests/embed/makers.c"),
    "client": (MALLOC, "examples/embed/client.c"),
}


def tries(system: System, archive: Path, folder: Path, name: str) -> str | None:
    """What a program finds wrong with an archive; None where nothing is."""
    done = system.run(system.linked(archive, folder / name, *(TOP / it for it in PROGRAMS[name])))
    return f"{archive}: {name}: {done.stderr}" if done.returncode else None


def is_made_otherwise(system: System, folder: Path) -> str | None:
    """What a made block and a made record have elsewhere than Linux has it; None where nothing."""
    done = system.run(folder / "makers", "show")
    return done.stderr if done.returncode else made.wrong(done.stdout)


def drops_calls(system: System, folder: Path) -> bool:
    """Whether a program that checks a table is linked without the calls on devices, error sources and regions."""
    program = folder / "check"
    words: list[str | Path] = ["-Wl,--gc-sections", TOP / "tests" / "embed" / "check.c", folder / "libapei.a"]
    make(system.cc, *WARNINGS, f"-I{TOP / 'include'}", *words, "-o", program)
    names = call(f"{system.prefix}nm", program).stdout
    return system.run(program).returncode == 0 and "apei_c_check" in names and not any(it in names for it in CALLS)


def unknown_names(system: System, archive: Path) -> set[str]:
    """The names that the archive wants of its program, but for those that it may."""
    lines = call(f"{system.prefix}nm", "--undefined-only", "--format=posix", archive).stdout.splitlines()
    return {line.split()[0] for line in lines if " U" in line} - WANTED


def counted(system: System, folder: Path, *words: str) -> Code:
    """The code of tests/embed/footprint.c."""
    made = folder / "footprint.o"
    make(system.cc, *WARNINGS, *words, "-c", TOP / "tests" / "embed" / "footprint.c", "-o", made)
    return Code(made)


def counts_rightly(system: System) -> bool:
    """Whether what is known of tests/embed/footprint.c is counted in it."""
    with scratch() as folder:
        by_abi = counted(system, folder)
        if system is ARM:
            return not by_abi.below() and 864 <= by_abi.stacks()["caller"] < 1200 and bool(by_abi.vector_names)
        plain = counted(system, folder, "-mno-red-zone")
        stacks = plain.stacks()
        is_plain = not plain.below() and 64 < stacks["leaf"] < 100 and 864 < stacks["caller"] < 1200
        return is_plain and len(by_abi.below()) > 0 and "mulsd" in plain.vector_names


def states(lines: list[str]) -> Iterator[Records]:
    """The records before the first command that was told, and after each."""
    records: Records = {}
    yield dict(records)
    for line in lines:
        words = line.split()
        if words[-1] == "0" and words[0] == "write":
            records[words[1]] = f"record {words[1]} {words[2]} {words[3] if words[2] != '128' else 0}"
        elif words[-1] == "0":
            records.pop(words[1], None)
        yield dict(records)


def possible(lines: list[str]) -> list[list[str]]:
    """The lists that a medium may have behind these commands: one that failed is carried out there or not."""
    kept = [line for line in lines if line.split()[-1] != FAILED]
    done = [line[: -len(FAILED)] + "0" if line.split()[-1] == FAILED else line for line in lines]
    return [told(list(states(each))[-1]) for each in (kept, done)]


def told(records: Records) -> list[str]:
    return [records[name] for name in sorted(records, key=int)]


class Firmware:
    """The example over one archive, with a formatted medium."""

    def __init__(self, system: System, program: Path, folder: Path) -> None:
        self.system = system
        self.program = program
        self.folder = folder
        self.medium = folder / "medium"
        self.run(self.medium, "format")
        whole = folder / "whole"
        shutil.copy(self.medium, whole)
        self.lines = self.run(whole, "play").stdout.splitlines()
        self.states = list(states(self.lines))
        self.left = whole.read_bytes()

    def run(self, medium: Path, *words: str) -> subprocess.CompletedProcess[str]:
        return self.system.run(self.program, medium, *words)

    def is_cut(self, words: tuple[str, ...], step: int, tear: str) -> str | None:
        """What is wrong with the medium that power lost in one change leaves; None where nothing is."""
        medium = self.folder / f"{words[0]}-{step}-{tear}"
        shutil.copy(self.medium, medium)
        run = self.run(medium, *words, str(step), tear)
        found = self.run(medium, "list")
        medium.unlink()
        case = f"{words[0]} cut in change {step}, {tear}"
        if run.returncode != CUT:
            return f"{case}: status {run.returncode}"
        if words[0] == "format":
            is_foreign = found.returncode == 1 and "not the library's own" in found.stderr
            is_empty = found.returncode == 0 and found.stdout == ""
            return None if is_foreign or is_empty else f"{case}: {found.stdout}{found.stderr}"
        after = len(run.stdout.splitlines())
        allowed = [told(state) for state in self.states[after : after + 2]]
        is_right = found.returncode == 0 and found.stdout.splitlines() in allowed
        return None if is_right else f"{case}: {found.stdout}{found.stderr}, allowed {allowed}"

    def has_failed(self, step: int, tear: str) -> str | None:
        """What is wrong where the flash fails one change of the run; None where nothing is."""
        medium = self.folder / f"failed-{step}-{tear}"
        shutil.copy(self.medium, medium)
        run = self.run(medium, "play", str(step), tear, "fail")
        found = self.run(medium, "list")
        medium.unlink()
        lines = run.stdout.splitlines()
        failed = [line for line in lines if line.split()[-1] == FAILED]
        is_right = run.returncode == 0 and len(lines) == len(self.lines) and len(failed) == 1
        is_kept = found.returncode == 0 and found.stdout.splitlines() in possible(lines)
        return None if is_right and is_kept else f"change {step} failed, {tear}: {run.stdout}{run.stderr}{found.stdout}{found.stderr}"

    def changes(self, *words: str) -> int:
        """How many changes a whole run makes: power that is lost in a later one is not lost."""
        low, high = 0, 1 << 12
        while low < high:
            middle = (low + high) // 2
            medium = self.folder / "counted"
            shutil.copy(self.medium, medium)
            if self.run(medium, *words, str(middle), "nothing").returncode == CUT:
                low = middle + 1
            else:
                high = middle
        return low

    def cut_everywhere(self, tally: Tally) -> None:
        cases = [
            ((job,), step, tear)
            for job in ("format", "play")
            for step in range(self.changes(job))
            for tear in TEARS
        ]
        for wrong in side_by_side(lambda case: self.is_cut(*case), cases):
            tally.expect(wrong is None, wrong or "")

    def fail_everywhere(self, tally: Tally) -> None:
        cases = [(step, tear) for step in range(self.changes("play")) for tear in TEARS]
        for wrong in side_by_side(lambda case: self.has_failed(*case), cases):
            tally.expect(wrong is None, wrong or "")


def rust(system: System, library: Path, tally: Tally) -> None:
    """The tests and the example of the Rust crate, over the library of a folder; the tests again without its feature `std`."""
    environment = {**os.environ, "APEI_LIB_DIR": str(library), "CARGO_TARGET_DIR": str(library / "target")}
    target = []
    if system.triple:
        upper = system.triple.upper().replace("-", "_")
        environment |= {f"CARGO_TARGET_{upper}_LINKER": system.cc, f"CARGO_TARGET_{upper}_RUNNER": " ".join(system.runner)}
        target = ["--target", system.triple]
    for words, shown in TRIALS:
        done = call("cargo", *words, "--offline", "--quiet", *target, cwd=TOP / "rust" / "apei", env=environment)
        is_right = done.returncode == 0 and (not shown or done.stdout.count(shown) == 2)
        tally.expect(is_right, f"cargo {' '.join([*words, *target])}: {done.stdout}{done.stderr}")


def lacks_rust(system: System) -> str | None:
    """What is not there of what the Rust crate wants; None where all is."""
    if shutil.which("cargo") is None:
        return "cargo"
    if system.triple:
        folder = call("rustc", "--print", "target-libdir", "--target", system.triple).stdout.strip()
        if not folder or not Path(folder).exists():
            return f"Rust for {system.triple}"
    return None


def try_archives(archives: list[Path], tally: Tally) -> None:
    tried: set[System] = set()
    with scratch() as room:
        firmwares = []
        for number, archive in enumerate(archives):
            system, folder = system_of(archive), room / str(number)
            if system.lacks:
                print(f"there is no {' and no '.join(system.lacks)}, so {archive.name} was not tried")
                continue
            firmwares.append(Firmware(system, built(system, archive, folder), folder))
            unknown = unknown_names(system, archive)
            tally.expect(not unknown, f"{archive} wants {unknown}")
            is_one = archive.stem in ONE_SECTION
            tally.expect(is_one or drops_calls(system, folder), f"{archive}: calls that are not used are not dropped")
            for name in PROGRAMS:
                wrong = tries(system, archive, folder, name)
                tally.expect(wrong is None, wrong or "")
            wrong = is_made_otherwise(system, folder)
            tally.expect(wrong is None, f"{archive}: {wrong}")
        for firmware in firmwares:
            tally.expect(firmware.left == firmwares[0].left, "two archives leave two mediums")
            tally.expect(len(firmware.lines) == 6, f"the run is not whole: {firmware.lines}")
            firmware.cut_everywhere(tally)
            firmware.fail_everywhere(tally)
        for firmware in firmwares:
            if firmware.system in tried:
                continue
            tried.add(firmware.system)
            lacking = lacks_rust(firmware.system)
            if lacking:
                print(f"there is no {lacking}, so the Rust crate was not tried over it")
            else:
                rust(firmware.system, firmware.folder, tally)


def main(words: list[str]) -> int:
    archives = [Path(it) for it in words if it != "--write"]
    if not archives:
        sys.exit(__doc__)
    if shutil.which("cc") is None or shutil.which("ar") is None:
        print("there is no C compiler, so the library was not tried")
        return 0
    footprints = {it.stem: Footprint.of(it) for it in archives if not system_of(it).lacks}
    if "--write" in words:
        write(footprints)
        return 0
    tally = Tally("cases")
    for system in {system_of(it) for it in archives}:
        tally.expect(bool(system.lacks) or counts_rightly(system), "what stands in tests/embed/footprint.c is not counted")
    for name, footprint in footprints.items():
        wrong = footprint.wrong(name)
        tally.expect(not wrong, "; ".join(wrong))
    for line in differences(footprints):
        tally.expect(False, f"docs/EMBED.md is not what is counted, `tools/run embed --write ARCHIVE ..` writes it: {line}")
    try_archives(archives, tally)
    return tally.end()
