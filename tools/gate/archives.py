"""Builds the library's archives.

    tools/run archives FOLDER                  each of them, over what `rt ci` left: llvm.a, general.a and rattle.a, and arm.a for ARM64
    tools/run archives FILE --KIND ..          one of them, over what tools/build left; ./libapei calls it

The words of a kind are --compiler=llvm or rattle, --target=x86-64 or aarch64, --cpu=NAME, and --registers=all or general.

`rt ci` proves the crate apei_c and makes no archive of it, and `rt lib`, after it, proves all crates below once more. So the toolchain's
own command is called: it proves apei_c once for each processor over the libraries that are there, and compiles what it proved.

If a crate has the library of an earlier check, `rt ci` has put it back in the place of its own, and nothing says of which sources it
is. Then, and if there is none, a line says so, and the exit status is 77. It is 70 if something was not proved or not built, and 2
if a kind can't be built.
"""

import os
import subprocess
import sys
from pathlib import Path
from typing import NoReturn

from apei import TOP
from apei.archives import ARM, COMPILERS, CRATE, TRIPLES, X86, Archives, Kind, NotBuilt, kit, libraries, rlib
from apei.harness import scratch

# The archives that the gate tries, by the processors that the crate is proved for.
TRIED = {
    X86: {"llvm": Kind(), "general": Kind(vectors=False), "rattle": Kind("rattle")},
    ARM: {"arm": Kind(target=ARM)},
}


def refuse(why: str) -> NoReturn:
    print(f"{why}, so no archive was built")
    sys.exit(77)


def kit_of() -> Path:
    folder = kit()
    if folder is None:
        refuse("there is no rt on this machine")
    if not all((rlib(it) / "format").exists() for it in libraries()):
        refuse("some crate has no library")
    return folder


def build_all(folder: Path) -> None:
    toolchain = kit_of()
    if any((rlib(it).parent / "stamp").exists() for it in libraries()):
        refuse("crates have the libraries of earlier checks")
    folder.mkdir(parents=True, exist_ok=True)
    for kinds in TRIED.values():
        with scratch() as room:
            archives = Archives(toolchain, room / "proved")
            archives.prove(next(iter(kinds.values())), 2)
            for name, kind in kinds.items():
                archives.build(kind, folder / f"{name}.a")


def kind_of(words: list[str]) -> Kind:
    said = dict(word.partition("=")[::2] for word in words)
    compiler, target = said.pop("--compiler", "llvm"), said.pop("--target", X86)
    cpu, registers = said.pop("--cpu", ""), said.pop("--registers", "all")
    if said or compiler not in COMPILERS or target not in TRIPLES or registers not in ("all", "general"):
        print(f"no archive is of the kind {' '.join(words)}")
        sys.exit(2)
    kind = Kind(compiler, target, cpu or None, registers == "all")
    if not kind.is_possible:
        print("the compiler rattle builds for x86-64 alone, and uses vector registers")
        sys.exit(2)
    return kind


def build_one(made: Path, kind: Kind) -> None:
    """Builds one kind. What was proved for its processor is kept in the crate's folder `out`, and proved again only once it is another."""
    if subprocess.run([TOP / "tools" / "build", *libraries()], check=False).returncode:
        sys.exit(70)
    kept = TOP / "crates" / CRATE / "out" / "proved" / "-".join([kind.target, *filter(None, [kind.cpu])])
    archives = Archives(kit_of(), kept)
    if kept.exists():
        try:
            archives.build(kind, made)
            return
        except NotBuilt:
            pass
    kept.parent.mkdir(parents=True, exist_ok=True)
    archives.prove(kind, len(os.sched_getaffinity(0)))
    archives.build(kind, made)


def main(words: list[str]) -> int:
    if not words:
        sys.exit(__doc__)
    place, *kind = words
    try:
        if kind:
            build_one(Path(place), kind_of(kind))
        else:
            build_all(Path(place))
    except NotBuilt as why:
        print(why)
        return 70
    return 0
