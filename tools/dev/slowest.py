"""Lists the proofs that took longest, by what the toolchain keeps of a check.

    tools/run slowest [--count=N] [CRATE ..]

A check keeps a file for each function and each file of proofs as soon as it is done with it (`out/incremental`). The time between one
file and the one before it is about what its proof took: exactly with one job, and less than that with several, which write in turn. So
build a crate anew with `rt check --jobs 1` where the order matters. A gap of more than ten minutes is a pause between two checks, and is
left out.
"""

import argparse
from collections.abc import Iterator
from dataclasses import dataclass
from pathlib import Path

from apei import TOP

PAUSE = 600.0


@dataclass(frozen=True, order=True)
class Proof:
    """A proof and the seconds that it took."""

    seconds: float
    crate: str
    name: str


def proofs(crate: Path) -> Iterator[Proof]:
    kept = sorted((file.stat().st_mtime_ns, file.stem) for file in crate.glob("out/incremental/*/*.oantt"))
    for (before, _), (after, name) in zip(kept, kept[1:]):
        seconds = (after - before) / 1e9
        if seconds < PAUSE:
            yield Proof(seconds, crate.name, name.removeprefix(f"Rattle-{crate.name}-"))


def main(words: list[str]) -> int:
    form = argparse.RawDescriptionHelpFormatter
    parser = argparse.ArgumentParser(prog="tools/run slowest", description=__doc__, formatter_class=form)
    parser.add_argument("--count", type=int, default=30)
    parser.add_argument("--top", type=Path, default=TOP, help="another copy of the repository, which has been built")
    parser.add_argument("crates", nargs="*")
    asked = parser.parse_args(words)
    folders = [asked.top / "crates" / name for name in asked.crates] or sorted((asked.top / "crates").iterdir())
    found = sorted((proof for folder in folders for proof in proofs(folder)), reverse=True)
    whole = sum(proof.seconds for proof in found)
    for proof in found[: asked.count]:
        print(f"{proof.seconds:7.1f} s  {proof.crate}  {proof.name}")
    print(f"{len(found)} proofs, {whole:.0f} s; those shown take {sum(proof.seconds for proof in found[: asked.count]):.0f} s")
    return 0
