"""The library as ./libapei lays it out in a folder, of an archive that is there already."""

import shutil
import subprocess
from pathlib import Path

from apei import TOP


def pkg_config() -> str:
    """What ./libapei writes for pkg-config, which finds header and archive beside it."""
    text = (TOP / "libapei").read_text().partition('libapei.pc" <<TEXT\n')[2].partition("TEXT\n")[0]
    return text.replace("\\$", "$")


def lay_out(archive: Path, folder: Path) -> None:
    """Puts an archive of the crate apei_c, with memory from malloc and without, and what belongs to it into a folder."""
    folder.mkdir(parents=True, exist_ok=True)
    made = folder / "libapei.a"
    shutil.copyfile(archive, made)
    shutil.copyfile(archive, folder / "libapei_bare.a")
    heap = folder / "heap_malloc.o"
    # Named from where it is, and without times, the archive is the same wherever it is made.
    subprocess.run(["cc", "-std=c11", "-O2", "-fPIC", "-c", "glue/heap_malloc.c", "-o", heap], cwd=TOP, check=True)
    subprocess.run(["ar", "rD", made.name, heap.name], cwd=folder, check=True, capture_output=True)
    heap.unlink()
    for path in (TOP / "include/apei.h", *(TOP / "glue").glob("heap_arena.*")):
        shutil.copyfile(path, folder / path.name)
    (folder / "libapei.pc").write_text(pkg_config())
