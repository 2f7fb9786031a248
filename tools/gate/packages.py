"""Fetches packages by tests/debian from a repository that is made here, and looks for hosts that the repository of this project names.

    tools/run packages

The sources of packages are those of the machine, in either form, and source packages are taken from beside them. No file of the project names a
host: what is fetched comes from where the machine has its own.
"""

import os
import re
import shutil
import subprocess
from pathlib import Path

from apei import TOP
from apei.harness import Ended, Program, Tally, scratch

TOOLS = "apt-get", "apt-config", "dpkg-deb", "dpkg-source", "dpkg-scanpackages", "dpkg-scansources"
# A place in a network. The names of XML's forms are none.
HOST = re.compile(r"\b(?:https?|ftp)://(?!www\.w3\.org/)[\w.-]+|\b[\w-]+(?:\.[\w-]+)*\.(?:debian|kernel|github)\.(?:org|com)\b")
CONTROL = """Package: apei-tried
Version: {version}
Architecture: all
Maintainer: Nobody <nobody@localhost>
Description: a package to be fetched
"""
SOURCE = """Source: apei-tried
Maintainer: Nobody <nobody@localhost>

Package: apei-tried
Architecture: all
Description: a package to be fetched
"""
CHANGES = "apei-tried (2) unstable; urgency=low\n\n  * It is there.\n\n -- Nobody <nobody@localhost>  Tue, 01 Dec 2026 00:00:00 +0000\n"


def call(*words: str | Path, cwd: Path) -> str:
    return subprocess.run(words, cwd=cwd, check=True, capture_output=True, text=True).stdout


def repository(folder: Path) -> None:
    """A repository with two versions of a package, and the source of the newer one."""
    for version in ("1", "2"):
        tree = folder / f"tree-{version}"
        (tree / "DEBIAN").mkdir(parents=True)
        (tree / "DEBIAN/control").write_text(CONTROL.format(version=version))
        call("dpkg-deb", "--build", "--root-owner-group", tree, folder / f"apei-tried_{version}_all.deb", cwd=folder)
        shutil.rmtree(tree)
    made = folder / "made/apei-tried-2"
    (made / "debian/source").mkdir(parents=True)
    (made / "debian/control").write_text(SOURCE)
    (made / "debian/changelog").write_text(CHANGES)
    (made / "debian/source/format").write_text("3.0 (native)\n")
    (made / "said").write_text("it is there\n")
    call("dpkg-source", "--build", "made/apei-tried-2", cwd=folder)
    shutil.rmtree(folder / "made")
    (folder / "Packages").write_text(call("dpkg-scanpackages", "--multiversion", ".", cwd=folder))
    (folder / "Sources").write_text(call("dpkg-scansources", ".", cwd=folder))


class Fetches(Tally):
    """Calls of tests/debian on a machine whose sources of packages are those of a folder."""

    def __init__(self, folder: Path, name: str, text: str) -> None:
        super().__init__("cases")
        self.folder = folder
        parts = folder / "parts"
        parts.mkdir(parents=True)
        (parts / name).write_text(text)
        (folder / "apt.conf").write_text(f'Dir::Etc::sourcelist "/dev/null";\nDir::Etc::sourceparts "{parts}";\n')

    def run(self, *words: str) -> Ended:
        return Program(TOP / "tests/debian").run(*words, cwd=self.folder, env={**os.environ, "APT_CONFIG": str(self.folder / "apt.conf")})

    def all(self) -> None:
        done = self.run("package", "fetched", "apei-tri.d")
        there = (self.folder / "fetched/apei-tried_2_all.deb").exists()
        self.expect(done.status == 0 and there, f"a package: {done}")
        done = self.run("source", "fetched", "apei-tried")
        there = (self.folder / "fetched/apei-tried/said").exists()
        self.expect(done.status == 0 and there, f"a source: {done}")
        done = self.run("package", "fetched", "apei-none")
        self.expect((done.status, done.said) == (77, "the machine's sources of packages have no apei-none\n"), f"a package that is none: {done}")
        done = self.run("source", "fetched", "apei-none")
        self.expect(done.status == 77 and done.said.startswith("the source of apei-none can't be fetched: "), f"a source that is none: {done}")


def fetched(tally: Tally, folder: Path) -> None:
    made = folder / "repository"
    made.mkdir()
    repository(made)
    for name, text in (
        ("one.list", f"# what the machine has\ndeb [trusted=yes] file:{made} ./\n"),
        ("two.sources", f"Types: deb\nURIs: file:{made}\nSuites: ./\nTrusted: yes\n"),
    ):
        fetches = Fetches(folder / name.partition(".")[0], name, text)
        fetches.all()
        tally.cases, tally.wrong = tally.cases + fetches.cases, tally.wrong + fetches.wrong
    none = Fetches(folder / "none", "none.list", "# the machine has none\n")
    done = none.run("package", "fetched", "apei-tried")
    tally.expect((done.status, done.said) == (77, "this machine has no sources of packages\n"), f"no sources of packages: {done}")


def named_hosts() -> list[str]:
    """The files of the project that name a host, with what they name. This one has the pattern."""
    listed = subprocess.run(["git", "-c", f"safe.directory={TOP}", "-C", TOP, "ls-files", "-z"], capture_output=True, text=True, check=False).stdout
    paths = [TOP / name for name in listed.split("\0") if name and not name.endswith((".png", "gate/packages.py"))]
    found = ((path, HOST.search(path.read_text(errors="replace"))) for path in paths if path.is_file())
    return [f"{path.relative_to(TOP)} names {host[0]}" for path, host in found if host]


def main(_words: list[str]) -> int:
    tally = Tally("cases")
    tally.add(named_hosts())
    without = [it for it in TOOLS if not shutil.which(it)]
    if without:
        print(f"packages: there is no {without[0]} here (Debian's packages apt, dpkg, dpkg-dev), so none were fetched")
    else:
        with scratch() as folder:
            fetched(tally, folder)
    return tally.end()
