"""The crates of the repository, as crates.txt has them."""

from collections.abc import Iterator

from apei import TOP

# Each crate with the names after it.
Depends = dict[str, list[str]]


def rows() -> Iterator[tuple[str, str]]:
    """The lines of crates.txt but its first, which says its form: a crate and what it names, or a comment without a crate."""
    for line in (TOP / "crates.txt").read_text().splitlines()[1:]:
        name, _, names = line.partition(":")
        if line.startswith("#"):
            yield "", line[1:].strip()
        elif line:
            yield name.split()[0], names


def named() -> Depends:
    """Each crate with the crates and the libraries of the kit that it names."""
    return {crate: names.split() for crate, names in rows() if crate}


def depends() -> Depends:
    """Each crate with those of the repository that it stands on."""
    of = named()
    return {crate: [it for it in names if it in of] for crate, names in of.items()}


def below(crate: str, of: Depends) -> set[str]:
    """The crate and all that it stands on, directly or not."""
    found: set[str] = set()
    open_ones = [crate]
    while open_ones:
        name = open_ones.pop()
        if name not in found:
            found.add(name)
            open_ones += of[name]
    return found
