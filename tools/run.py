"""Runs one of the tools of gate/ or dev/: `tools/run NAME [WORD..]`; without a name it lists them.

The exit status is that of the tool: 0 if what it compares is equal. README.md, beside this file, says who runs which.
"""

import importlib
import sys
from pathlib import Path

import streams

TOOLS = Path(__file__).resolve().parent
PACKAGES = "gate", "dev"


def package_of(name: str) -> str | None:
    """The package that has a tool of this name."""
    return next((package for package in PACKAGES if name.isidentifier() and (TOOLS / package / f"{name}.py").exists()), None)


def listed() -> str:
    """Each tool with the first line of what it says of itself."""
    out = ""
    for package in PACKAGES:
        for path in sorted((TOOLS / package).glob("[a-z]*.py")):
            module = importlib.import_module(f"{package}.{path.stem}")
            out += f"{path.stem:15} {(module.__doc__ or '').splitlines()[0]}\n"
    return out


def main(words: list[str]) -> int:
    if not words:
        print(listed(), end="")
        return 0
    package = package_of(words[0])
    if package is None:
        raise streams.Failed(2, f"there is no tool {words[0]}; without a name the tools are listed")
    status = importlib.import_module(f"{package}.{words[0]}").main(words[1:])
    return int(status)


def start() -> None:
    streams.end("run", lambda: main(sys.argv[1:]))
