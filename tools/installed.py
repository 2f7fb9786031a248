"""Whether this copy of the scripts is installed (`./install`), and by which names a user then calls what there is."""

import os
import re

TOP = os.path.dirname(os.path.dirname(os.path.realpath(__file__)))
# The folder that ./install was told, from the one that the scripts are in.
PREFIX = os.path.dirname(os.path.dirname(TOP))


def is_installed() -> bool:
    return not os.path.exists(os.path.join(TOP, "crates.txt"))


def called(program: str) -> str:
    """How a program of the top is called."""
    return program if is_installed() else f"./{program}"


def tool(name: str) -> str:
    """How a tool for scripts is called."""
    return f"apei-{name}" if is_installed() else f"tools/{name}"


def in_place(name: str, text: str) -> str:
    """The help of a program, with the names of what is installed where it is."""
    if not is_installed():
        return text
    text = "".join(part for part in re.split(r"(?<=\n\n)", text) if not part.startswith(("./install ", "to read on:")))
    text = re.sub(r"\./(apei\b)", r"\1", text)
    return text.replace("examples/", os.path.join(PREFIX, "share/apei/examples/")) + f"to read on: man {name}\n"
