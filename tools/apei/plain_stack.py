"""A clang whose code keeps nothing below the stack pointer: `plain_stack.py CLANG [WORD..]` in place of `CLANG [WORD..]`.

On x86-64 a function may use the 128 bytes below the stack pointer, its red zone, without moving the pointer. Where an interrupt or a fault is
handled on the same stack, as in kernels and firmware, it overwrites them. The word -mno-red-zone does nothing if clang is given a module of
LLVM, as the toolchain gives it. So the module is written as text first, with the attribute `noredzone` at each function. For other processors
clang is called as it is.
"""

import os
import re
import subprocess
import sys
from pathlib import Path

AS_TEXT = "-S", "-emit-llvm", "-Xclang", "-disable-llvm-passes", "-Xclang", "-emit-llvm-uselists"
DEFINES = re.compile(r"^define [^\n]*$", re.MULTILINE)
GROUPS = re.compile(r"^(attributes #\d+ = \{)", re.MULTILINE)


def plain(text: str) -> str:
    """The text of a module with the attribute at each function: in each group of attributes, and each function names one."""
    if not all(re.search(r" #\d+ ", line) for line in DEFINES.findall(text)):
        sys.exit("plain_stack: a function of the module has no group of attributes")
    return GROUPS.sub(r"\1 noredzone", text)


def main(words: list[str]) -> None:
    clang, *rest = words
    at = next((i for i in range(len(rest) - 2) if rest[i : i + 2] == ["-x", "ir"]), None)
    target = [it for it in rest if it.startswith("--target=x86_64")]
    if at is not None and target:
        module = Path(rest[at + 2])
        text = module.with_suffix(".plain.ll")
        subprocess.run([clang, *target, *AS_TEXT, "-x", "ir", module, "-o", text], check=True)
        text.write_text(plain(text.read_text()))
        rest[at + 2] = str(text)
    os.execv(clang, [clang, *rest])


if __name__ == "__main__":
    main(sys.argv[1:])
