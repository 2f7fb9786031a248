"""What the machine code of an archive uses, as its disassembly says: vector registers, memory below the stack pointer, and stack.

From each function that the archive exports each way through its instructions is followed, and on each the distance of the stack pointer from
where it stood when the function was called. A call adds what the function called takes. Functions of the program, as `memcpy`, count as nothing
beside the address that a call of them returns to. If the distance is not a constant, or a call or jump leads somewhere unknown, or a
function calls itself, `Unknown` says so: nothing is counted then.
"""

import re
import subprocess
import sys
from collections.abc import Iterator
from dataclasses import dataclass, field
from functools import cached_property
from pathlib import Path

# Where an instruction stands: its section, and its offset there.
Place = tuple[str, int]

SECTION = re.compile(r"^Disassembly of section (\S+):$")
# Words before an instruction's name, which change nothing that is looked at here.
PREFIXES = r"(?:(?:rex(?:\.\w+)?|notrack|bnd|data16|addr32|cs|ds|lock|repn?[ez]?)\s+)*"
INSTRUCTION = re.compile(rf"^\s*([0-9a-f]+):\t{PREFIXES}(\S+)\s*(.*?)\s*$")
RELOCATION = re.compile(r"^\s*[0-9a-f]+: (R_\w+)\t(.+?)([+-]0x[0-9a-f]+)?$")
SYMBOL = re.compile(r"^([0-9a-f]+) (.)(......) (\S+)\t([0-9a-f]+)\s+(?:\.hidden )?(.+)$")
X86_STACK = 8
# A loop that touches each page of a great frame: how great it is, and where the loop begins.
PROBE = re.compile(
    r"lea\w* -(0x[0-9a-f]+)\(%rsp\),%r11\nsub\w* \$0x[0-9a-f]+,%rsp\nmov\w* \$0x0,\(%rsp\)\ncmp[\w.]* %r11,%rsp\njne\w* ([0-9a-f]+)\b"
)


class Unknown(Exception):
    """Something that is not counted, and where."""


@dataclass(frozen=True)
class Instruction:
    place: Place
    name: str
    operands: str
    # What a relocation in it leads to: a symbol and what is added.
    leads_to: tuple[str, int] | None = None
    size: int = 0


@dataclass(frozen=True)
class Depth:
    """How far below its first place the stack pointer stands, in bytes, and the frame pointer, if it is one."""

    stack: int
    frame: int | None = None


@dataclass
class Function:
    """What is found of one function: the most it takes by itself, and what it calls at which depth."""

    own: int = 0
    calls: set[tuple[Place, int]] = field(default_factory=set)
    seen: dict[Place, Depth] = field(default_factory=dict)
    below: set[Place] = field(default_factory=set)


class Arch:
    """What differs between processors."""

    objdump: tuple[str, ...]
    # What a call puts on the stack.
    return_size: int
    vector: re.Pattern[str]

    def kind(self, it: Instruction) -> str:
        """How it goes on: by `next`, `jump`, `branch`, `call`, `end`, or `table`, a jump to where a register says."""
        raise NotImplementedError

    def moved(self, it: Instruction, depth: Depth) -> Depth:
        raise NotImplementedError

    def is_below(self, it: Instruction, depth: Depth) -> bool:
        """Whether it reaches memory below the stack pointer."""
        raise NotImplementedError


def number(text: str) -> int:
    return int(text, 0)


class X86(Arch):
    objdump = "objdump", "-M", "att,suffix"
    return_size = 8
    vector = re.compile(r"%(?:[xyz]?mm\d|st\b|st\()")
    adds = re.compile(r"^\$(-?0x[0-9a-f]+),%rsp$")
    moves = re.compile(r"^(-?0x[0-9a-f]+)?\(%rsp\),%rsp$")
    reach = re.compile(r"(-0x[0-9a-f]+)?\(%(rsp|rbp)[,)]")

    def kind(self, it: Instruction) -> str:
        name = it.name
        if name in ("ret", "retq", "ud2", "hlt", "int3"):
            return "end"
        if name.startswith("call"):
            return "call"
        if name in ("jmp", "jmpq"):
            return "table" if it.operands.startswith("*") else "jump"
        return "branch" if name.startswith("j") else "next"

    def moved(self, it: Instruction, depth: Depth) -> Depth:
        name, operands = it.name, it.operands
        if name in ("push", "pushq"):
            return Depth(depth.stack + 8, depth.frame)
        if name in ("pop", "popq"):
            return Depth(depth.stack - 8, None if operands == "%rbp" else depth.frame)
        if (name, operands) == ("leaveq", "") or (name, operands) == ("leave", ""):
            if depth.frame is None:
                raise Unknown(f"{it} leaves no frame")
            return Depth(depth.frame - 8)
        if not operands.endswith("%rsp"):
            if operands.endswith(",%rbp") and not name.startswith(("cmp", "test")):
                return Depth(depth.stack, depth.stack if operands == "%rsp,%rbp" else None)
            return depth
        if name.startswith(("cmp", "test")):
            return depth
        by = self.adds.match(operands)
        if by and name.startswith(("sub", "add")):
            return Depth(depth.stack + (number(by[1]) if name.startswith("sub") else -number(by[1])), depth.frame)
        to = self.moves.match(operands)
        if to and name.startswith("lea"):
            return Depth(depth.stack - number(to[1] or "0"), depth.frame)
        if operands == "%rbp,%rsp" and depth.frame is not None:
            return Depth(depth.frame, depth.frame)
        raise Unknown(f"{it} moves the stack pointer")

    def is_below(self, it: Instruction, depth: Depth) -> bool:
        if it.name.startswith("nop"):
            return False
        for by, register in self.reach.findall(it.operands):
            start = depth.stack if register == "rsp" else depth.frame
            is_own_move = it.name.startswith("lea") and it.operands.endswith(",%rsp")
            if by and start is not None and start - number(by) > depth.stack and not is_own_move:
                return True
        return False


class Arm(Arch):
    objdump = ("aarch64-linux-gnu-objdump",)
    return_size = 0
    vector = re.compile(r"(?<![\w#.])[vqdshb]\d+\b")
    adds = re.compile(r"^sp, sp, #(0x[0-9a-f]+)(?:, lsl #(\d+))?$")
    before = re.compile(r"\[sp, #(-?\d+)\]!$")
    after = re.compile(r"\[sp\], #(-?\d+)$")
    reach = re.compile(r"\[(sp|x29), #(-\d+)\]$")

    def kind(self, it: Instruction) -> str:
        name = it.name
        if name in ("ret", "udf", "brk"):
            return "end"
        if name in ("bl", "blr"):
            return "call"
        if name in ("b", "br"):
            return "table" if name == "br" else "jump"
        return "branch" if name.startswith("b.") or name in ("cbz", "cbnz", "tbz", "tbnz") else "next"

    def moved(self, it: Instruction, depth: Depth) -> Depth:
        name, operands = it.name, it.operands
        if by := self.before.search(operands) or self.after.search(operands):
            frame = None if name.startswith("ld") and "x29" in operands else depth.frame
            return Depth(depth.stack - int(by[1]), frame)
        if operands == "x29, sp" and name == "mov":
            return Depth(depth.stack, depth.stack)
        if operands.startswith("x29, sp, ") and name == "add":
            return Depth(depth.stack, depth.stack - number(operands.rpartition("#")[2]))
        if not operands.startswith("sp,") or name in ("cmp", "cmn"):
            return depth
        if (by := self.adds.match(operands)) and name in ("sub", "add"):
            size = number(by[1]) << int(by[2] or 0)
            return Depth(depth.stack + (size if name == "sub" else -size), depth.frame)
        if operands == "sp, x29" and depth.frame is not None:
            return Depth(depth.frame, depth.frame)
        raise Unknown(f"{it} moves the stack pointer")

    def is_below(self, it: Instruction, depth: Depth) -> bool:
        found = self.reach.search(it.operands)
        start = (depth.stack if found[1] == "sp" else depth.frame) if found else None
        return found is not None and start is not None and start - int(found[2]) > depth.stack


def arch_of(archive: Path) -> Arch:
    said = subprocess.run(["objdump", "-f", archive], capture_output=True, text=True, check=False).stdout
    return X86() if "x86-64" in said else Arm()


def output(*words: str | Path) -> list[str]:
    done = subprocess.run(words, capture_output=True, text=True, check=False)
    if done.returncode:
        sys.exit(f"{words[0]}: {done.stderr}")
    return done.stdout.splitlines()


class Code:
    """The machine code of an archive."""

    def __init__(self, archive: Path) -> None:
        self.arch = arch_of(archive)
        self.code: dict[Place, Instruction] = {}
        self.after: dict[Place, Place] = {}
        # Where each symbol stands, and which of them the archive exports.
        self.symbols: dict[str, Place] = {}
        self.exports: dict[str, Place] = {}
        self.sizes: dict[str, int] = {}
        # Where the code has tables of its jumps.
        self.tables: set[Place] = set()
        self.functions: dict[Place, Function] = {}
        self.needs: dict[Place, int] = {}
        self.read_symbols(output(self.arch.objdump[0], "-t", archive))
        self.read_code(output(*self.arch.objdump, "-dr", "--no-show-raw-insn", archive))
        for line in output(self.arch.objdump[0], "-hw", archive):
            words = line.split()
            if len(words) > 7 and words[0].isdigit() and "ALLOC" in line:
                self.sizes[words[1]] = self.sizes.get(words[1], 0) + int(words[2], 16)

    def read_symbols(self, lines: list[str]) -> None:
        for line in lines:
            found = SYMBOL.match(line)
            if found and found[4] not in ("*UND*", "*ABS*"):
                place = found[4], int(found[1], 16)
                self.symbols[found[6]] = place
                if found[2] == "g" and "F" in found[3]:
                    self.exports[found[6]] = place

    def read_code(self, lines: list[str]) -> None:
        section, last = "", None
        for line in lines:
            if found := SECTION.match(line):
                section, last = found[1], None
            elif (found := RELOCATION.match(line)) and last:
                it = self.code[last]
                self.code[last] = Instruction(it.place, it.name, it.operands, (found[2], number(found[3] or "0")))
            elif found := INSTRUCTION.match(line):
                place = section, int(found[1], 16)
                operands, _, named = re.split(r"\s*(# |// |$)", found[3], maxsplit=1)
                self.code[place] = Instruction(place, found[2], operands)
                if found[2].startswith("lea") and "(%rip)" in operands and (to := re.match(r"([0-9a-f]+) ", named)):
                    self.tables.add((section, int(to[1], 16)))
                if last:
                    self.after[last] = place
                last = place
        for place in list(self.code):
            self.read_probe(place)

    def read_probe(self, start: Place) -> None:
        """Takes a loop that moves the stack pointer page by page, and touches each page, for one move."""
        places = [start]
        while len(places) < 5 and places[-1] in self.after:
            places.append(self.after[places[-1]])
        if len(places) < 5:
            return
        first, move, *_, last = its = [self.code[it] for it in places]
        found = PROBE.match("\n".join(f"{it.name} {it.operands}" for it in its))
        if found and int(found[2], 16) == move.place[1]:
            self.code[first.place] = Instruction(first.place, "nop", "")
            self.code[move.place] = Instruction(move.place, "sub", f"${found[1]},%rsp")
            self.code[last.place] = Instruction(last.place, "nop", "")

    @property
    def size(self) -> int:
        """Bytes of code and constants."""
        return sum(self.sizes.values())

    @cached_property
    def vector_names(self) -> dict[str, int]:
        """The names of the instructions that use vector or floating-point registers, and how many there are of each."""
        found: dict[str, int] = {}
        for it in self.reached:
            if self.arch.kind(it) == "next" and self.arch.vector.search(it.operands):
                found[it.name] = found.get(it.name, 0) + 1
        return dict(sorted(found.items()))

    def target(self, it: Instruction) -> Place | None:
        """Where a call or jump leads; None if it is a function of the program."""
        if it.leads_to:
            symbol, more = it.leads_to
            if symbol in self.symbols:
                section, at = self.symbols[symbol]
            elif any(symbol == section for section, _ in self.code):
                section, at = symbol, 0
            else:
                return None
            return section, at + more + (4 if isinstance(self.arch, X86) else 0)
        found = re.match(r"^(?:[wx]\d+, (?:#\w+, )?)?([0-9a-f]+)\b", it.operands)
        to = (it.place[0], int(found[1], 16)) if found else None
        if to not in self.code or to == self.after.get(it.place):
            raise Unknown(f"{it} leads nobody knows where")
        return to

    def ways(self, it: Instruction, function: Function, depth: Depth) -> Iterator[tuple[Place, Depth]]:
        """Where an instruction goes on, and at which depth; what it calls is noted. A jump to another function goes on there."""
        kind = self.arch.kind(it)
        if kind in ("call", "jump", "branch"):
            to = self.target(it)
            if kind == "call":
                at = depth.stack + self.arch.return_size
                function.own = max(function.own, at)
                if to is not None:
                    function.calls.add((to, at))
            elif to is not None:
                yield to, depth
        if kind in ("next", "call", "branch") and it.place in self.after:
            yield self.after[it.place], self.arch.moved(it, depth) if kind == "next" else depth

    def follow(self, start: Place) -> Function:
        function = Function()
        seen = function.seen
        tables: dict[Place, Depth] = {}
        waiting = [(start, Depth(0))]
        while waiting or (waiting := self.cases(function, tables)):
            place, depth = waiting.pop()
            if place in seen:
                if seen[place].stack != depth.stack:
                    raise Unknown(f"{self.code[place]} is reached at two depths of the stack")
                continue
            seen[place] = depth
            it = self.code[place]
            if self.arch.is_below(it, depth):
                function.below.add(place)
            function.own = max(function.own, depth.stack)
            if self.arch.kind(it) == "table":
                tables[place] = depth
            waiting += self.ways(it, function, depth)
        return function

    def cases(self, function: Function, tables: dict[Place, Depth]) -> list[tuple[Place, Depth]]:
        """The next place after a jump by a table that no jump to a known place leads to: one by a table does. A table that stands in the
        code itself stands after its function."""
        starts = {jump: max(it for it in self.symbols.values() if it[0] == jump[0] and it[1] <= jump[1]) for jump in tables}
        for jump, depth in tables.items():
            end = min((at for section, at in self.tables if section == jump[0] and at > jump[1]), default=None)
            place: Place | None = starts[jump]
            while place is not None and (end is None or place[1] < end):
                if place not in function.seen and not self.is_filling(place):
                    if len({it.stack for other, it in tables.items() if starts[other] == starts[jump]}) > 1:
                        raise Unknown(f"{self.code[place]} is reached by one of several tables")
                    return [(place, depth)]
                place = self.after.get(place)
        return []

    def is_filling(self, place: Place) -> bool:
        name = self.code[place].name
        return name.startswith(("nop", "int3", "xchg", "ud2", "data16", "cs", "udf"))

    def function(self, place: Place) -> Function:
        if place not in self.functions:
            self.functions[place] = self.follow(place)
        return self.functions[place]

    def stack(self, place: Place, above: tuple[Place, ...] = ()) -> int:
        """The most stack that a call of the function takes, beside the address that it returns to."""
        if place in above:
            raise Unknown(f"the function at {place} may call itself")
        if place not in self.needs:
            function = self.function(place)
            self.needs[place] = max([function.own, *(at + self.stack(to, (*above, place)) for to, at in function.calls)])
        return self.needs[place]

    def stacks(self) -> dict[str, int]:
        """The most stack that a call of each function takes which the archive exports."""
        return {name: self.arch.return_size + self.stack(place) for name, place in sorted(self.exports.items())}

    @cached_property
    def reached(self) -> list[Instruction]:
        """The instructions that a call can reach."""
        self.stacks()
        return [self.code[place] for place in sorted({it for function in self.functions.values() for it in function.seen})]

    def below(self) -> list[Instruction]:
        """Those of them that reach memory below the stack pointer."""
        self.stacks()
        return [self.code[place] for place in sorted({it for function in self.functions.values() for it in function.below})]
