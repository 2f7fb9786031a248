"""A flash: its geometry, and what is left of a change that fails or in which power is lost."""

import argparse
from dataclasses import dataclass

# What a change leaves in its range, by the number of --torn.
TEARS = ["what was there", "what was to be written", "bytes 0x00", "bytes 0xA5"]


def torn(before: bytes | bytearray, data: bytes, tear: int) -> bytes:
    return [bytes(before), data, bytes(len(data)), b"\xa5" * len(data)][tear]


class FlashFailed(Exception):
    """A change that fails."""


@dataclass(frozen=True)
class Geometry:
    """The bytes of a sector, the sectors of a slot, and the slots."""

    sector: int = 4096
    per_slot: int = 2
    slots: int = 32

    @property
    def slot_size(self) -> int:
        return self.sector * self.per_slot

    @property
    def size(self) -> int:
        return self.slot_size * self.slots

    @property
    def room(self) -> int:
        """The bytes of a record that a slot has room for."""
        return self.slot_size - 64

    @property
    def erased(self) -> bytes:
        return b"\xff" * self.size

    @property
    def words(self) -> list[str]:
        return [f"--sector={self.sector}", f"--per-slot={self.per_slot}", f"--slots={self.slots}"]

    def parts(self, length: int) -> int:
        """How many slots a record of this length takes."""
        return -(-length // self.room)


@dataclass(frozen=True)
class Fault:
    """The number of the change that fails, or in which power is lost, and the tear that is left."""

    change: int
    tear: int = 0
    is_loss: bool = False

    @property
    def words(self) -> list[str]:
        return [f"--{'cut' if self.is_loss else 'fail'}={self.change}", f"--torn={self.tear}"]


@dataclass(frozen=True)
class Options:
    """What a run of the program is given: a geometry, a fault, and the steps of each line."""

    geometry: Geometry = Geometry()
    fault: Fault | None = None
    steps: int | None = None

    @property
    def words(self) -> list[str]:
        steps = [] if self.steps is None else [f"--steps={self.steps}"]
        return self.geometry.words + (self.fault.words if self.fault else []) + steps

    @classmethod
    def read(cls, words: list[str]) -> "Options":
        """The options that words of the program's command line name."""
        parser = argparse.ArgumentParser()
        for name, usual in (("sector", 4096), ("per-slot", 2), ("slots", 32), ("fail", None), ("cut", None), ("torn", 0), ("steps", None)):
            parser.add_argument(f"--{name}", type=int, default=usual)
        given = parser.parse_args(words)
        change = given.cut if given.fail is None else given.fail
        fault = None if change is None else Fault(change, given.torn, given.fail is None)
        return cls(Geometry(given.sector, given.per_slot, given.slots), fault, given.steps)
