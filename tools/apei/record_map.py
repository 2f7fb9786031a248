"""The record map in plain words: what a script's commands on records are answered, and which records there are then."""

from collections.abc import Iterable, Mapping
from dataclasses import dataclass, replace

from apei.flash import Geometry
from apei.frames import identifier_of, marked


def stored(line: str) -> tuple[int, bytes]:
    """Identifier and bytes of a `write` line's record, with its mark."""
    data = marked(bytes.fromhex(line.split()[1]))
    return identifier_of(data), data


@dataclass(frozen=True)
class RecordMap:
    """The records of a flash by their identifiers, and where the cursor of a walk stands."""

    geometry: Geometry
    records: Mapping[int, bytes]
    cursor: int = 0

    @classmethod
    def empty(cls, geometry: Geometry) -> "RecordMap":
        return cls(geometry, {})

    def answer(self, line: str) -> tuple[str, "RecordMap"]:
        """The reply to a line, without its step, and what is left."""
        word, *rest = line.split()
        if word == "write":
            return self.write(*stored(line))
        if word == "count":
            return f"count {len(self.records)}", self
        if word == "next":
            found = min((known for known in self.records if known > self.cursor), default=0)
            return f"next {found or 'end'}", replace(self, cursor=found)
        if word in ("reset", "power"):
            return f"{word} {len(self.records)}", replace(self, cursor=0)
        return self.read(int(rest[0])) if word == "read" else self.clear(int(rest[0]))

    def write(self, identifier: int, data: bytes) -> tuple[str, "RecordMap"]:
        parts = self.geometry.parts
        free = self.geometry.slots - sum(parts(len(one)) for one in self.records.values())
        if free < parts(len(data)) + (identifier not in self.records):
            return "refused no-space", self
        return f"wrote {identifier} {len(data)}", replace(self, records={**self.records, identifier: data})

    def read(self, identifier: int) -> tuple[str, "RecordMap"]:
        if not self.records:
            return "refused empty", self
        if identifier not in self.records:
            return "refused not-found", replace(self, cursor=0)
        data = self.records[identifier]
        return f"record {identifier} {len(data)} {data.hex()}", replace(self, cursor=identifier)

    def clear(self, identifier: int) -> tuple[str, "RecordMap"]:
        if identifier not in self.records:
            return "refused not-found", self
        left = {known: data for known, data in self.records.items() if known != identifier}
        return f"cleared {identifier}", replace(self, records=left)

    def replies(self, lines: Iterable[str]) -> list[str]:
        """The replies to lines, one after another."""
        said, now = [], self
        for line in lines:
            reply, now = now.answer(line)
            said.append(reply)
        return said

    def states(self, lines: Iterable[str]) -> list["RecordMap"]:
        """What there is before the first of some lines, and after each."""
        states = [self]
        for line in lines:
            states.append(states[-1].answer(line)[1])
        return states


def possible(lines: Iterable[str], replies: Iterable[str], states: list[RecordMap]) -> list[RecordMap]:
    """What there may be after these replies: a command that was refused as `hardware` is in or out."""
    for line, reply in zip(lines, replies):
        left = []
        for state in states:
            wanted, now = state.answer(line)
            if reply == wanted:
                left.append(now)
            elif reply == "refused hardware":
                left += [state, replace(now, cursor=state.cursor)]
        states = [state for at, state in enumerate(left) if state not in left[:at]]
    return states
