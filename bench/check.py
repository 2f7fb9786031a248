#!/usr/bin/env python3
"""Times checks: 1 MB of lines with error records, and one table of 2,000 instruction entries with a line for each.

    bench/check.py [PROGRAM] [RUNS]

PROGRAM is the built program, by default crates/apei/out/apei; build it by ./apei sim </dev/null. The records have two sections of 80
bytes, some of them 8,000; each is shown by its line and by those of its sections. It prints the median of RUNS runs (default 20) in
milliseconds for each, less that of an empty input, and what that makes for a megabyte of input and for an entry.
"""

from harness import median, milliseconds, program, runs

from apei import tables
from apei.frames import Header, Section, record_of

ENTRIES = 2000


def records() -> list[bytes]:
    """Lines of records of two sections each, a megabyte in all."""
    lines: list[bytes] = []
    while sum(map(len, lines)) < 1_000_000:
        size = 8000 if len(lines) % 50 == 0 else 80
        record = record_of(Header(len(lines)), Section(b"\x11" * size), Section(b"\x22" * size))
        lines.append(b"record " + record.hex().encode() + b"\n")
    return lines


def table(count: int) -> bytes:
    """The line of an ERST of `count` entries, each of one 32-bit store."""
    entries = b"".join(tables.instruction(index % 17, 3, 0x200000 + 4 * index, 32, index) for index in range(count))
    return b"erst " + tables.erst(entries).hex().encode() + b"\n"


def took(text: bytes, lines: int) -> float:
    """Milliseconds of a run, which writes N lines."""
    times = []
    for _ in range(runs(20)):
        one, written = milliseconds([program(), "check", "--show=HEAD|PARTS"], text)
        assert written.count(b"\n") == lines and b"bad" not in written, written[:300]
        times.append(one)
    return median(times)


def main() -> None:
    rest, items = took(b"", 0), records()
    print(f"an empty input: {rest:.2f} ms")
    size = sum(map(len, items))
    one = took(b"".join(items), 3 * len(items)) - rest
    print(f"{len(items)} records in {size / 1e6:.2f} MB of lines: {one:.2f} ms, {one * 1e6 / size:.2f} ms a megabyte")
    one = took(table(ENTRIES), ENTRIES + 1) - rest
    print(f"a table of 2,000 entries, each with its line: {one:.2f} ms, {one / ENTRIES * 1000:.2f} us an entry")


if __name__ == "__main__":
    main()
