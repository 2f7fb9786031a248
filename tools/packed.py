"""Kernel logs that Linux packed, and files that hold something else than what apei-show knows.

Since version 6.6 Linux packs a log as a raw deflate stream (fs/pstore/platform.c).
"""

import re
import zlib
from typing import NamedTuple, Optional

# The type of the section that has such a log, in a record of the firmware's store.
PACKED_LOG = "4f118707-04dd-4055-b5dd-956d34ddfac6"
# How the name of a log ends that Linux could not unpack.
ENDING = ".enc.z"
# The most bytes of a log.
MOST = 1 << 24
# How many bytes of a stream are unpacked at once: of one that is damaged, what stands before is kept.
PIECE = 64
# What a file begins with that some program packed, the program, and what writes it unpacked.
OTHERS = (
    (b"\x1f\x8b", "gzip", "zcat"),
    (b"\xfd7zXZ\0", "xz", "xzcat"),
    (b"\x28\xb5\x2f\xfd", "zstd", "zstdcat"),
    (b"BZh", "bzip2", "bzcat"),
)
UNPACKS = {"gzip": "gunzip", "xz": "unxz", "zstd": "unzstd", "bzip2": "bunzip2"}
# Where a record begins: its signature, a revision, and the end of the signature.
RECORD = re.compile(rb"CPER..\xff\xff\xff\xff", re.DOTALL)
DIGITS = re.compile(rb"\s*(?:[0-9a-fA-F]{2}\s*){4,}")
DUMP = re.compile(rb"(?:[0-9a-fA-F]{8}: (?:[0-9a-fA-F]{2,4} ){1,16}[^\n]*\n)+")


class Unpacked(NamedTuple):
    """What came out of a stream, and why that is not all of it, or None where it is all."""

    text: bytes
    why: Optional[str]


def bytes_of(guid: str) -> bytes:
    """A GUID as it stands in a record (UEFI 2.8, appendix A)."""
    first, second, third, *rest = guid.split("-")
    return b"".join(bytes.fromhex(it)[::-1] for it in (first, second, third)) + bytes.fromhex("".join(rest))


def unpack(stream: bytes) -> Unpacked:
    """Unpacks a log, as far as it goes. Of one that is too long nothing is kept."""
    unpacking, out, size = zlib.decompressobj(-15), list[bytes](), 0
    for at in range(0, len(stream), PIECE):
        try:
            out.append(unpacking.decompress(stream[at : at + PIECE], MOST + 1 - size))
        except zlib.error:
            return Unpacked(b"".join(out), f"its stream is damaged, or is no deflate, within the {PIECE} bytes from byte {at}")
        size += len(out[-1])
        if size > MOST:
            return Unpacked(b"", f"unpacked it has more than {MOST} bytes")
        if unpacking.eof:
            break
    if not unpacking.eof:
        return Unpacked(b"".join(out), f"its stream is cut: it has {len(stream)} bytes and no end")
    rest = max(len(stream) - at - PIECE, 0) + len(unpacking.unused_data)
    return Unpacked(b"".join(out), f"{rest} bytes stand behind the end of its stream" if rest > 0 else None)


def what_else(data: bytes, path: str, show: str) -> Optional[str]:
    """What a file is that holds nothing of what is known, and the command by which it is shown all the same; None where that is not known.
    `show` is the command that shows files."""
    name = "FILE" if path == "-" else quoted(path)
    for beginning, packer, writes in OTHERS:
        if data.startswith(beginning):
            return f"it is packed by {packer}: {UNPACKS[packer]} it first, as in `{writes} {name} | {show} -`"
    if DIGITS.fullmatch(data):
        return f"it holds digits as text, and not the bytes themselves: `xxd -r -p {name} | {show} -`"
    if DUMP.fullmatch(data):
        return f"it holds digits as xxd writes them, and not the bytes themselves: `xxd -r {name} | {show} -`"
    found = RECORD.search(data)
    if found and found.start() > 0:
        return f"CPER stands at byte {found.start()}: `tail -c +{found.start() + 1} {name} | {show} -`"
    return None


def quoted(path: str) -> str:
    """A path as a shell takes it."""
    return path if re.fullmatch(r"[\w./+:=@%-]+", path) else "'" + path.replace("'", "'\\''") + "'"
