"""A plain model of the handover of error status blocks from firmware to operating system, in the five situations of docs/HANDOVER.md."""

PIECE = 64
WAITING = 64
# The severities that the three listeners want, a bit for each.
WANTS = (15, 2, 4)
FILLING, PUBLISHED, READING, CLEARED, ACKNOWLEDGED = "filling", "published", "reading", "cleared", "acknowledged"


def wants(mask: int, severity: int) -> bool:
    """Whether a listener of this mask is told of a block."""
    return severity < 4 and mask >> severity & 1 == 1


class Handover:
    """One source's handover; one without an acknowledge register is acknowledged by the clearing of its status."""

    def __init__(self, has_register: bool = True) -> None:
        self.has_register = has_register
        self.waiting: list[bytes] = []
        self.block: bytes | None = None
        self.filled = self.copied = 0
        self.situation = FILLING

    @property
    def pieces(self) -> int:
        return -(-len(self.block or b"") // PIECE)

    def submit(self, block: bytes) -> str:
        if len(self.waiting) == WAITING:
            return "refused full"
        self.waiting.append(block)
        return f"queued {len(self.waiting)}"

    def firmware(self) -> str:
        """A turn of the firmware."""
        if self.situation == ACKNOWLEDGED:
            self.situation, self.block = FILLING, None
            return "free"
        if self.situation != FILLING:
            return "wait"
        if self.block is None:
            if not self.waiting:
                return "idle"
            self.block, self.filled = self.waiting.pop(0), 0
        if self.filled < self.pieces:
            self.filled += 1
            return "fill"
        self.situation = PUBLISHED
        return "publish"

    def reader(self) -> str:
        """A turn of the operating system; by `took` it has the block."""
        if self.situation in (FILLING, ACKNOWLEDGED):
            return "nothing"
        if self.situation == PUBLISHED:
            self.situation, self.copied = READING, 0
            return "found"
        if self.situation == CLEARED:
            self.situation = ACKNOWLEDGED
            return "ack"
        if self.copied < self.pieces:
            self.copied += 1
            return "took" if self.copied == self.pieces else "copy"
        self.situation = CLEARED if self.has_register else ACKNOWLEDGED
        return "clear"
