"""Leaves the image of one loss of power: `tools/cut --at=N --torn=T --image=F SCRIPT`.

The script is played on an erased flash; F is the file as power finds it that is lost in change N, the one before which N were made, and T
says what that change leaves in its range, as the option --torn of `sim` does. Any program can open it then: `./apei play --image=F`,
`./apei-look F`.
"""

import argparse
from pathlib import Path

import streams
from apei.flash import TEARS
from apei.played import changes, images, job_of, options
from installed import tool
from parser import Parser
from streams import Failed


def write_new(path: Path, image: bytes) -> None:
    """Writes a file that is not there yet; if the disk takes no more, none is left."""
    made = False
    try:
        with open(path, "xb") as file:
            made = True
            file.write(image)
    except OSError as error:
        if made:
            path.unlink()
        raise Failed(streams.NO_FILE, f"{path}: {error.strerror}") from error


def main() -> int:
    parser = Parser(prog=tool("cut"), description="leaves the image of one loss of power")
    parser.add_argument("--at", type=int, required=True, metavar="N", help="the flash change in which power is lost, from 0")
    leaves = "what it leaves: " + ", ".join(f"{tear} {what}" for tear, what in enumerate(TEARS))
    parser.add_argument("--torn", type=int, default=0, choices=range(len(TEARS)), help=leaves)
    parser.add_argument("--image", type=Path, required=True, metavar="F", help="the file that is written, which is not there yet")
    options(parser)
    given = parser.parse_args()
    job = job_of(given)
    _, made = changes(job)
    if not 0 <= given.at < len(made):
        raise Failed(1, f"the script makes {len(made)} changes, and --at={given.at} is none of them")
    torn = made[given.at].torn(images(job.geometry, made[: given.at])[-1], given.torn)
    write_new(given.image, torn)
    print(f"{given.image}: power lost in change {given.at} of {len(made)}, whose range has {TEARS[given.torn]}")
    return 0


def start() -> None:
    streams.end("cut", main)
