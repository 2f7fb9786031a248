"""The SMBIOS tables that QEMU makes for machines of one module and of several."""

import json
import os
import socket
import struct
import subprocess
import tempfile
import time
from collections.abc import Iterator
from typing import Any

# Where a BIOS puts the entry point.
FIRST, SIZE = 0xF0000, 0x10000


class Monitor:
    """QEMU's monitor, which is asked for memory of the guest."""

    def __init__(self, path: str) -> None:
        self.socket = socket.socket(socket.AF_UNIX)
        self.socket.connect(path)
        self.lines = self.socket.makefile("r")
        self.lines.readline()
        self.asks("qmp_capabilities")

    def asks(self, command: str, **words: Any) -> None:
        self.socket.sendall(json.dumps({"execute": command, "arguments": words}).encode())
        while "return" not in self.lines.readline():
            pass

    def memory(self, at: int, size: int, path: str) -> bytes:
        self.asks("pmemsave", val=at, size=size, filename=path)
        with open(path, "rb") as saved:
            return saved.read()


def table_of_qemu(folder: str, words: list[str]) -> bytes | None:
    """The structures that QEMU's firmware puts into the memory of a machine."""
    monitor = os.path.join(folder, "monitor")
    command = ["qemu-system-x86_64", "-display", "none", "-nodefaults", "-net", "none", "-S", "-qmp", f"unix:{monitor},server,nowait", *words]
    with subprocess.Popen(command, stdout=subprocess.DEVNULL, stderr=subprocess.DEVNULL) as machine:
        try:
            for _ in range(100):
                time.sleep(0.1)
                if os.path.exists(monitor):
                    break
            asked = Monitor(monitor)
            asked.asks("cont")
            for _ in range(60):
                time.sleep(0.5)
                found = asked.memory(FIRST, SIZE, os.path.join(folder, "memory"))
                at = found.find(b"_SM_")
                if at >= 0 and found[at + 16 : at + 21] == b"_DMI_":
                    size, address = struct.unpack("<HI", found[at + 22 : at + 28])
                    return asked.memory(address, size, os.path.join(folder, "memory"))
            return None
        except OSError:
            return None
        finally:
            machine.kill()


def memory(size: int) -> list[str]:
    """So much memory, in gigabytes, which is not kept for the machine before it is touched."""
    return ["-m", f"{size}G", "-object", f"memory-backend-ram,id=all,size={size}G,reserve=off", "-machine", "memory-backend=all"]


# What QEMU is asked for: how much memory, and what stands in its modules.
MACHINES = [
    [*memory(2), "-M", "pc"],
    [*memory(20), "-smbios", "type=17,loc_pfx=DIMM_A,bank=NODE 1,manufacturer=Samsung,serial=3A5B1C2D,asset=A,part=M393A4K40CB2-CTD,speed=2933"],
    [*memory(64), "-M", "q35", "-smbios", "type=17,loc_pfx=P1-DIMM,manufacturer=SK Hynix,serial=0,part=HMA84GR7CJR4N-XN,speed=3200"],
]


def of_qemu() -> Iterator[bytes]:
    """The tables of these machines. Their memory is not touched, so it need not be there."""
    for words in MACHINES:
        with tempfile.TemporaryDirectory() as folder:
            table = table_of_qemu(folder, words)
            if table is not None:
                yield table
