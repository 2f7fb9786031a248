"""What `apei-show --here` shows: what this machine has, or what of it is new."""

import os
from typing import Any

from here import REGION, SMBIOS, STORE, Found, Machine, split, with_status
from kept import Kept
from launcher import text_in
from shown import Plan
from streams import reason_of

# Error severities (UEFI 2.8, N.2.1): of a recoverable and of a fatal error.
UNCORRECTED = 0, 1
SEVERITIES = "error severity", "section severity"
# The bit of a machine check's status that says that the error was not corrected (Intel SDM 3B, 16.3.2.2).
UC = 1 << 61
NONE = "this machine has no record of an error, and no table of ERST, HEST or BERT: `journalctl -k -b -1` and `ipmitool sel list` may know more"


class Here:
    """What the machine has, and which of it is shown."""

    def __init__(self, plan: Plan) -> None:
        self.plan, self.machine = plan, Machine()
        self.folder = plan.line.options.get("--keep")
        self.files = list(split(self.machine.files) if self.folder else self.machine.files)
        # The copies of the files, by their places.
        self.copies: dict[str, str] = {}
        self.is_watch = "--since-last" in plan.line.options

    def keep(self) -> None:
        """Keeps what there is, and leaves what is new where that alone is shown."""
        assert self.folder
        try:
            kept, boot = Kept(self.folder), self.machine.boot
            new = [it for it in self.files if kept.is_new(it, boot)]
            self.copies = kept.keep(self.files, boot)
            if self.is_watch:
                # What is new stays new until it was shown.
                self.plan.at_end = kept.seal
            else:
                kept.seal()
            if kept.run:
                self.plan.said.append(f"what is new is kept in {kept.run}")
            self.files = new if self.is_watch else self.files
        except OSError as error:
            self.plan.is_unread = True
            self.plan.said.append(f"{error.filename or self.folder}: {reason_of(error)}: not all is kept")

    def add(self, found: Found) -> None:
        """Adds a file to what is shown."""
        path = name = self.copies.get(found.place) or self.machine.path(found.place)
        region = with_status(found.data) if found.place == REGION else None
        if region:
            path, name = self.plan.copy("BERT", region), f"{name} (status set again, which Linux clears)"
        elif found.place.startswith(STORE) and not self.copies:
            path = self.plan.copy("erst_dbg", found.data)
        elif found.is_log:
            # The program knows the text of a log by the name that it has in the firmware's store.
            path = path if os.path.basename(path).startswith("dmesg-erst-") else self.plan.link("dmesg-erst-0", path)
        self.plan.add(path, name)

    def show(self) -> None:
        for it in self.files:
            if it.is_shown:
                self.add(it)
        if self.is_watch and self.plan.files:
            self.plan.is_alarm = any(is_uncorrected(item) for item in self.plan.items([it.path for it in self.plan.files]))
        elif not self.is_watch and not self.plan.files and not self.plan.is_unread:
            self.plan.said.append(NONE)
        self.add_modules()

    def add_modules(self) -> None:
        """Has the program name the parts of the machine."""
        options = self.plan.line.options
        found = next((it for it in self.machine.files if it.place == SMBIOS and is_structures(it.data)), None)
        if found and "--smbios" not in options:
            options["--smbios"] = self.copies.get(SMBIOS) or self.machine.path(SMBIOS)


def is_structures(data: bytes) -> bool:
    """Whether bytes begin with a structure of SMBIOS (DSP0134, 6.1.2): its length stands behind its type."""
    return len(data) >= 4 and 4 <= data[1] <= len(data)


def is_uncorrected(item: dict[str, Any]) -> bool:
    """Whether an item is an error that was not corrected, or may be one."""
    kind, groups = item["kind"], item["groups"]
    if kind in ("dmesg", "packed"):
        return True
    if kind == "machine-check":
        return any(int(it.get("status", "0xffffffffffffffff"), 16) & UC for it in groups)
    if kind not in ("record", "block"):
        return False
    told = [group[name]["value"] for group in groups for name in SEVERITIES if name in group]
    return not told or any(it in UNCORRECTED for it in told)


def add_here(plan: Plan, command: str) -> None:
    """Adds what this machine has. `command` is how the script was called."""
    here = Here(plan)
    plan.said += here.machine.lacks(command)
    plan.is_unread = bool(here.machine.denied or here.machine.failed)
    if here.folder:
        here.keep()
    here.show()
