"""The ways in which a disk fails, by a library that is preloaded, and how many calls there are to fail."""

import errno
import os
import pathlib
import struct
from typing import NamedTuple


class Fault(NamedTuple):
    """A way to fail: which calls, with which error, whether all later ones too, and whether the first one
    writes a half."""

    name: str
    calls: str
    error: int
    lasts: bool
    half: bool = False


FAULTS = (
    Fault("full", "writes", errno.ENOSPC, True),
    Fault("full once", "writes", errno.ENOSPC, False),
    Fault("full behind a half", "writes", errno.ENOSPC, True, True),
    Fault("failing", "writes", errno.EIO, True),
    Fault("failing once", "writes", errno.EIO, False),
    Fault("full for names", "names", errno.ENOSPC, True),
    Fault("failing once for names", "names", errno.EIO, False),
    Fault("unreadable", "reads", errno.EIO, True),
    Fault("unreadable once", "reads", errno.EIO, False),
)
UNFAILING = {calls: Fault("", calls, 0, False) for calls in ("writes", "names", "reads")}


class Disk:
    """The library, and the tally that it leaves."""

    def __init__(self, library, folder):
        self.library, self.folder = library, pathlib.Path(folder)
        self.tally = self.folder.parent / "tally"

    def environment(self, fault, at):
        """What is added to the environment of a program whose calls fail from this place on."""
        self.tally.write_bytes(bytes(16))
        return {
            "LD_PRELOAD": str(self.library),
            "DISK_FOLDER": os.path.realpath(self.folder),
            "DISK_TALLY": str(self.tally),
            "DISK_CALLS": fault.calls,
            "DISK_AT": str(at),
            "DISK_ERROR": str(fault.error),
            "DISK_LASTS": str(int(fault.lasts)),
            "DISK_HALF": str(int(fault.half)),
        }

    def counted(self):
        """How many calls there were, and how many of them failed."""
        return struct.unpack("=qq", self.tally.read_bytes())

    @property
    def calls(self):
        """How many calls the last run had."""
        return self.counted()[0]
