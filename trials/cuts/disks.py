"""File systems on loop devices: one that is written down as it is used, and those that a cut leaves."""

import contextlib
import mmap
import os
import struct
import subprocess
import sys
from typing import NamedTuple

from cuts.images import Image, events_of
from shared.machine import must


class System(NamedTuple):
    """A kind of file system: how large its disks are here, what makes one, options of a mount, and what its
    own tool for repairs is."""

    name: str
    size: int
    make: tuple
    options: str
    repair: tuple


LAZY = "lazy_itable_init=0,lazy_journal_init=0,nodiscard"
EXT4, XFS = ("mkfs.ext4", "-q", "-F", "-b", "4096", "-E", LAZY), ("mkfs.xfs", "-q", "-f", "-K")
BTRFS, RESCUE = ("mkfs.btrfs", "-q", "-f", "-K"), ("btrfs", "rescue", "super-recover", "-y")
SYSTEMS = {
    it.name: it
    for it in (
        System("ext4", 160 << 20, EXT4, "loop", ("e2fsck", "-fy")),
        System("xfs", 300 << 20, XFS, "loop,nouuid", ("xfs_repair", "-L")),
        System("btrfs", 256 << 20, BTRFS, "loop", RESCUE),
    )
}


def beside(place, name):
    """A folder to mount something on, which lies outside the file system of the images."""
    folder = place.parent / name
    folder.mkdir(exist_ok=True)
    return folder


def mount_fault(system, image, folder):
    """Mounts a file as a disk, whose own recovery runs then: what the kernel says where it can't."""
    words = ["mount", "-t", system.name, "-o", system.options, image, folder]
    ran = subprocess.run(words, capture_output=True, text=True)
    return "" if ran.returncode == 0 else ran.stderr.strip()


def umount(folder):
    """Takes a file system away, also where something holds it still."""
    if subprocess.run(["umount", folder], capture_output=True).returncode != 0:
        subprocess.run(["umount", "--lazy", folder], capture_output=True)


class Mount(NamedTuple):
    """How a file was mounted: what the kernel said at last where it wasn't, and which tool mended it first."""

    fault: str
    mended: str


@contextlib.contextmanager
def mounted(system, image, folder):
    """A file as a disk, for the time of a `with`. One that can't be mounted is mended first by its own tool."""
    fault, mended = mount_fault(system, image, folder), ""
    if fault:
        subprocess.run([*system.repair, image], capture_output=True)
        mended = system.repair[0]
        again = mount_fault(system, image, folder)
        fault = again and f"not mounted: {fault}; after {mended}: {again}"
    try:
        yield Mount(fault, mended)
    finally:
        umount(folder)


class Recorded:
    """A disk that writes down what comes to it, mounted for the time of a `with`. `now` is how many writes
    and flushes have come by then, and `events` has them afterwards. `answers` is a file for what a program
    says, so that each event tells how much of it was said."""

    def __init__(self, system, image, place):
        self.system, self.image = system, image
        self.disk, self.fuse = place / "recorded.img", beside(place, "fuse")
        self.folder = beside(place, "recorded")
        self.written, self.counted, self.answers = (place / it for it in ("events", "count", "answers"))

    def __enter__(self):
        self.image.write(self.disk)
        self.counted.write_bytes(bytes(8))
        self.answers.write_bytes(b"")
        with open(self.counted, "r+b") as file:
            self.count = mmap.mmap(file.fileno(), 8)
        files = self.disk, self.fuse, self.written, self.counted, self.answers
        words = [sys.executable, "-m", "cuts.device", *files]
        self.process = subprocess.Popen(words, stdout=subprocess.PIPE)
        self.process.stdout.readline()
        fault = mount_fault(self.system, self.fuse / "disk", self.folder)
        if fault:
            self.end()
            raise SystemExit(f"a disk that writes down: {fault}\n0 passed, 1 failed")
        self.began = self.now
        return self

    def __exit__(self, *_):
        self.ended = self.now
        umount(self.folder)
        self.end()
        self.events = events_of(self.written)

    def end(self):
        """Ends the device."""
        umount(self.fuse)
        try:
            self.process.wait(10)
        except subprocess.TimeoutExpired:
            self.process.kill()
            self.process.wait()
        self.process.stdout.close()

    @property
    def now(self):
        return struct.unpack("=q", self.count[:])[0]

    def said(self):
        """How many bytes of answers there were at each event so far."""
        return [event.said for event in events_of(self.written)]


def made(system, place, fill):
    """A new file system in which `fill` made files, and has nothing more to write: its bytes."""
    path, folder = place / "made.img", beside(place, "made")
    with open(path, "wb") as file:
        file.truncate(system.size)
    must(*system.make, str(path))
    with mounted(system, str(path), folder) as mount:
        if mount.fault or mount.mended:
            raise SystemExit(f"a new disk: {mount.fault or 'mended'}\n0 passed, 1 failed")
        fill(folder)
    image = Image.read(path)
    os.unlink(path)
    return image
