"""The bytes of a disk, what came to it, and what a cut of the power leaves of that."""

import os
from typing import NamedTuple

from cuts.device import EVENT, FLUSHED

SECTOR = 512
EMPTY = bytes(SECTOR)
# What becomes of the writes behind the last flush: all are lost, all are there, or each has its own lot.
WAYS = ("nothing", "everything", "some")


class Event(NamedTuple):
    """A write, or, without bytes, a flush; and how many bytes of answers there were as it came."""

    offset: int
    text: bytes | None
    said: int


def events_of(path):
    """What a device wrote down."""
    found = []
    with open(path, "rb") as file:
        while head := file.read(EVENT.size):
            size, offset, said = EVENT.unpack(head)
            found.append(Event(offset, None if size == FLUSHED else file.read(size), said))
    return found


class Image:
    """The bytes of a disk, by sectors; one that was never written is empty."""

    def __init__(self, size, sectors):
        self.size, self.sectors = size, sectors

    @classmethod
    def read(cls, path):
        """The bytes of a file, which may have holes."""
        image = cls(os.path.getsize(path), {})
        fd, end = os.open(path, os.O_RDONLY), 0
        try:
            while end < image.size:
                start = os.lseek(fd, end, os.SEEK_DATA)
                end = os.lseek(fd, start, os.SEEK_HOLE)
                image.put(start, os.pread(fd, end - start, start))
        except OSError:
            pass  # no bytes come behind that place
        finally:
            os.close(fd)
        image.sectors = {place: piece for place, piece in image.sectors.items() if piece != EMPTY}
        return image

    def copy(self):
        return Image(self.size, dict(self.sectors))

    def put(self, offset, text, lost=()):
        """Writes bytes, but for the sectors of them that are lost."""
        first = offset // SECTOR
        for place in range(len(text) // SECTOR):
            if place not in lost:
                self.sectors[first + place] = text[place * SECTOR:(place + 1) * SECTOR]

    def write(self, path):
        """Makes a file of the bytes."""
        with open(path, "wb") as file:
            file.truncate(self.size)
            start, run = 0, []
            for place in sorted(self.sectors):
                if place != start + len(run):
                    os.pwrite(file.fileno(), b"".join(run), start * SECTOR)
                    start, run = place, []
                run.append(self.sectors[place])
            os.pwrite(file.fileno(), b"".join(run), start * SECTOR)


class Past:
    """A disk up to an event: what is on it for good, and what came behind the last flush that was answered.
    One that loses flushes answers them, and nothing more."""

    def __init__(self, image, events, loses=False):
        self.lasting, self.events, self.loses = image.copy(), events, loses
        self.later, self.at = [], 0

    def go_to(self, at):
        """Goes on to the instant before the event of this place."""
        for event in self.events[self.at:at]:
            if event.text is not None:
                self.later.append(event)
            elif not self.loses:
                self.settle()
        self.at = max(self.at, at)

    def settle(self):
        """All that came by now is on the disk for good."""
        for event in self.later:
            self.lasting.put(event.offset, event.text)
        self.later = []

    def cut(self, random, way):
        """What a cut at this instant leaves."""
        image, share = self.lasting.copy(), random.uniform(0.1, 0.9)
        for event in self.later if way != "nothing" else ():
            sectors = range(len(event.text) // SECTOR)
            lot = "whole" if way == "everything" else random.choice(("whole", "nothing", "torn"))
            if lot == "whole":
                image.put(event.offset, event.text)
            elif lot == "torn":
                image.put(event.offset, event.text, lost={it for it in sectors if random.random() < share})
        return image
