"""The cases: what each begins with, what it does on a disk that writes down, and how often it is cut."""

import sqlite3
from typing import NamedTuple

from cuts import asked, jobs, served
from cuts.disks import Recorded, made
from cuts.stories import Story
from kills.shop import Shop
from shared import rows
from shared.files import log_of, removed
from shared.runs import must

# How many bytes the log has at most before its pages are copied into the file, and how many a page has here:
# the larger it is, the fewer rows fill the log.
LOG, PAGE = 24_576_000, 65536


class Case(NamedTuple):
    """A case: the kind by which it is judged, what it does, how much of it, what its file is before, and the
    schema of that. Of so many states of it the short form judges some, and `all` more."""

    name: str
    kind: str
    work: object
    many: int
    before: object
    few: int
    all: int
    version: int = 4


def nothing(_):
    """No file is there."""


def furnished(shop):
    """A shop with its merchants and rights."""
    shop.furnish()


def dying(shop):
    """The same with tokens that will be swept."""
    shop.furnish()
    return jobs.dying(shop, 25)


def older(version):
    """The same with some tokens, in an older schema."""

    def before(shop):
        shop.furnish()
        faults = jobs.dying(shop, 25)
        shop.lower(version)
        return faults

    return before


def full(shop):
    """The same in large pages, with a log that is soon copied back."""
    shop.furnish()
    _, found = rows.read(shop.path)
    removed(shop.path)
    conn = sqlite3.connect(shop.path, isolation_level=None)
    conn.executescript(f"PRAGMA page_size = {PAGE}; CREATE TABLE wide (a); DROP TABLE wide")
    conn.close()
    rows.write(shop.path, rows.lowered(found, 3), 3)
    shop.known.reset(rows.lowered(found, 3))
    must(shop.program, "migrate", shop.path)
    faults, sizes = jobs.dying(shop, 3), [log_of(shop.path).stat().st_size]
    while len(sizes) == 1 or sizes[-1] + 3 * (sizes[-1] - sizes[0]) // (len(sizes) - 1) < LOG:
        faults += jobs.dying(shop, 3)
        sizes.append(log_of(shop.path).stat().st_size)
    return faults


def over(story, disk, path, many, more):
    """A batch during which the log begins anew, which its head tells."""
    head = log_of(path).read_bytes()[:32]
    asked.batch(story, disk, path, many, more)
    if log_of(path).read_bytes()[:32] == head:
        story.faults.append("the log didn't start over")


CASES = (
    Case("a new file", "made", jobs.made, 1, nothing, 6, 50),
    Case("words", "words", jobs.words, 6, furnished, 4, 50),
    Case("pipe", "pipe", asked.pipe, 25, furnished, 6, 100),
    Case("serve, two clients", "serve", asked.serve, 24, furnished, 6, 100),
    Case("batch", "batch", asked.batch, 25, furnished, 6, 70),
    Case("sweep", "sweep", jobs.sweep, 0, dying, 5, 50),
    Case("rights --exact", "rights", jobs.exact, 20, furnished, 5, 50),
    *(Case(f"migrate from {it}", "migrate", jobs.migrate, 0, older(it), 2, 35, it) for it in (1, 2, 3)),
    Case("followed lists", "followed", served.followed, 20, furnished, 4, 50),
    Case("a copy and a restore", "copied", served.copied, 20, furnished, 4, 70),
    Case("a log that starts over", "batch", over, 15, full, 4, 70),
)


class Stage:
    """Where cases are played: a program, a folder in memory, a file system, random numbers."""

    def __init__(self, program, place, system, random):
        self.program, self.place, self.system, self.random = program, place, system, random

    def before(self, case):
        """The disk before a case, and the shop on it."""
        shops = []

        def fill(folder):
            (folder / "vault").mkdir()
            shop = Shop(self.program, folder / "vault" / "vault.db", self.random)
            faults = case.before(shop)
            if faults:
                raise SystemExit(f"{case.name}, before it: {faults[:3]}\n0 passed, 1 failed")
            shops.append(shop)

        return made(self.system, self.place, fill), shops[0]

    def play(self, case, more=None):
        """Plays a case on a disk that writes down: the story, and the disk with what it wrote down."""
        image, shop = self.before(case)
        story = Story(case.kind, image, shop)
        story.version = case.version
        return story, self.record(story, case.work, case.many, more or {})

    def record(self, story, work, many, more):
        """Does the work of a story on such a disk."""
        with Recorded(self.system, story.image, self.place) as disk:
            path = disk.folder / "vault" / story.name
            story.shop.path = path
            work(story, disk, path, many, more)
        return disk
