"""The files that jobs begin with: small ones of each schema, and one whose log is about to be copied back."""

import random

from model.cards import fits, passes
from model.known import Known
from model.vault import Command, Entry, Record
from shared import rows, shop
from shared.commands import row
from shared.files import copied, log_of
from shared.runs import must

NOW = 1_700_000_000
NUMBER = "4111111111111111"
LIVES = (3600, 86400)
HEADER = "request,number,use\n"
# A log is copied back long before so many batches.
MOST_BATCHES = 80


class Ground:
    """A file with its log, and its rows."""

    def __init__(self, path, found):
        self.path, self.found = path, found

    def copy(self, path):
        """A copy of it, and what is known of that."""
        copied(self.path, path)
        return Known(self.found)


def small(program, folder):
    """Thirteen tokens, twelve of which are for single use, and a log that is still there."""
    path = folder / "small.db"
    shop.made(program, path, *LIVES, shop.TILL | shop.BACK, now=NOW)
    asked = [Command("tokenize", "till-1", "shop1", "", it, NUMBER, 1 + it % 2) for it in range(1, 25)]
    given = HEADER + "".join(map(row, asked))
    must(program, "batch", "--now", NOW, path, "till-1", "shop1", given=given.encode())
    return Ground(path, rows.read(path)[1])


def long(program, folder, ground):
    """A file whose log is nearly as long as it may be: a batch goes on until it was copied back once, and the
    file before that is kept."""
    path = folder / "long.db"
    ground.copy(path)
    log = log_of(path)
    kept, request = folder / "kept.db", 1000
    for _ in range(MOST_BATCHES):
        size = log.stat().st_size
        copied(path, kept)
        asked = [Command("tokenize", "till-1", "shop1", "", request + it, NUMBER) for it in range(50)]
        request += 50
        before = path.stat().st_mtime_ns
        given = HEADER + "".join(map(row, asked))
        must(program, "batch", "--now", NOW, path, "till-1", "shop1", given=given.encode())
        if path.stat().st_mtime_ns != before and size > 2**20:
            break
    return Ground(kept, rows.read(kept)[1])


def older(folder, ground, version):
    """The same rows in a file of an older schema, and some more of them."""
    found = rows.lowered(ground.found, version)
    draw = random.Random(version)
    for request in range(500, 560):
        token = f"{draw.randrange(10**12):012}1111"
        if not passes(token) and fits(token, NUMBER):
            found["entry", "shop1", token] = Entry(NUMBER, 1, NOW, NOW + 3600)
            found["record", "till-1", request] = Record("shop1", token, 1)
    path = folder / f"older{version}.db"
    rows.write(path, found, version)
    return Ground(path, found)
