"""What a vault holds, as a table of rows by their keys, and the commands that it is asked:

("merchant", name): Merchant                ("entry", merchant, token): Entry
("record", caller, request): Record         ("right", caller, merchant, right): its end in a tuple
"""

import collections
from typing import NamedTuple

SINGLE, MULTI = 1, 2
USES = {SINGLE: "single", MULTI: "multi"}
RIGHTS = {"tokenize": 1, "detokenize": 2, "view": 3, "revoke": 4, "purge": 5, "audit": 6}


class Merchant(NamedTuple):
    """A merchant: its lives, its lead, its moment, and how many numbers were given and denied."""

    single: int
    multi: int
    lead: int
    moment: int
    given: int = 0
    denied: int = 0


class Entry(NamedTuple):
    """A token's entry; `number` is None where it is purged, `revoked` where it never was."""

    number: str | None
    use: int
    birth: int
    expires: int
    revoked: int | None = None


class Record(NamedTuple):
    """A request's record."""

    merchant: str
    token: str
    use: int


class Command(NamedTuple):
    """A command; `right` names what it does, or is `merchant`, `grant` or `withdraw`."""

    right: str
    caller: str
    merchant: str
    token: str = ""
    request: int = 0
    number: str = ""
    use: int = SINGLE
    given: str = ""
    ends: int | None = None
    lives: tuple = ()


def sound(count):
    """The line of a check that finds so many rows of each kind."""
    return "sound {} {} {}\n".format(*map(count, ("merchant", "entry", "record"))).encode()


class Rows:
    """The rows of a vault by their keys, and the tokens of each number."""

    def __init__(self, rows=None):
        self.rows = {}
        self.tokens = collections.defaultdict(set)
        self.entries = collections.Counter()
        self.put(rows or {})

    def get(self, key):
        return self.rows.get(key)

    def made(self, merchant):
        return self.entries[merchant]

    def tokens_of(self, merchant, number):
        return self.tokens[merchant, number]

    def put(self, changes):
        """Puts rows, and takes those away that are None."""
        for key, row in changes.items():
            if row is None:
                self.rows.pop(key, None)
                continue
            if key[0] == "entry":
                self.entries[key[1]] += key not in self.rows
                self.tokens[key[1], row.number].add(key[2])
            self.rows[key] = row

    def unlike(self, other):
        """The rows of another vault where they differ from these, with None for one that it hasn't."""
        changed = {key: row for key, row in other.items() if self.rows.get(key) != row}
        return changed | {key: None for key in self.rows.keys() - other.keys()}

    def count(self, kind):
        """How many rows of a kind there are."""
        return sum(key[0] == kind for key in self.rows)
