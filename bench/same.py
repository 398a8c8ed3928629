#!/usr/bin/env python3
"""The statements of single-use Tokenize commands, run by Python's sqlite3 in the order that the vault runs
them. What the vault remembers of a merchant is read once.

same.py FILE N takes a file that the program vault_bench made, times N commands after those that it holds,
and prints the line that the program prints.

same.py check FILE times PRAGMA integrity_check of such a file, and prints the line that the program prints,
and the peak of its own memory in KiB.
"""

import resource
import sqlite3
import sys
import time

sys.dont_write_bytecode = True
import settings  # noqa: E402, F401, without leaving a folder of its bytecode here
from model import cards  # noqa: E402, which settings lets Python find

LIVES = "SELECT single_life, multi_life, moment, lead_digits FROM merchants3 WHERE name = ?1"
COUNTS = "SELECT kind, total FROM counts WHERE merchant = ?1"
RIGHT = "SELECT ends FROM rights4 WHERE caller = ?1 AND merchant = ?2 AND what = ?3"
RECORD = "SELECT merchant, token, usage FROM records WHERE caller = ?1 AND request = ?2"
ENTRY = "SELECT card, usage, birth, expires, revoked FROM entries2 WHERE merchant = ?1 AND token = ?2"
CARD = "SELECT id, uses FROM cards2 WHERE merchant = ?1 AND number = ?2"
PUT_MERCHANT = (
    "INSERT INTO merchants3 VALUES (?1, ?2, ?3, ?4, ?5) ON CONFLICT (name)"
    " DO UPDATE SET single_life = ?2, multi_life = ?3, moment = ?4, lead_digits = ?5"
)
COUNT_ID = "SELECT rowid FROM counts WHERE merchant = ?1 AND kind = ?2"
SET_COUNT = "UPDATE counts SET total = ?3 WHERE rowid = ?4 AND merchant = ?1 AND kind = ?2"
ADD_CARD = "INSERT OR IGNORE INTO cards2 VALUES (NULL, ?1, ?2, 1)"
PUT_CARD = "INSERT INTO cards2 VALUES (?1, ?2, ?3, ?4)"
SET_USES = "UPDATE cards2 SET uses = ?2 WHERE id = ?1"
ADD_ENTRY = "INSERT INTO entries2 VALUES (?1, ?2, ?3, ?4, ?5, ?6, ?7)"
PUT_ENTRY = (
    "INSERT INTO entries2 VALUES (?1, ?2, ?3, ?4, ?5, ?6, ?7) ON CONFLICT (merchant, token)"
    " DO UPDATE SET card = ?3, usage = ?4, birth = ?5, expires = ?6, revoked = ?7"
)
ADD_RECORD = "INSERT INTO records VALUES (?1, ?2, ?3, ?4, ?5)"

CALLER = "till-1"
MERCHANT = "shop1"
NUMBER = "4111111111111111"
MADE = 1
TOKENIZE = 1


def opened(file):
    """The file as the vault has it: a log, a sync at each commit, as much in memory, and as long a log."""
    conn = sqlite3.connect(file, isolation_level=None)
    conn.execute("PRAGMA journal_mode = WAL")
    conn.execute("PRAGMA synchronous = FULL")
    conn.execute("PRAGMA locking_mode = EXCLUSIVE")
    conn.execute("PRAGMA cache_size = -16384")
    page = conn.execute("PRAGMA page_size").fetchall()[0][0]
    conn.execute(f"PRAGMA wal_autocheckpoint = {24576000 // page}")
    return conn


class Merchant:
    """What is remembered of the merchant: its lives, its moment and its lead, and how many tokens were made,
    with the rowid of that count. The caller has the right."""

    def __init__(self, conn, caller, right):
        ((self.life, self.multi_life, self.moment, self.lead),) = conn.execute(LIVES, (MERCHANT,)).fetchall()
        self.made = dict(conn.execute(COUNTS, (MERCHANT,)).fetchall())[MADE]
        ((self.rowid,),) = conn.execute(COUNT_ID, (MERCHANT, MADE)).fetchall()
        assert conn.execute(RIGHT, (caller, MERCHANT, right)).fetchall() == [(None,)]

    def go_on(self, conn, now):
        """Its moment is this one, where it was before."""
        if self.moment < now:
            self.moment = now
            conn.execute(PUT_MERCHANT, (MERCHANT, self.life, self.multi_life, self.moment, self.lead))

    def raise_made(self, conn):
        """One token more was made."""
        self.made += 1
        assert conn.execute(SET_COUNT, (MERCHANT, MADE, self.made, self.rowid)).rowcount == 1


def read(conn, request, token):
    """What one Tokenize reads: there is no such record, and no such token."""
    assert not conn.execute(RECORD, (CALLER, request)).fetchall()
    assert not conn.execute(ENTRY, (MERCHANT, token)).fetchall()


def use_card(conn, number):
    """The id of the number's card, which is used once more."""
    made = conn.execute(ADD_CARD, (MERCHANT, number))
    if made.rowcount == 1:
        return made.lastrowid
    ((card, uses),) = conn.execute(CARD, (MERCHANT, number)).fetchall()
    conn.execute(SET_USES, (card, uses + 1))
    return card


def add_entry(conn, token, number, rest):
    """A new entry, and a use more of its number's card."""
    conn.execute(ADD_ENTRY, (MERCHANT, token, use_card(conn, number), *rest))


def write(conn, request, token, merchant, number):
    """What one Tokenize of a card number writes, in one transaction."""
    conn.execute("BEGIN")
    merchant.raise_made(conn)
    add_entry(conn, token, number, (1, merchant.moment, merchant.moment + merchant.life, None))
    conn.execute(ADD_RECORD, (CALLER, request, MERCHANT, token, 1))
    conn.execute("COMMIT")


def tokenize_many(conn, merchant, many):
    first = merchant.made + 1
    for request in range(first, first + many):
        number = cards.number_at(request)
        token = cards.token_at(request, number)
        read(conn, request, token)
        write(conn, request, token, merchant, number)


def microseconds(start):
    """The microseconds since then, at least one."""
    return max(1, int((time.perf_counter() - start) * 1000000))


def time_tokens(file, many):
    conn = opened(file)
    merchant = Merchant(conn, CALLER, TOKENIZE)
    start = time.perf_counter()
    tokenize_many(conn, merchant, many)
    spent = microseconds(start)
    conn.close()
    print(f"{many} commands in {spent} microseconds, {many * 1000000 // spent} a second")


def time_check(file):
    conn = opened(file)
    start = time.perf_counter()
    found = conn.execute("PRAGMA integrity_check").fetchall()
    spent = microseconds(start)
    peak = resource.getrusage(resource.RUSAGE_SELF).ru_maxrss
    assert found == [("ok",)]
    entries = conn.execute("SELECT count(*) FROM entries2").fetchone()[0]
    print(f"{entries} entries in {spent} microseconds, {peak} KiB")


if __name__ == "__main__":
    if sys.argv[1] == "check":
        time_check(sys.argv[2])
    else:
        time_tokens(sys.argv[1], int(sys.argv[2]))
