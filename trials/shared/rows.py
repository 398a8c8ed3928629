"""The rows of a vault's file of whichever schema, read by Python from a copy of it, and files of each schema.
"""

import pathlib
import sqlite3
import tempfile

from model.vault import Entry, Merchant, Record
from shared.files import copied
from shared.schemas import tables

MADE, GIVEN, DENIED = 1, 2, 3


class Unsound(Exception):
    """A file whose rows aren't those of a vault."""


def read(path):
    """The version of a vault's file, and its rows by their keys; version 0 and none where it has no table. A
    copy is read, of the file and its log, so that the file stays as it is."""
    with tempfile.TemporaryDirectory() as name:
        conn = sqlite3.connect(copied(pathlib.Path(path), pathlib.Path(name) / "copy.db"))
        try:
            return read_rows(conn)
        finally:
            conn.close()


def read_rows(conn):
    """The version and the rows that a connection sees."""
    if not conn.execute("SELECT name FROM sqlite_schema WHERE name = 'vault'").fetchall():
        return 0, {}
    [(version,)] = conn.execute("SELECT version FROM vault").fetchall()
    rows = {}
    read_merchants(conn, version, rows)
    read_entries(conn, version, rows)
    for caller, request, *record in conn.execute("SELECT * FROM records"):
        rows["record", caller, request] = Record(*record)
    rights = "SELECT * FROM rights4" if version > 3 else "SELECT *, NULL FROM rights"
    for *key, ends in conn.execute(rights):
        rows["right", *key] = (ends,)
    return version, rows


def read_merchants(conn, version, rows):
    """The rows of merchants with their counts; each count of tokens made is the number of entries."""
    counts = {(merchant, kind): total for merchant, kind, total in conn.execute("SELECT * FROM counts")}
    table = "SELECT * FROM merchants3" if version > 2 else "SELECT *, 6 FROM merchants"
    for name, single, multi, moment, lead in conn.execute(table):
        given, denied = (counts.pop((name, kind), 0) for kind in (GIVEN, DENIED))
        rows["merchant", name] = Merchant(single, multi, lead, moment, given, denied)
    entries = "entries2" if version > 1 else "entries"
    made = conn.execute(f"SELECT merchant, {MADE}, count(*) FROM {entries} GROUP BY merchant").fetchall()
    if sorted((*key, total) for key, total in counts.items()) != sorted(made):
        raise Unsound(f"{len(counts)} counts of tokens made that aren't the entries'")


def read_entries(conn, version, rows):
    """The rows of entries with their numbers; each card has as many uses as entries that point at it."""
    plain = "SELECT merchant, token, number, usage, birth, expires, revoked FROM entries"
    joined = (
        "SELECT e.merchant, token, number, usage, birth, expires, revoked FROM entries2 e"
        " LEFT JOIN cards2 c ON c.id = e.card"
    )
    for merchant, token, *entry in conn.execute(joined if version > 1 else plain):
        rows["entry", merchant, token] = Entry(*entry)
    if version > 1:
        wrong = "SELECT id FROM cards2 c WHERE uses <> (SELECT count(*) FROM entries2 WHERE card = c.id)"
        lost = "SELECT token FROM entries2 WHERE card NOT NULL AND card NOT IN (SELECT id FROM cards2)"
        faults = len(conn.execute(wrong).fetchall()), len(conn.execute(lost).fetchall())
        if faults != (0, 0):
            raise Unsound(f"{faults[0]} cards with other uses, {faults[1]} entries without their card")


def lowered(rows, version):
    """The rows that a file of a schema can hold: leads of six digits and rights without an end in the older
    ones."""
    found = {}
    for key, row in rows.items():
        if key[0] == "merchant" and version < 3:
            row = row._replace(lead=6)
        if key[0] == "right" and version < 4:
            row = (None,)
        found[key] = row
    return found


def write(path, rows, version):
    """Makes a file of schema 1, 2 or 3 with these rows, as a program of that schema did: its pages have 1024
    bytes."""
    conn = sqlite3.connect(path, isolation_level=None)
    conn.execute("PRAGMA page_size = 1024")
    conn.executescript(tables(version))
    conn.execute("BEGIN")
    conn.execute("INSERT INTO vault VALUES (1, ?)", (version,))
    for key, row in sorted(rows.items()):
        WRITERS[key[0]](conn, version, key, row)
    made = "SELECT merchant, 1, count(*) FROM entries" + ("2" if version > 1 else "")
    conn.execute(f"INSERT INTO counts {made} GROUP BY merchant")
    conn.execute("COMMIT")
    conn.close()


def write_merchant(conn, version, key, row):
    name, lives = key[1], (row.single, row.multi, row.moment)
    if version > 2:
        conn.execute("INSERT INTO merchants3 VALUES (?, ?, ?, ?, ?)", (name, *lives, row.lead))
    else:
        conn.execute("INSERT INTO merchants VALUES (?, ?, ?, ?)", (name, *lives))
    counts = [(name, kind, total) for kind, total in ((GIVEN, row.given), (DENIED, row.denied)) if total]
    conn.executemany("INSERT INTO counts VALUES (?, ?, ?)", counts)


def write_entry(conn, version, key, row):
    if version == 1:
        conn.execute("INSERT INTO entries VALUES (?, ?, ?, ?, ?, ?, ?)", (*key[1:], *row))
        return
    card = None
    if row.number is not None:
        place = key[1], row.number
        more = " ON CONFLICT (merchant, number) DO UPDATE SET uses = uses + 1"
        conn.execute("INSERT INTO cards2 VALUES (NULL, ?, ?, 1)" + more, place)
        [(card,)] = conn.execute("SELECT id FROM cards2 WHERE merchant = ? AND number = ?", place)
    conn.execute("INSERT INTO entries2 VALUES (?, ?, ?, ?, ?, ?, ?)", (*key[1:], card, *row[1:]))


def write_record(conn, _, key, row):
    conn.execute("INSERT INTO records VALUES (?, ?, ?, ?, ?)", (*key[1:], *row))


def write_right(conn, _, key, row):
    assert row == (None,)
    conn.execute("INSERT INTO rights VALUES (?, ?, ?)", key[1:])


WRITERS = {"merchant": write_merchant, "entry": write_entry, "record": write_record, "right": write_right}
