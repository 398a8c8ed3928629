"""The rows of a vault's file, as Python's sqlite3 reads them."""

import re
import sqlite3

# The tables of schema 4. Those of the second line were replaced, and are empty.
TABLES = {
    "vault": ("id", "version"),
    "merchants3": ("name", "single_life", "multi_life", "moment", "lead_digits"),
    "counts": ("merchant", "kind", "total"),
    "cards2": ("id", "merchant", "number", "uses"),
    "entries2": ("merchant", "token", "card", "usage", "birth", "expires", "revoked"),
    "records": ("caller", "request", "merchant", "token", "usage"),
    "rights4": ("caller", "merchant", "what", "ends"),
}
REPLACED = {
    "merchants": ("name", "single_life", "multi_life", "moment"),
    "entries": ("merchant", "token", "number", "usage", "birth", "expires", "revoked"),
    "rights": ("caller", "merchant", "what"),
}

# The columns that an index has too: a change of one alone leaves the file at odds with itself.
KEYS = {
    "vault": ("id",),
    "merchants3": ("name",),
    "counts": ("merchant", "kind"),
    "cards2": ("id", "merchant", "number"),
    "entries2": ("merchant", "token", "card"),
    "records": ("caller", "request"),
    "rights4": ("caller", "merchant", "what"),
}


def read(file):
    """The rows of each table by their rowids; None where sqlite3 can't read them."""
    conn = sqlite3.connect(file, isolation_level=None)
    conn.text_factory = bytes
    try:
        return {table: read_table(conn, table, names) for table, names in (TABLES | REPLACED).items()}
    except (sqlite3.Error, OverflowError):
        return None
    finally:
        conn.close()


def read_table(conn, table, names):
    """The rows of one table, without the help of an index."""
    found = {}
    for rowid, *values in conn.execute(f"SELECT rowid, {', '.join(names)} FROM {table} NOT INDEXED"):
        if rowid in found:
            raise sqlite3.DatabaseError("a rowid comes twice")
        found[rowid] = dict(zip(names, values))
    return found


def complaint(file):
    """What sqlite3's own check says first of a file, without numbers; nothing where it is in order."""
    conn = sqlite3.connect(file, isolation_level=None)
    try:
        found = conn.execute("PRAGMA integrity_check(1)").fetchone()[0]
    except sqlite3.Error as fault:
        found = str(fault)
    finally:
        conn.close()
    return "" if found == "ok" else re.sub("[0-9]+", "n", found.splitlines()[-1])


def differing(old, new):
    """What differs between the rows of two files: names of tables and columns, and no value."""
    found = set()
    for table in TABLES | REPLACED:
        if old[table].keys() != new[table].keys():
            found.add(f"{table}: a row more or less")
        for rowid in old[table].keys() & new[table].keys():
            before, after = old[table][rowid], new[table][rowid]
            found |= {f"{table}.{name}" for name in before if before[name] != after[name]}
    return found


def is_key(place):
    """Whether what differs there stands in an index too."""
    table, _, column = place.partition(".")
    return column in KEYS.get(table, (column,))


def change(file, *statements):
    """Changes a file by SQL. The log is empty afterwards."""
    conn = sqlite3.connect(file, isolation_level=None)
    try:
        for statement in statements:
            conn.execute(statement)
    finally:
        conn.close()
