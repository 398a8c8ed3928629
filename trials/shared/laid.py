"""Files whose rows SQL lays out.

An edit puts a row behind those of a table, as `card 1,shop1,4111111111111111,1` does with its columns,
or clears a table; `merchants 3` puts so many. Edits are parted by `; `."""

import sqlite3

from shared.schemas import tables

# The table of each kind of row, how many columns it has, and what the last one is where it is left out.
TABLES = {
    "version": ("vault", 2, None),
    "merchant": ("merchants3", 5, 6),
    "count": ("counts", 3, None),
    "card": ("cards2", 4, None),
    "entry": ("entries2", 7, None),
    "record": ("records", 5, None),
    "right": ("rights4", 4, None),
}


def edit(conn, text):
    """Makes an edit."""
    kind, _, columns = text.partition(" ")
    if kind == "clear":
        cleared = {"entries": "entry"}.get(columns, columns.removesuffix("s"))
        conn.execute(f"DELETE FROM {TABLES[cleared][0]}")
    elif kind == "merchants":
        for place in range(int(columns)):
            edit(conn, f"merchant m{place},60,0,1000")
    else:
        table, width, last = TABLES[kind]
        row = [None if it == "-" else it for it in columns.split(",")]
        row += [last] * (width - len(row))
        conn.execute(f"INSERT INTO {table} VALUES ({', '.join('?' * width)})", row)


def make(file, edits):
    """Makes a file of the newest schema by edits."""
    conn = sqlite3.connect(file, isolation_level=None)
    try:
        conn.executescript(tables(4))
        conn.execute("BEGIN")
        for text in edits.split("; "):
            edit(conn, text)
        conn.execute("COMMIT")
    finally:
        conn.close()
