"""Files of each schema without one of their tables: what `check` says, and what a move says."""

import sqlite3

from damage import base
from shared import rows
from shared.files import copied
from shared.runs import run
from shared.tally import unlike

# A schema, some of its tables, and what `check` and a move say without one of them. What a newer schema
# replaced has to be there still, and `vault` says the version.
MISSING = (
    (1, "merchants counts entries records rights", "30 1", "30 1"),
    (1, "vault", "30 0", "30 0"),
    (2, "merchants counts entries records rights cards2 entries2", "30 2", "30 2"),
    (2, "vault", "30 0", "30 0"),
    (3, "merchants counts entries records rights cards2 entries2 merchants3", "30 3", "30 3"),
    (3, "vault", "30 0", "30 0"),
    (4, "merchants counts entries records rights cards2 entries2 merchants3", "30 0", "30 0"),
    (4, "rights4", "30 0", "30 4"),
    (4, "vault", "30 0", "30 0"),
)


def made(program, folder, version):
    """A file of a schema with some rows."""
    newest, file = folder / "newest.db", folder / f"schema{version}.db"
    if version == 4:
        return newest
    if not newest.exists():
        base.make_small(program, newest)
    if not file.exists():
        rows.write(file, rows.lowered(rows.read(newest)[1], version), version)
    return file


def try_all(program, folder, tally):
    """Drops each table of a copy of each file."""
    for version, names, checked, moved in MISSING:
        whole = made(program, folder, version)
        for table in names.split():
            file = copied(whole, folder / "lacking.db")
            conn = sqlite3.connect(file)
            conn.execute(f"DROP TABLE {table}")
            conn.execute("PRAGMA wal_checkpoint(TRUNCATE)")
            conn.close()
            told = tuple(run(program, job, file).said for job in ("check", "migrate"))
            name = f"schema {version} without {table}"
            tally.judge(name, unlike(told, (checked, moved)), "files without a table")
