#!/usr/bin/env python3
"""Times how a file of schema 1 moves to the newest schema, by the program and by Python's sqlite3 with the
same statements, each on a copy of the same file, in turn. Of both the opening is timed alone too: what the
program does until it has read a version that no schema has, and PRAGMA integrity_check.

migrate.py [PROGRAM] times the built program, which is crates/vault_cli/out/vault_cli if it is left out.
ENTRIES says how many entries a file has, one line each (1000 10000 100000), and ROUNDS how many rounds there
are (5).

migrate.py move FILE moves a file by Python alone, and prints its seconds, those of integrity_check, and the
peak of its own memory in KiB.

migrate.py file FILE N makes a file of schema 1 with N entries; migrate.py parts FILE does the step to
schema 2 by Python alone, and prints when each part ends, as the program vault_moves does.
"""

import os
import pathlib
import resource
import shutil
import sqlite3
import sys
import tempfile
import time

sys.dont_write_bytecode = True
import figures  # noqa: E402, without leaving a folder of its bytecode here
import same  # noqa: E402
import settings  # noqa: E402
from model import cards  # noqa: E402, which settings lets Python find
from shared import schemas  # noqa: E402
from sides import assert_sound, timed, told  # noqa: E402

MIB = 1048576
# A version that no schema has, as short in its row as one that is known; and how the program refuses it.
NO_VERSION = 99
NOT_OPENED = 3
PAGE = 1024

COLUMNS = (
    ("Entries", "Vault, s", "Python, s", "Vault / Python")
    + ("Vault, opening, s", "Python, opening, s", "The rest, vault / Python")
    + ("Vault, MiB", "Bytes a token", "Python, MiB")
)

MADE = """
INSERT INTO vault VALUES (1, 1);
INSERT INTO merchants VALUES ('shop1', 60, 60, 1000);
"""
# How many entries go by one statement.
PIECE = 500
PIECES = "DELETE FROM entries WHERE rowid <= ?1"
EMPTY = """
DELETE FROM entries;
UPDATE vault SET version = 2 WHERE id = 1;
"""
LEADS = """
INSERT INTO merchants3 SELECT name, single_life, multi_life, moment, 6 FROM merchants;
DELETE FROM merchants;
UPDATE vault SET version = 3 WHERE id = 1;
"""
ENDS = """
INSERT INTO rights4 SELECT caller, merchant, what, NULL FROM rights;
DELETE FROM rights;
UPDATE vault SET version = 4 WHERE id = 1;
"""
# As the program does in a move, no page goes to the log twice in a transaction.
ALL_PAGES = "PRAGMA cache_size = -4194304"
READ = "SELECT rowid, merchant, token, number, usage, birth, expires, revoked FROM entries ORDER BY rowid"


def make_file(path, many):
    """A file of schema 1, with pages as the program makes them: a merchant, and tokens of a card number each,
    half of them multi-use and all live."""
    conn = sqlite3.connect(path, isolation_level=None)
    conn.execute(f"PRAGMA page_size = {PAGE}")
    conn.executescript(schemas.FIRST + MADE)
    conn.execute("BEGIN")
    conn.execute("INSERT INTO counts VALUES ('shop1', 1, ?1)", (many,))
    for place in range(1, many + 1):
        number = cards.number_at(place)
        token, usage = cards.token_at(place, number), 1 + place % 2
        entry, record = (token, number, usage), (place, token, usage)
        conn.execute("INSERT INTO entries VALUES ('shop1', ?1, ?2, ?3, 1000, 1060, NULL)", entry)
        conn.execute("INSERT INTO records VALUES ('till-1', ?1, 'shop1', ?2, ?3)", record)
    conn.execute("COMMIT")
    conn.close()


def run(conn, statements):
    for statement in statements.strip().split(";\n"):
        conn.execute(statement)


def make_room(conn, many):
    """The tables of schema 2, and the old entries away in pieces."""
    run(conn, schemas.CARDS)
    for last in range(PIECE, many + PIECE, PIECE):
        conn.execute(PIECES, (last,))
    run(conn, EMPTY)


def put_entries(conn, rows):
    for _, _, token, number, *rest in rows:
        same.add_entry(conn, token, number, rest)


def move_entries(conn, rows):
    """The step to schema 2, in one transaction: tables, the entries away in pieces, and in anew."""
    conn.execute("BEGIN")
    make_room(conn, len(rows))
    put_entries(conn, rows)
    conn.execute("COMMIT")


def step(conn, statements):
    """Another step, in one transaction."""
    conn.execute("BEGIN")
    run(conn, statements)
    conn.execute("COMMIT")


def move(path):
    """Moves a file by Python: the check of its pages, its rows, and then a transaction for each step."""
    start = time.perf_counter()
    conn = same.opened(path)
    conn.execute(ALL_PAGES)
    assert conn.execute("PRAGMA integrity_check").fetchall() == [("ok",)]
    checked = time.perf_counter() - start
    move_entries(conn, conn.execute(READ).fetchall())
    step(conn, schemas.LEADS + LEADS)
    step(conn, schemas.ENDS + ENDS)
    conn.close()
    spent = time.perf_counter() - start
    print(spent, checked, resource.getrusage(resource.RUSAGE_SELF).ru_maxrss)


def time_parts(path):
    """Does the step to schema 2 by Python, and prints the microseconds until each of its parts has ended."""
    conn = same.opened(path)
    conn.execute(ALL_PAGES)
    start = time.perf_counter()
    rows = conn.execute(READ).fetchall()
    read = same.microseconds(start)
    conn.execute("BEGIN")
    make_room(conn, len(rows))
    gone = same.microseconds(start)
    put_entries(conn, rows)
    written = same.microseconds(start)
    conn.execute("COMMIT")
    print(f"read {read}, gone {gone}, written {written}, done {same.microseconds(start)} microseconds")


def copied(base, path):
    """A new copy of a file, without what was left of an earlier one."""
    for old in path.parent.glob(path.name + "*"):
        old.unlink()
    shutil.copy(base, path)
    return path


def timed_opening(program, base, folder):
    """The seconds of the program on a copy whose version no schema has, which it doesn't move."""
    path, answers = copied(base, folder / "refused.db"), folder / "answers"
    conn = same.opened(path)
    conn.execute("UPDATE vault SET version = ?1", (NO_VERSION,))
    conn.close()
    os.sync()
    spent, _ = timed((program, "migrate", path), os.devnull, answers, NOT_OPENED)
    assert answers.read_text() == f"vault: file not opened 30 {NO_VERSION}\n"
    return spent


def time_round(program, base, folder, many):
    """The seconds of each side, those of its opening, and its peak, each on a copy of the file; the program
    finds both copies sound afterwards."""
    ours, theirs = (copied(base, folder / name) for name in ("ours.db", "theirs.db"))
    answers = folder / "answers"
    opening = timed_opening(program, base, folder)
    os.sync()
    spent, peak = timed((program, "migrate", ours), os.devnull, answers)
    assert answers.read_text() == "schema 4\n"
    os.sync()
    python_spent, checked, python_peak = map(float, told(sys.executable, __file__, "move", theirs).split())
    for path in (ours, theirs):
        assert_sound(program, path, many)
    return (spent, opening, peak), (python_spent, checked, python_peak / 1024)


def print_line(many, rounds):
    """The middle figures of some rounds, with the least and the greatest; of peaks the greatest."""
    ours, theirs = zip(*rounds)
    (spent, opened, peaks), (python, checked, python_peaks) = zip(*ours), zip(*theirs)
    ratios = [mine / its for mine, its in zip(spent, python)]
    rests = [(mine[0] - mine[1]) / (its[0] - its[1]) for mine, its in rounds]
    cells = [figures.middle(cell, 2) for cell in (spent, python, ratios, opened, checked, rests)]
    most = max(peaks)
    cells += [f"{most:.1f}", f"{most * MIB / many:.0f}", f"{max(python_peaks):.1f}"]
    figures.print_line(many, *cells)


def main(program):
    rounds = settings.number("ROUNDS", 5)
    figures.print_head(f"How a file of schema 1 moves, {rounds} rounds", *COLUMNS)
    for many in settings.numbers("ENTRIES", "1000 10000 100000"):
        with tempfile.TemporaryDirectory() as name:
            folder = pathlib.Path(name)
            make_file(folder / "base.db", many)
            print_line(many, [time_round(program, folder / "base.db", folder, many) for _ in range(rounds)])


if __name__ == "__main__":
    words = sys.argv[1:]
    if words[:1] == ["move"]:
        move(words[1])
    elif words[:1] == ["file"]:
        make_file(words[1], int(words[2]))
    elif words[:1] == ["parts"]:
        time_parts(words[1])
    else:
        main(settings.program())
