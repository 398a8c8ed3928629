#!/usr/bin/env python3
"""Times a sweep through the program: a merchant's tokens in a file, of which some are dead, each purged by a
command of its own. Beside it Python's sqlite3 runs the same statements, and the disk syncs as many pages.

sweep.py [PROGRAM] times the built program, which is crates/vault_cli/out/vault_cli if it is left out. DEAD
says how many tokens are dead, one line each (10000 30000 100000), LIVE how many live ones there are for each
of them (1), and ROUNDS how many rounds there are (3), each side in turn in each.
"""

import os
import pathlib
import sys
import tempfile
import time

sys.dont_write_bytecode = True
import figures  # noqa: E402, without leaving a folder of its bytecode here
import filled  # noqa: E402
import same  # noqa: E402
import settings  # noqa: E402
from model import cards  # noqa: E402, which settings lets Python find
from sides import assert_sound, told  # noqa: E402

FIND_DEAD = (
    "SELECT token FROM entries2 WHERE merchant = ?1 AND token >= ?2 AND card IS NOT NULL"
    " AND (revoked IS NOT NULL OR expires <= ?3) ORDER BY token LIMIT ?4"
)
NUMBER_OF = "SELECT number FROM cards2 WHERE id = ?1"
USES = "SELECT uses FROM cards2 WHERE id = ?1"
DROP_CARD = "DELETE FROM cards2 WHERE id = ?1"
LIST = 1000

# In a sweep the program keeps all pages in memory, and lets the log grow as long as the file, within these
# bounds.
LEAST_PAGES, LEAST_LOG, MOST = 16777216, 24576000, 268435456

CALLER = "back"
PURGE = 5
LIFE = 60
BORN_DEAD, BORN_LIVE = 1000, 1050
NOW = BORN_DEAD + LIFE


def rows_of(dead, live):
    """The rows of a merchant's entries, so many live ones behind each dead one, all of the card with the
    id 1, and of their records."""
    for number in range(dead * (1 + live)):
        token = cards.token_at(number + 1, same.NUMBER)
        birth = BORN_LIVE if number % (1 + live) else BORN_DEAD
        entry = (same.MERCHANT, token, 1, 1, birth, birth + LIFE, None)
        yield entry, (same.CALLER, number + 1, same.MERCHANT, token, 1)


def make_file(program, vault, dead, live):
    """The program's own file with such a merchant."""
    filled.make_vault(program, vault, BORN_LIVE, (LIFE, 0), (CALLER, "purge"))
    many = dead * (1 + live)
    filled.fill(program, vault, many, ([(1, same.MERCHANT, same.NUMBER, many)], *zip(*rows_of(dead, live))))


def sweep(program, vault, merchant, purged):
    """Sweeps a merchant's tokens by the program, and returns the seconds that it ran."""
    start = time.perf_counter()
    line = told(program, "sweep", "--now", str(NOW), vault, CALLER, merchant)
    spent = time.perf_counter() - start
    assert line == f"purged {purged}\n"
    return spent


def purge(conn, merchant, token):
    """What one Purge reads, each row fetched, and what it writes, in one transaction."""
    card, usage, birth, expires, revoked = conn.execute(same.ENTRY, (same.MERCHANT, token)).fetchall()[0]
    assert conn.execute(NUMBER_OF, (card,)).fetchall() and expires <= NOW
    conn.execute("BEGIN")
    merchant.go_on(conn, NOW)
    conn.execute(same.ENTRY, (same.MERCHANT, token)).fetchall()
    conn.execute(same.PUT_ENTRY, (same.MERCHANT, token, None, usage, birth, expires, revoked))
    ((uses,),) = conn.execute(USES, (card,)).fetchall()
    if uses > 1:
        conn.execute(same.SET_USES, (card, uses - 1))
    else:
        conn.execute(DROP_CARD, (card,))
    conn.execute("COMMIT")


def list_dead(conn, merchant, start):
    """The first tokens that are dead, from a text on."""
    return conn.execute(FIND_DEAD, (same.MERCHANT, start, max(merchant.moment, NOW), LIST)).fetchall()


def opened_whole(vault):
    """The file with as much in memory and as long a log as the program has in a sweep."""
    conn = same.opened(vault)
    length = min(os.path.getsize(vault), MOST)
    page = conn.execute("PRAGMA page_size").fetchall()[0][0]
    conn.execute(f"PRAGMA cache_size = -{max(length, LEAST_PAGES) // 1024}")
    conn.execute(f"PRAGMA wal_autocheckpoint = {max(length, LEAST_LOG) // page}")
    return conn


def sweep_python(vault, dead):
    """The seconds of the same statements, without Python's start and the opening; and those of the lists,
    each from the first token of the one before on."""
    conn = opened_whole(vault)
    merchant = same.Merchant(conn, CALLER, PURGE)
    first, purged, lists, start = "", 0, 0, time.perf_counter()
    while True:
        listing = time.perf_counter()
        tokens = list_dead(conn, merchant, first)
        lists += time.perf_counter() - listing
        if not tokens:
            break
        ((first,), *_) = tokens
        for (token,) in tokens:
            purge(conn, merchant, token)
        purged += len(tokens)
    spent = time.perf_counter() - start
    conn.close()
    assert purged == dead
    return spent, lists


def time_round(program, folder, dead, live):
    """The seconds of the program's sweep without its opening, of Python's, of Python's lists and of the
    opening; and the syncs a second."""
    ours, theirs = str(folder / "vault.db"), str(folder / "python.db")
    make_file(program, ours, dead, live)
    make_file(program, theirs, dead, live)
    os.sync()
    opening = sweep(program, ours, "none", 0)
    swept = sweep(program, ours, same.MERCHANT, dead) - opening
    assert_sound(program, ours, dead * (1 + live))
    os.sync()
    spent, lists = sweep_python(theirs, dead)
    assert_sound(program, theirs, dead * (1 + live))
    return swept, spent, lists, opening, figures.time_disk(folder, min(dead, 1000))


def print_line(dead, live, rounds):
    """The middle figures of some rounds, with the least and the greatest."""
    ours = [dead / swept for swept, _, _, _, _ in rounds]
    theirs = [dead / spent for _, spent, _, _, _ in rounds]
    ratios = [spent / swept for swept, spent, _, _, _ in rounds]
    listing = [100 * lists / spent for _, spent, lists, _, _ in rounds]
    disk = [syncs for _, _, _, _, syncs in rounds]
    openings = [opening for _, _, _, opening, _ in rounds]
    cells = [figures.middle(ours), figures.middle(theirs), figures.middle(ratios, 2)]
    cells.append(figures.middle(listing, 1))
    cells += [figures.middle(disk), figures.middle(openings, 2)]
    print(f"| {dead} of {dead * (1 + live)} | {' | '.join(cells)} |", flush=True)


def main(program):
    rounds, live = settings.number("ROUNDS", 3), settings.number("LIVE", 1)
    print("| Dead | Vault, a second | Python, a second | Ratio | Lists, % | Syncs, a second | Opening, s |")
    print("|---|---|---|---|---|---|---|")
    for dead in settings.numbers("DEAD", "10000 30000 100000"):
        timed = []
        for _ in range(rounds):
            with tempfile.TemporaryDirectory() as name:
                timed.append(time_round(program, pathlib.Path(name), dead, live))
        print_line(dead, live, timed)


if __name__ == "__main__":
    main(settings.program())
