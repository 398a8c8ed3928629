"""Files that the program makes and Python fills: a merchant's tokens, put in by one transaction."""

import same
from sides import assert_sound, told


def make_vault(program, vault, now, lives, right):
    """The program's own file with a merchant of two lives, where a caller has a right."""
    moment, names = ("--now", now), (right[0], same.MERCHANT, right[1])
    assert told(program, "merchant", *moment, vault, same.MERCHANT, *lives) == "done\n"
    assert told(program, "grant", *moment, vault, *names) == "done\n"


def fill(program, vault, tokens, rows):
    """Puts so many tokens into such a file: their rows of cards, of entries and of records. The program finds
    it sound afterwards. Tokens come in no order, so all pages are kept in memory until they are written."""
    conn = same.opened(vault)
    conn.execute("PRAGMA cache_size = -2097152")
    conn.execute("BEGIN")
    conn.execute("INSERT INTO counts VALUES (?1, ?2, ?3)", (same.MERCHANT, same.MADE, tokens))
    for statement, table in zip((same.PUT_CARD, same.ADD_ENTRY, same.ADD_RECORD), rows):
        conn.executemany(statement, table)
    conn.execute("COMMIT")
    conn.close()
    assert_sound(program, vault, tokens)
