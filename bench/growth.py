#!/usr/bin/env python3
"""Times the whole check of a file as the file grows, and takes its peak memory: by the program, and by
Python's sqlite3 with PRAGMA integrity_check. Of the program's check the opening of the file is timed alone.

growth.py [PROGRAM] times the built program, which is crates/vault_cli/out/vault_cli if it is left out.
ENTRIES says how many tokens a file has, a line of the table each (100000 1000000; 1000000 at most, as a
merchant may have), and ROUNDS how many rounds there are (5), each side in turn in each.
"""

import os
import pathlib
import shutil
import sys
import tempfile

sys.dont_write_bytecode = True
import figures  # noqa: E402, without leaving a folder of its bytecode here
import filled  # noqa: E402
import same  # noqa: E402
import settings  # noqa: E402
from model import cards  # noqa: E402, which settings lets Python find
from sides import timed, timed_check, timed_python_check  # noqa: E402

MOST = 1000000
MIB = 1048576

LIFE = 60
BIRTH = 1000
# A version that no schema has, as short in its row as one that is known; and how the program refuses it.
NO_VERSION = 99
NOT_OPENED = 3

COLUMNS = (
    ("Entries", "File, MiB")
    + ("`vault check`, s", "Its opening alone, s", "Python, s", "`vault check` / Python", "The rest / Python")
    + ("`vault check`, MiB", "Bytes a token", "Its opening alone, MiB", "Python, MiB")
    + ("Load", "Taken by the host, %")
)


def token_at(place):
    """The token at a place, of another card each; and its use, multi-use at every other place."""
    return cards.token_at(place, cards.number_at(place)), 1 + place % 2


def card_rows(many):
    for place in range(1, many + 1):
        yield place, same.MERCHANT, cards.number_at(place), 1


def entry_rows(many):
    """Entries that are live, the one at a place of the card with this id."""
    for place in range(1, many + 1):
        token, usage = token_at(place)
        yield same.MERCHANT, token, place, usage, BIRTH, BIRTH + LIFE, None


def record_rows(many):
    for place in range(1, many + 1):
        token, usage = token_at(place)
        yield same.CALLER, place, same.MERCHANT, token, usage


def make_files(program, folder, many):
    """A file with so many tokens, and a copy of it that the program refuses for its version."""
    vault, refused = folder / "vault.db", folder / "refused.db"
    filled.make_vault(program, vault, BIRTH, (LIFE, LIFE), (same.CALLER, "tokenize"))
    filled.fill(program, vault, many, (card_rows(many), entry_rows(many), record_rows(many)))
    shutil.copy(vault, refused)
    conn = same.opened(refused)
    conn.execute("UPDATE vault SET version = ?1 WHERE id = 1", (NO_VERSION,))
    conn.close()
    os.sync()
    return vault, refused


def timed_opening(program, refused, answers):
    """The seconds and the peak of a check that ends at the version. By then the program has opened the file,
    and has read no row of another table."""
    found = timed((program, "check", refused), os.devnull, answers, NOT_OPENED)
    assert answers.read_text() == f"vault: file not opened 30 {NO_VERSION}\n"
    return found


def time_sides(program, vault, refused, many):
    """The seconds and the peak of each side."""
    answers = vault.parent / "answers"
    whole = timed_check(program, vault, many, answers)
    return whole, timed_opening(program, refused, answers), timed_python_check(vault, many)


def time_file(program, folder, many, how_often):
    """Some rounds over one file, and its bytes; no side writes it. A round has the sides, the machine's load
    and the host's share."""
    vault, refused = make_files(program, folder, many)
    rounds = []
    for place in range(how_often):
        print(f"round {place + 1} of {how_often}: the check of {many}", file=sys.stderr, flush=True)
        sides, share = figures.watched(time_sides, program, vault, refused, many)
        rounds.append((sides, figures.load(), share))
    return rounds, vault.stat().st_size


def print_line(many, rounds, size):
    """The middle figures of some rounds, with the least and the greatest; of peaks the greatest."""
    sides, loads, shares = zip(*rounds)
    (ours, most), (openings, opening_most), (theirs, python_most) = map(seconds_and_peak, zip(*sides))
    ratios = [whole / python for whole, python in zip(ours, theirs)]
    rests = [(ours[i] - openings[i]) / theirs[i] for i in range(len(theirs))]
    cells = [many, f"{size / MIB:.1f}", figures.middle(ours, 3), figures.middle(openings, 3)]
    cells += [figures.middle(theirs, 3), figures.middle(ratios, 2), figures.middle(rests, 2)]
    cells += [f"{most:.1f}", f"{most * MIB / many:.0f}", f"{opening_most:.1f}", f"{python_most:.1f}"]
    figures.print_line(*cells, figures.middle(loads, 1), figures.middle(shares, 2))


def seconds_and_peak(side):
    """The seconds of a side in each round, and the greatest of its peaks."""
    seconds, peaks = zip(*side)
    return seconds, max(peaks)


def main(program):
    sizes, how_often = settings.numbers("ENTRIES", f"100000 {MOST}"), settings.number("ROUNDS", 5)
    assert not sizes or max(sizes) <= MOST, f"a merchant has {MOST} tokens at most"
    figures.print_head(f"The check of a file as it grows, {how_often} rounds", *COLUMNS)
    for many in sizes:
        with tempfile.TemporaryDirectory() as name:
            print_line(many, *time_file(program, pathlib.Path(name), many, how_often))


if __name__ == "__main__":
    main(settings.program())
