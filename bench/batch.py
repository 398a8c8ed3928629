#!/usr/bin/env python3
"""Times a batch through the program: rows of card numbers in a file, a vault in another, lines in a third.
Beside it Python's csv reads the same rows and writes their lines, and its sqlite3 runs the same statements;
and the disk syncs as many pages.

batch.py [PROGRAM] times the built program, which is crates/vault_cli/out/vault_cli if it is left out. N is
how many rows a batch has (10000; 100000 is the most), and ROUNDS how many rounds there are (5), each side in
turn in each.
"""

import csv
import os
import pathlib
import subprocess
import sys
import tempfile
import time

sys.dont_write_bytecode = True
import figures  # noqa: E402, without leaving a folder of its bytecode here
import pipe  # noqa: E402
import same  # noqa: E402
import settings  # noqa: E402
from model import cards  # noqa: E402, which settings lets Python find
from sides import assert_sound  # noqa: E402

HEADER = ["request", "number", "use"]
FIRST_LINE = ["request", "answer", "detail"]


def write_rows(path, first, many):
    """Rows that each ask for a single-use token of another card number, by the requests from `first` on."""
    rows = ((first + place, cards.number_at(place), "single") for place in range(many))
    with open(path, "w", newline="") as file:
        csv.writer(file, lineterminator="\n").writerows((HEADER, *rows))


def batch(program, vault, asked, answers):
    """Answers the rows of a file into another one, and returns the seconds that the program ran."""
    with open(asked) as given, open(answers, "w") as taken:
        start = time.perf_counter()
        subprocess.run([program, "batch", vault, "till-1", "shop1"], stdin=given, stdout=taken, check=True)
        return time.perf_counter() - start


def tokenize(conn, merchant, request, number):
    """One row's statements."""
    token = cards.token_at(request, number)
    same.read(conn, request, token)
    same.write(conn, request, token, merchant, number)
    return request, token, merchant.moment + merchant.life


def answer_rows(conn, asked, answers):
    """Answers the rows of a file into another one, each line before the next row is read."""
    with open(asked, newline="") as given, open(answers, "w", newline="", buffering=1) as taken:
        reader, writer = csv.reader(given), csv.writer(taken, lineterminator="\n")
        assert next(reader) == HEADER
        writer.writerow(FIRST_LINE)
        merchant = same.Merchant(conn, same.CALLER, same.TOKENIZE)
        for request, number, use in reader:
            assert cards.passes(number) and use == "single"
            writer.writerow(tokenize(conn, merchant, int(request), number))


def assert_answered(program, vault, asked, answers):
    """Each row has a line with a token, and the file has them beside its first one, and is a sound vault."""
    with open(asked, newline="") as given, open(answers, newline="") as taken:
        rows, lines = list(csv.reader(given))[1:], list(csv.reader(taken))
    assert lines.pop(0) == FIRST_LINE and len(lines) == len(rows)
    for (request, number, _), (answered, token, _) in zip(rows, lines):
        assert answered == request and token[-4:] == number[-4:] and not cards.passes(token)
    assert_sound(program, vault, len(rows) + 1)


def time_vault(program, folder, asked, many):
    """The rows a second, with the program's start and the check of its file; and the seconds of a batch
    without a row, over the file that was filled."""
    vault, answers = folder / "vault.db", folder / "answers"
    pipe.made_vault(program, vault)
    os.sync()
    spent = batch(program, vault, asked, answers)
    assert_answered(program, vault, asked, answers)
    write_rows(folder / "none", 0, 0)
    return many / spent, batch(program, vault, folder / "none", folder / "no answers")


def time_python(program, folder, asked, many):
    """The rows a second of the same statements, without Python's start and the opening."""
    vault, answers = folder / "python.db", folder / "answers"
    pipe.made_vault(program, vault)
    conn = same.opened(vault)
    os.sync()
    start = time.perf_counter()
    answer_rows(conn, asked, answers)
    spent = time.perf_counter() - start
    conn.close()
    assert_answered(program, vault, asked, answers)
    return many / spent


def main(program):
    many, rounds = settings.number("N", 10000), settings.number("ROUNDS", 5)
    ours, theirs, ratios, disk, openings, loads = [], [], [], [], [], []
    for _ in range(rounds):
        with tempfile.TemporaryDirectory() as name:
            folder = pathlib.Path(name)
            asked = folder / "asked"
            write_rows(asked, 2, many)
            rate, opening = time_vault(program, folder, asked, many)
            ours.append(rate)
            openings.append(1000 * opening)
            theirs.append(time_python(program, folder, asked, many))
            ratios.append(ours[-1] / theirs[-1])
            disk.append(figures.time_disk(folder, many))
            loads.append(figures.load())
    print("| Rows | Vault, a second | Python, a second | Ratio | Syncs, a second | Opening, ms | Load |")
    print("|---|---|---|---|---|---|---|")
    digits = ((ours, 0), (theirs, 0), (ratios, 2), (disk, 0), (openings, 1), (loads, 1))
    print(f"| {many} | {' | '.join(figures.middle(found, places) for found, places in digits)} |")


if __name__ == "__main__":
    main(settings.program())
