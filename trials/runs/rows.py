"""Rows of batches by `till-1` at `shop1`, and the lines that they are answered, at fixed moments and with
fixed digits."""

import itertools
from pathlib import Path

from shared import shop
from shared.files import copied
from shared.runs import run
from shared.tally import unlike

HEADER, FIRST_LINE = b"request,number,use\n", b"request,answer,detail\n"
ROW, TOKEN = b"1,4111111111111111,single\n", b"1,0000000000001111,1060\n"
NEXT = ROW.replace(b"1", b"2", 1)
MARK = "\ufeff".encode()
WORKED = (
    HEADER + ROW + b"2,4111 1111 1111 1112,single\nx,4111111111111111,single\n3,0000000000,single\n" + ROW,
    FIRST_LINE + TOKEN + b"2,refused,2\n0,refused,5\n3,refused,12\n" + TOKEN,
)
# Rows alone, and the line of the first refusal that applies to each.
REFUSED = (
    (b"07,4111,once", b"0,refused,5\n"),
    (b"9223372036854775808,4111,once", b"0,refused,5\n"),
    (b",,", b"0,refused,5\n"),
    (b"7,4111,once", b"7,refused,1\n"),
    (b"7, 4111111111111111,single", b"7,refused,1\n"),
    (b"7,4111111111111112,once", b"7,refused,2\n"),
    (b"7,4111111111111111,once", b"7,refused,19\n"),
    (b"7,4111111111111111,multi", b"7,refused,9\n"),
    # a field is no text
    (b"\xff,4111111111111111,single", b"0,refused,5\n"),
    (b"7,\xff,single", b"7,refused,1\n"),
    (b"7,4111111111111111,\xff", b"7,refused,19\n"),
)
# Two rows in the forms that lines may have, and their lines.
PLAIN = FIRST_LINE + TOKEN + b"2,refused,1\n"
FORMS = (
    HEADER + ROW + b"2,4111,single\n",
    (HEADER + ROW + b"2,4111,single\n").replace(b"\n", b"\r\n"),
    HEADER + ROW + b"\n\n2,4111,single",
    MARK + HEADER + ROW + b"2,4111,single\n",
    MARK + b'"request",number,use\n1,"4111111111111111",single\n2,"41\n11","single"\n',
)
# Texts that don't begin with the header: nothing is answered.
HEADLESS = (
    b"",
    b"\n\n",
    b"request,number\n1,4111111111111111\n",
    b"request,number,use,x\n",
    b"Request,number,use\n" + ROW,
    b" request,number,use\n",
    MARK + MARK + HEADER,
    ROW,
)
# A row, and a record behind it that has more than three fields or fewer.
SHORT = (
    HEADER + ROW + b"2,4111111111111111\n3,1,single\n",
    HEADER + ROW + b"2,4111111111111111,single,\n",
    HEADER + ROW + b'""\n',
)
# What a batch reads at 1000 with digits 0, what it says, its status, and what is said of its end: all rows
# got a token, or some were refused, or it stopped.
DONE, SOME, STOPPED = 0, 1, 4
CASES = (
    ("the worked rows", *WORKED, SOME, ""),
    *((f"a row {row!r}", HEADER + row, FIRST_LINE + line, SOME, "") for row, line in REFUSED),
    *((f"a form {text[:40]!r}", text, PLAIN, SOME, "") for text in FORMS),
    ("a header", HEADER, FIRST_LINE, DONE, ""),
    ("a header without a line's end", HEADER[:-1], FIRST_LINE, DONE, ""),
    ("a thousand rows", HEADER + ROW * 1000, FIRST_LINE + TOKEN * 1000, DONE, ""),
    *((f"no header: {text[:30]!r}", text, b"", STOPPED, "stopped 40") for text in HEADLESS),
    *((f"other fields: {text[45:]!r}", text, FIRST_LINE + TOKEN, STOPPED, "stopped 44") for text in SHORT),
)
# Batches that follow one another in a shop: the moment, the digit, the rows, and the lines.
AGAIN = (
    (1000, 0, ROW + NEXT, TOKEN + b"2,refused,12\n"),
    (1005, 1, ROW + NEXT, TOKEN + b"2,1111111111111111,1065\n"),
)
# The last second of a right and the first one behind it: a new row is refused, and a repeat isn't.
LATER = b"1,0000000000001111,1089\n"
ENDING = ((1029, 0, ROW, LATER), (1030, 1, ROW + NEXT + ROW, LATER + b"2,refused,8\n" + LATER))


def made(program, file, until=None):
    """A shop with a single life of 60, at which `till-1` may ask for tokens from 1000 on."""
    shop.made(program, file, 60, 0, {}, now=1000)
    shop.granted(program, file, shop.TILL, now=1000, until=until)
    return file


def fault_of(ran, status, lines, told=""):
    """What is wrong with a batch that has to end so. What it counts at its end isn't told here."""
    return unlike((ran.status, ran.out, ran.told), (status, lines, told))


def batch(program, file, now, digit, text):
    return run(program, "batch", "--now", now, "--digits", digit, file, "till-1", "shop1", given=text)


def judged(tally, program):
    """All batches, each at a shop of its own, and those that follow one another."""
    files = (Path(f"rows{it}.db") for it in itertools.count())
    whole, ending = made(program, next(files)), made(program, next(files), until=1030)
    for name, text, lines, status, told in CASES:
        ran = batch(program, copied(whole, next(files)), 1000, 0, text)
        tally.judge(name, fault_of(ran, status, lines, told), "batches")
    for name, file, steps in (("a batch again", whole, AGAIN), ("a right that ends", ending, ENDING)):
        file = copied(file, next(files))
        for now, digit, text, lines in steps:
            ran = batch(program, file, now, digit, HEADER + text)
            status = SOME if b"refused" in lines else DONE
            tally.judge(f"{name}, at {now}", fault_of(ran, status, FIRST_LINE + lines), "batches")
