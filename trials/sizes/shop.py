"""A shop with many tokens, each of another card number and with the record of its request."""

from model.cards import number_at, token_at
from model.vault import MULTI, RIGHTS, SINGLE, Entry, Merchant, Record
from shared import rows

NOW = 1000
LIFE = 60


def shop_rows(many, dead):
    """The rows of a shop with so many tokens, of which so many are dead as soon as they are moved; half are
    multi-use."""
    found = {("merchant", "shop1"): Merchant(LIFE, LIFE, 6, NOW)}
    for caller, right in (("till-1", "tokenize"), ("back", "purge")):
        found["right", caller, "shop1", RIGHTS[right]] = (None,)
    for place in range(1, many + 1):
        number = number_at(place)
        token, use = token_at(place, number), (SINGLE, MULTI)[place % 2]
        revoked = NOW if place <= dead else None
        found["entry", "shop1", token] = Entry(number, use, NOW - 1, NOW - 1 + LIFE, revoked)
        found["record", "till-1", place] = Record("shop1", token, use)
    return found


def made(path, many, dead):
    """A file of schema 1 with such a shop."""
    rows.write(path, shop_rows(many, dead), 1)
