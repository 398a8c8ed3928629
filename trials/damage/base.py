"""The files that are damaged: made by the program, at fixed moments and with fixed digits."""

from damage import rows
from shared import messages, shop
from shared.runs import must

# Card numbers that pass the check.
NUMBERS = ("4111111111111111", "5555555555554444", "378282246310005", "4222222222222", "6304000000000000000")


def make_small(program, file):
    """A vault with one merchant, one right, and a card number under a single-use and a multi-use token."""
    shop.made(program, file, 60, 100, shop.TILL, now=1000)
    for digit, request, use in ((0, 7, "single"), (1, 8, "multi")):
        asked = messages.token_asked(request, messages.order(use=use))
        must(program, "pipe", "--now", 1000, "--digits", digit, file, given=asked)
    rows.change(file, "PRAGMA wal_checkpoint(TRUNCATE)")


def orders():
    """Messages that ask for tokens of each use, each with its request number."""
    bodies = [messages.order(number, use) for number in NUMBERS for use in ("single", "multi", "single")]
    return [messages.token_asked(100 + place, body) for place, body in enumerate(bodies)]


def make_large(program, file, digits):
    """A vault with two merchants and some rights, of which some end. Of its tokens two are revoked and one is
    purged; a number was given, and another one denied."""
    shop.made(program, file, 600, 1000, shop.TILL | shop.BACK, now=1000)
    shop.made(program, file, 60, 0, shop.TILL, "shop2", now=1000, lead=8)
    shop.granted(program, file, shop.BACK, "shop2", now=1000, until=5000)
    given = must(program, "pipe", "--now", 1010, "--digits", digits, file, given=b"".join(orders())).out
    tokens = [answer.body.split(b'"')[5].decode() for answer in messages.answers_in(given)]
    tail = [messages.asked("POST", f"/v1/merchants/shop1/tokens/{token}/revoke") for token in tokens[:2]]
    tail.append(messages.asked("DELETE", f"/v1/merchants/shop1/tokens/{tokens[0]}"))
    tail += [messages.asked("POST", f"/v1/merchants/shop1/tokens/{tokens[place]}/number") for place in (1, 3)]
    tail.append(messages.token_asked(500, merchant="shop2"))
    must(program, "pipe", "--now", 1020, "--digits", digits, file, given=b"".join(tail))
    return tokens


def questions(tokens):
    """Messages by which a vault finds its rows by each index: each request again, each token shown, and new
    requests for numbers that have a card, of which some have a live multi-use token."""
    shown = [messages.asked("GET", f"/v1/merchants/shop1/tokens/{token}") for token in tokens]
    last = [messages.token_asked(500, merchant="shop2"), messages.asked("GET", "/v1/merchants/shop1/audit")]
    bodies = [messages.order(number, use) for number in NUMBERS for use in ("multi", "single")]
    new = [messages.token_asked(600 + place, body) for place, body in enumerate(bodies)]
    return b"".join((*orders(), *shown, *last, *new))
