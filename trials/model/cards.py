"""Card numbers: the card check, what is shown of a number, the tokens that fit one, and some to ask with."""

import re

FIRST = "4111111111111111"
DOUBLED = bytes.maketrans(b"0123456789", b"0246813579")


def remainder(digits):
    """What the card check leaves of digits: each second one from the right counts twice, less nine where
    that has two digits."""
    codes = digits.encode()
    return (sum(codes[::-2]) + sum(codes[-2::-2].translate(DOUBLED)) - 48 * len(codes)) % 10


def passes(digits):
    """Whether digits pass the card check."""
    return remainder(digits) == 0


def completed(front):
    """The digits with a last one behind them, so that all pass the card check."""
    return f"{front}{-remainder(front + '0') % 10}"


def mask(number, lead):
    """A number as a View shows it: with at most as many first digits as the lead says, and its last four."""
    most = len(number) - (10 if lead == 6 else 8)
    shown = max(0, min(lead, most))
    return number[:shown] + "*" * (len(number) - shown - 4) + number[-4:]


def fits(token, number):
    """Whether a text may be a token of the number."""
    alike = len(token) == len(number) and token[-4:] == number[-4:]
    return alike and token.isascii() and token.isdigit() and not passes(token)


def number_at(place):
    """A card number of 16 digits, another one for each place below 10 ** 9; they come in no order."""
    return completed(f"411111{place * 618033989 % 10**9:09}")


def token_at(place, number):
    """A token of such a number: the place's digits backwards, one more digit, and the card's last four."""
    front = f"{place:011}"[::-1]
    first = f"{front}0{number[-4:]}"
    return f"{front}1{number[-4:]}" if passes(first) else first


def drawn(random):
    """A card number of 10 to 19 digits, often the first one, or one of a few."""
    if random.random() < 0.2:
        return FIRST
    if random.random() < 0.3:
        return completed(f"411111{random.randrange(8):05}1111")
    size = random.choice((10, 13, 15, 16, 16, 16, 19))
    return completed("".join(random.choices("0123456789", k=size - 1)))


def hidden(text):
    """A text in which each card number shows its last four digits alone."""
    return re.sub(r"[0-9]{10,}", lambda it: f"..{it[0][-4:]}" if passes(it[0]) else it[0], str(text))
