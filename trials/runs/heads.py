"""Heads of messages: their fields, their limits, and whether the connection ends behind them."""

from runs.cases import tried
from runs.connections import BAD, CLOSES, LARGE, fault_of, refusal
from shared import messages
from shared.tally import unlike

# The head's first line, and the body of 44 bytes.
LINE = b"POST /v1/merchants/shop1/tokens HTTP/1.1\r\n"
BODY = messages.order()
# A whole message without a caller is refused by that alone; one that names nothing, by its target.
CALLERLESS, NAMELESS = refusal(BAD, 58), refusal("404 Not Found", 56)
# What makes no head, and what makes one that is too large.
NO_HEAD, TOO_LARGE = refusal(BAD, 50, CLOSES), refusal(LARGE, 51, CLOSES)
# Bodies of which the length isn't known, have a coding, or are too long.
NO_LENGTH, CODED = refusal(BAD, 52, CLOSES), refusal("411 Length Required", 53, CLOSES)
TOO_LONG = refusal("413 Payload Too Large", 54, CLOSES)

# Field lines between the first line and the body, and what is answered.
FIELDS = (
    (b"A b", NO_HEAD),
    (b"Transfer-Encoding: identity\r\nContent-Length: 44\r\nContent-Length: 44", CODED),
    (b"Content-Length: 44\r\ncontent-length: 44", NO_LENGTH),
    (b"Content-Length: +44", NO_LENGTH),
    (b"Content-Length: 44, 44", NO_LENGTH),
    (b"Content-Length:", NO_LENGTH),
    (b"Content-Length: 4097", TOO_LONG),
    (b"Content-Length: 99999999999999999999999", TOO_LONG),
    (b"Content-Length: 044", CALLERLESS),
    (b"CONTENT-LENGTH:\t 44 \t", CALLERLESS),
    # without a length the message is whole, and its body would be the next head
    (b"Host: vault", CALLERLESS + NO_HEAD),
)
# How many fields a head has.
COUNTS = ((32, CALLERLESS), (33, TOO_LARGE))
# How many bytes the last field of a head has, and how many the head has then.
PADDINGS = ((8141, 8192, CALLERLESS), (8142, 8193, TOO_LARGE))
# Messages, and whether the connection ends behind each, so that the same one isn't answered again.
CLOSING = (
    (b"GET / HTTP/1.1\r\nConnection: Keep-Alive, CLOSE\r\n\r\n", True),
    (b"GET / HTTP/1.1\r\nConnection: a\r\nConnection:\tclose\t,\r\n\r\n", True),
    (b"GET / HTTP/1.0\r\nConnection: keep-alive\r\n\r\n", True),
    (b"GET / HTTP/1.1\r\nConnection: keep-alive\r\n\r\n", False),
    (b"GET / HTTP/1.1\r\nConnection: closed, not close\r\n\r\n", False),
    (b"GET / HTTP/1.1\r\nHost: close\r\n\r\n", False),
)


def padded(many):
    """A head whose last field has so many bytes."""
    return LINE + b"Pad: " + b"a" * many + b"\r\n\r\n"


def judged(tally, program):
    """Each text has a trial of its own."""

    def judge(name, text, answered):
        tally.judge(f"heads: {name}", fault_of(tried(program, "0", text), answered))

    for fields, answered in FIELDS:
        judge(f"the fields {fields!r}", LINE + fields + b"\r\n\r\n" + BODY, answered)
    for many, answered in COUNTS:
        judge(f"{many} fields", LINE + b"A: b\r\n" * many + b"\r\n", answered)
    for many, length, answered in PADDINGS:
        tally.judge(f"heads: the length with {many} bytes", unlike(len(padded(many)), length))
        judge(f"{length} bytes", padded(many), answered)
    for text, closes in CLOSING:
        answered = refusal("404 Not Found", 56, CLOSES) if closes else NAMELESS * 2
        judge(f"twice {text!r}", text * 2, answered)
