"""Worked messages, byte for byte, and what is refused."""

from runs.cases import ANSWERED, ASKED, TOKEN, Case, answer, fault_of, tried
from shared.messages import order
from shared.tally import unlike

# Digits, a number, and the status line and the body that it is answered with.
NUMBERS = (
    ("0", "4111111111111111", "200 OK", TOKEN),
    # separators are no part of the number
    ("0", "4111 1111-1111 1111", "200 OK", TOKEN),
    # a text that is no card number is refused
    ("0", "4111  111111111111", "400 Bad Request", '{"refused":1}'),
    ("0", "", "400 Bad Request", '{"refused":1}'),
    ("0", "63040000000000000000", "400 Bad Request", '{"refused":1}'),
    # a wrong check digit is refused
    ("0", "4111111111111112", "400 Bad Request", '{"refused":2}'),
    # where every candidate passes there is none
    ("0", "0000000000", "503 Service Unavailable", '{"refused":12}'),
    # a number of 19 digits gets a token
    ("100000000000000", "6304000000000000000", "200 OK", '{"expires":1060,"token":"1000000000000000000"}'),
    # a candidate that passes the check is skipped
    ("411111111111000000000000000000", "4111111111111111", "200 OK", TOKEN),
)
# Input without a whole message.
CUT = (
    "",
    "POST /v1/merchants/shop1/tokens HTTP/1.1\r\nContent-Length: 9\r\n\r\n{",
)
# A field that says that the connection closes.
CLOSES = "Connection: close"
# Messages, and the status line, the further fields and the refusal that each is answered with.
REFUSED = (
    # a fault of the bytes is answered and closes
    ("POST / HTTP/1.1\r\nA b\r\n\r\n", "400 Bad Request", (CLOSES,), 50),
    ("POST / HTTP/1.1\r\nTransfer-Encoding: chunked\r\n\r\n", "411 Length Required", (CLOSES,), 53),
    # a length that is wrong is answered and closes
    (
        "POST / HTTP/1.1\r\nContent-Length: 44\r\nContent-Length: 44\r\n\r\n",
        "400 Bad Request",
        (CLOSES,),
        52,
    ),
    ("POST / HTTP/1.1\r\nContent-Length: 4097\r\n\r\n", "413 Payload Too Large", (CLOSES,), 54),
    # another target or method is refused
    ("GET /v1/merchants/shop1 HTTP/1.1\r\n\r\n", "404 Not Found", (), 56),
    ("PUT /v1/merchants/shop1/tokens HTTP/1.1\r\n\r\n", "405 Method Not Allowed", ("Allow: POST",), 57),
    # a missing field is refused, and the connection closes where asked
    ("POST /v1/merchants/shop1/tokens HTTP/1.0\r\n\r\n", "400 Bad Request", (CLOSES,), 58),
    # names, requests, bodies and uses are refused by number
    (
        "POST /v1/merchants/Shop1/tokens HTTP/1.1\r\nX-Vault-Caller: till-1\r\n\r\n",
        "400 Bad Request",
        (),
        4,
    ),
    (
        "POST /v1/merchants/shop1/tokens HTTP/1.1\r\nX-Vault-Caller: till-1\r\nX-Vault-Request: 07\r\n\r\n",
        "400 Bad Request",
        (),
        5,
    ),
    (
        "POST /v1/merchants/shop1/tokens HTTP/1.1\r\nX-Vault-Caller: till-1\r\nX-Vault-Request: 7\r\n\r\n",
        "400 Bad Request",
        (),
        59,
    ),
    (
        "POST /v1/merchants/shop1/tokens HTTP/1.1\r\nX-Vault-Caller: till-1\r\n"
        "X-Vault-Request: 7\r\nContent-Length: 42\r\n\r\n"
        '{"number":"4111111111111111","use":"once"}',
        "400 Bad Request",
        (),
        19,
    ),
    # another merchant and another caller are refused
    (
        "POST /v1/merchants/shop2/tokens HTTP/1.1\r\nX-Vault-Caller: till-1\r\n"
        "X-Vault-Request: 7\r\nContent-Length: 44\r\n\r\n"
        '{"number":"4111111111111111","use":"single"}',
        "404 Not Found",
        (),
        7,
    ),
    (
        "POST /v1/merchants/shop1/tokens HTTP/1.1\r\nX-Vault-Caller: guest\r\n"
        "X-Vault-Request: 7\r\nContent-Length: 44\r\n\r\n"
        '{"number":"4111111111111111","use":"single"}',
        "403 Forbidden",
        (),
        8,
    ),
    # a use that is not offered is refused
    (
        "POST /v1/merchants/shop1/tokens HTTP/1.1\r\nX-Vault-Caller: till-1\r\n"
        "X-Vault-Request: 7\r\nContent-Length: 43\r\n\r\n"
        '{"number":"4111111111111111","use":"multi"}',
        "422 Unprocessable Entity",
        (),
        9,
    ),
)


def asking(number):
    """A message that asks for a token of a number."""
    body = order(number).decode()
    return (
        "POST /v1/merchants/shop1/tokens HTTP/1.1\r\nHost: vault\r\nX-Vault-Caller: till-1\r\n"
        f"X-Vault-Request: 7\r\nContent-Length: {len(body)}\r\n\r\n{body}"
    )


def judged(tally, program):
    """Each message has a trial of its own, which ends with 0 and is silent on the errors."""
    case = Case(tally, program, "the worked message is answered byte for byte")
    case.judge("its length", unlike(len(ASKED), 165))
    case.judge("its answer", fault_of(tried(program, "0", ASKED), 0, ANSWERED, ""))
    case = Case(tally, program, "numbers are answered with a token or a refusal")
    for place, (digits, number, status, body) in enumerate(NUMBERS, 1):
        fault = fault_of(tried(program, digits, asking(number)), 0, answer(status, body), "")
        case.judge(f"row {place}, {number!r} with the digits {digits}", fault)
    case = Case(tally, program, "input without a whole message is not answered")
    for cut in CUT:
        case.judge(f"{len(cut)} bytes", fault_of(tried(program, "0", cut), 0, "", ""))
    case = Case(tally, program, "messages are refused by number")
    for place, (asked, status, fields, number) in enumerate(REFUSED, 1):
        wanted = answer(status, f'{{"refused":{number}}}', *fields)
        fault = fault_of(tried(program, "0", asked), 0, wanted, "")
        case.judge(f"row {place}, {number}: {asked!r}", fault)
