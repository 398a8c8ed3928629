"""Several messages of one input."""

from runs.cases import ANSWERED, ASKED, Case, answer, fault_of, tried
from shared.tally import unlike

# The worked message, in a text.
FIRST = ASKED.decode()
BODY = '{"number":"4111111111111111","use":"single"}'
# The worked message by another request number.
NEXT = (
    "POST /v1/merchants/shop1/tokens HTTP/1.1\r\nX-Vault-Caller: till-1\r\n"
    f"X-Vault-Request: 8\r\nContent-Length: 44\r\n\r\n{BODY}"
)
# Its answer, where other digits are drawn.
OTHER = answer("200 OK", '{"expires":1060,"token":"1000000000001111"}')
# A message that closes its connection, and its answer.
LAST = (
    "POST /v1/merchants/shop1/tokens HTTP/1.0\r\nX-Vault-Caller: till-1\r\n"
    f"X-Vault-Request: 7\r\nContent-Length: 44\r\n\r\n{BODY}"
)
CLOSED = (
    "HTTP/1.1 200 OK\r\nContent-Type: application/json\r\nContent-Length: 43\r\n"
    'Connection: close\r\n\r\n{"expires":1060,"token":"0000000000001111"}'
)
# A head that can't be read, and its answer.
BAD = "POST / HTTP/1.1\r\nA b\r\n\r\n"
BAD_HEAD = (
    "HTTP/1.1 400 Bad Request\r\nContent-Type: application/json\r\nContent-Length: 14\r\n"
    'Connection: close\r\n\r\n{"refused":50}'
)
# What is told of two messages, the digits of a trial, both messages, and both answers.
TWO = (
    ("the same message twice is answered twice", "0", (FIRST, FIRST), (ANSWERED, ANSWERED)),
    (
        "each message finds what those before it left",
        "000000000000000100000000000000",
        (FIRST, NEXT),
        (ANSWERED, OTHER),
    ),
    ("after a message that closes nothing is answered", "0", (LAST, LAST), (CLOSED, "")),
    ("a second message that is cut is not answered", "0", (FIRST, FIRST[:164]), (ANSWERED, "")),
    ("a fault after a message is answered too", "0", (FIRST, BAD), (ANSWERED, BAD_HEAD)),
)
# A message without a route, and its answer.
NO_ROUTE = "GET / HTTP/1.1\r\n\r\n"
NOT_FOUND = answer("404 Not Found", '{"refused":56}')
# The head of a message, without its end.
HEAD = (
    "POST /v1/merchants/shop1/tokens HTTP/1.1\r\nX-Vault-Caller: till-1\r\n"
    "X-Vault-Request: 7\r\nContent-Length: 4096\r\nX-Pad: "
)
# A message whose head has 8192 bytes and whose body has 4096.
LONGEST = f"{HEAD}{'a' * (8188 - len(HEAD))}\r\n\r\n{BODY}{' ' * (4096 - len(BODY))}"


def judged(tally, program):
    """Each input has a trial of its own."""
    for name, digits, asked, wanted in TWO:
        fault = fault_of(tried(program, digits, "".join(asked)), 0, "".join(wanted), "")
        Case(tally, program, name).judge("both", fault)
    case = Case(tally, program, "the 1001st message stops with 60")
    wanted = NOT_FOUND * 1000
    case.judge("a thousand", fault_of(tried(program, "0", NO_ROUTE * 1000), 0, wanted, ""))
    ran = tried(program, "0", NO_ROUTE * 1001)
    case.judge("one more", fault_of(ran, 4, wanted, "vault: stopped 60\n"))
    case = Case(tally, program, "the longest head and body are answered")
    case.judge("their length", unlike(len(LONGEST), 12288))
    case.judge("their answer", fault_of(tried(program, "0", LONGEST), 0, ANSWERED, ""))
