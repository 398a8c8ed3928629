"""Messages of one connection, and what each is answered byte for byte, at fixed moments and with fixed
digits."""

import itertools
from pathlib import Path

from model.vault import RIGHTS
from runs import cases
from runs.cases import ASKED, TOKEN, in_bytes
from shared import messages, shop
from shared.files import copied
from shared.runs import run
from shared.tally import unlike

TARGET = "/v1/merchants/shop1/tokens"
CLOSES = "Connection: close"
LARGE = "431 Request Header Fields Too Large"
BAD = "400 Bad Request"
ANSWERED = in_bytes(cases.ANSWERED)


def answer(status, body, *fields):
    """The bytes of an answer."""
    return in_bytes(cases.answer(status, body, *fields))


def refusal(status, number, *fields):
    """The answer of a refusal by this number."""
    return answer(status, f'{{"refused":{number}}}', *fields)


def asked(request):
    """A message of this method and target by `till-1`, without a body."""
    return f"{request} HTTP/1.1\r\nX-Vault-Caller: till-1\r\n\r\n".encode()


def token_asked(length, body):
    """A request for a token with this text as its length, and this body."""
    head = f"POST {TARGET} HTTP/1.1\r\nX-Vault-Caller: till-1\r\nX-Vault-Request: 7\r\n"
    return f"{head}Content-Length: {length}\r\n\r\n".encode() + body


def padded(many):
    """The worked message with a field whose value has so many bytes."""
    head, body = ASKED.split(b"\r\n\r\n")
    return head + b"\r\nPad: " + b"x" * many + b"\r\n\r\n" + body


# Targets that name nothing, and those that don't take a method, with the methods that they take.
TARGETS = (
    *((it, refusal("404 Not Found", 56)) for it in (
        "GET /v1/merchants/shop1",
        "POST /v1/merchants//tokens",
        "POST /v1/merchants/shop1/tokens?x=1",
        "GET /v1/merchants/shop1/tokens/",
        "GET *",
    )),
    *((it, refusal("405 Method Not Allowed", 57, f"Allow: {allow}")) for it, allow in (
        ("PUT /v1/merchants/shop1/audit", "GET"),
        ("HEAD /v1/merchants/shop1/audit", "GET"),
        ("get /v1/merchants/shop1/audit", "GET"),
        ("POST /v1/merchants/shop1/tokens/12", "GET, DELETE"),
        ("DELETE /v1/merchants/shop1/tokens", "POST"),
        ("GET /v1/merchants/shop1/tokens", "POST"),
        ("GET /v1/merchants/shop1/tokens/12/number", "POST"),
        ("GET /v1/merchants/shop1/tokens/12/revoke", "POST"),
    )),
)
# Heads of which a field or a name is wrong, and the number of the refusal.
HEADS = (
    ("GET /v1/merchants/shop1/audit HTTP/1.1", 58),
    ("GET /v1/merchants/shop1/audit HTTP/1.1\r\nX-Vault-Caller: till-1\r\nx-vault-caller: till-1", 58),
    ("GET /v1/merchants/shop1/audit HTTP/1.1\r\nX-Vault-Caller: Till-1", 4),
    ("GET /v1/merchants/Shop1/audit HTTP/1.1\r\nX-Vault-Caller: till-1", 4),
    ("GET /v1/merchants/shop1/tokens/4111111111111111 HTTP/1.1\r\nX-Vault-Caller: till-1", 3),
    ("POST /v1/merchants/shop1/tokens HTTP/1.1\r\nX-Vault-Caller: till-1", 58),
    ("POST /v1/merchants/shop1/tokens HTTP/1.1\r\nX-Vault-Caller: till-1\r\nX-Vault-Request: 07", 5),
)
# Bodies that give no command, and the number of the refusal.
BODIES = (
    (b"", 59),
    (b'{"number":"4111111111111111"}', 59),
    (b'{"number":4111111111111111,"use":"single"}', 59),
    (b'{"number":"4111111111111111","use":"single","x":""}', 59),
    (b'{"number":"4111 ","use":"single"}', 1),
    (b'{"number":"4111111111111112","use":"single"}', 2),
    (b'{"number":"4111111111111111","use":"once"}', 19),
    (b"[" * 200, 59),
    (b'"\xff', 59),
)
# Texts of the field Content-Length, and what each is answered.
LENGTHS = (
    ("+44", BAD, 52), ("44, 44", BAD, 52), ("", BAD, 52), ("4 4", BAD, 52), ("0x2c", BAD, 52),
    ("4097", "413 Payload Too Large", 54), ("99999999999999999999999", "413 Payload Too Large", 54),
)
TWO_LENGTHS = b"POST / HTTP/1.1\r\nContent-Length: 44\r\nContent-Length: 44\r\n\r\n"
CODED = b"POST / HTTP/1.1\r\nTransfer-Encoding: identity\r\nContent-Length: 1\r\nContent-Length: 2\r\n\r\n"
OLD = ASKED.replace(b"HTTP/1.1", b"HTTP/1.0").replace(b"Host: vault\r\n", b"")
DOUBLED = b'{"number":"4111","number":"4111111111111111","use":"single"}'
UNREAD = b"GET / HTTP/1.1\r\nContent-Length: +44\r\n\r\n"

# What a connection sends, and what comes back.
CASES = (
    *((request, asked(request), answered) for request, answered in TARGETS),
    *((head, f"{head}\r\n\r\n".encode(), refusal(BAD, number)) for head, number in HEADS),
    *((repr(body[:60]), token_asked(len(body), body), refusal(BAD, number)) for body, number in BODIES),
    *((f"a length {it}", token_asked(it, b""), refusal(*refused, CLOSES)) for it, *refused in LENGTHS),
    ("a length 044", token_asked("044", messages.order()), ANSWERED),
    ("two lengths", TWO_LENGTHS, refusal(BAD, 52, CLOSES)),
    ("a coding", CODED, refusal("411 Length Required", 53, CLOSES)),
    ("a doubled member, of which the last counts", token_asked(len(DOUBLED), DOUBLED), ANSWERED),
    ("a field without a colon", b"POST / HTTP/1.1\r\nA b\r\n\r\n", refusal(BAD, 50, CLOSES)),
    ("33 fields", b"GET / HTTP/1.1\r\n" + b"A: b\r\n" * 33 + b"\r\n", refusal(LARGE, 51, CLOSES)),
    ("a head of 8192 bytes", padded(8064), ANSWERED),
    ("a head of a byte more", padded(8065), refusal(LARGE, 51, CLOSES)),
    ("a fault behind a message", ASKED + UNREAD + ASKED, ANSWERED + refusal(BAD, 52, CLOSES)),
    ("the worked message", ASKED, ANSWERED),
    ("two messages", ASKED * 2, ANSWERED * 2),
    ("a message that is cut short", (ASKED * 2)[:-9], ANSWERED),
    ("nothing", b"", b""),
    ("HTTP/1.0, which ends with its first answer", OLD * 2, answer("200 OK", TOKEN, CLOSES)),
    ("a thousand messages", b"GET / HTTP/1.1\r\n\r\n" * 1000, refusal("404 Not Found", 56) * 1000),
)

# Connections to one shop, one after the other: the moment, the digit that is drawn, how many times the
# message comes, the message, and the status line and the body of each answer; or words that say `done`.
FIRST = f"1000 0 1 worked = 200 OK = {TOKEN}"
SHOWN = '{"birth":1000,"expires":1060,"masked":"411111******1111","state":"live","use":"single"}'
WHOLE = '{"number":"4111111111111111"}'
SCRIPTS = {
    "a repeat on another connection": (FIRST, f"1050 1 1 worked = 200 OK = {TOKEN}"),
    "a token is shown and counted": (
        FIRST,
        f"1000 0 1 GET {TARGET}/0000000000001111 = 200 OK = {SHOWN}",
        f"1060 0 1 GET {TARGET}/0000000000001111 = 200 OK = {SHOWN.replace('live', 'expired')}",
        '1060 0 1 GET /v1/merchants/shop1/audit = 200 OK = {"denied":0,"given":0,"made":1}',
    ),
    "a token is shown with the lead of now": (
        FIRST,
        "merchant --now 1000 --lead 8 FILE shop1 60 0",
        f"1000 0 1 GET {TARGET}/0000000000001111 = 200 OK = {SHOWN.replace('11******', '1111****')}",
        "merchant --now 1000 FILE shop1 60 0",
        f"1000 0 1 GET {TARGET}/0000000000001111 = 200 OK = {SHOWN}",
    ),
    "a right lasts until its end": (
        FIRST,
        "grant --now 1000 --until 1030 FILE till-1 shop1 detokenize",
        f"1029 0 1 POST {TARGET}/0000000000001111/number = 200 OK = {WHOLE}",
        '1029 0 1 GET /v1/merchants/shop1/audit = 200 OK = {"denied":0,"given":1,"made":1}',
        f'1030 0 1 POST {TARGET}/0000000000001111/number = 403 Forbidden = {{"refused":8}}',
        '1030 0 1 GET /v1/merchants/shop1/audit = 200 OK = {"denied":1,"given":1,"made":1}',
        f'1010 0 1 POST {TARGET}/0000000000001111/number = 403 Forbidden = {{"refused":8}}',
        '1010 0 1 GET /v1/merchants/shop1/audit = 200 OK = {"denied":2,"given":1,"made":1}',
        "grant --now 1031 FILE till-1 shop1 detokenize",
        f"1031 0 1 POST {TARGET}/0000000000001111/number = 200 OK = {WHOLE}",
        '1031 0 1 GET /v1/merchants/shop1/audit = 200 OK = {"denied":2,"given":2,"made":1}',
    ),
    "a number is given until its token is revoked": (
        FIRST,
        f"1059 0 1 POST {TARGET}/0000000000001111/number = 200 OK = {WHOLE}",
        f'1059 0 1 POST {TARGET}/0000000000001111/revoke = 200 OK = {{"done":true}}',
        f'1059 0 1 POST {TARGET}/0000000000001111/number = 410 Gone = {{"refused":15}}',
        '1059 0 1 GET /v1/merchants/shop1/audit = 200 OK = {"denied":1,"given":1,"made":1}',
    ),
    "a number is purged once its token is dead, and again": (
        FIRST,
        f'1059 0 1 DELETE {TARGET}/0000000000001111 = 409 Conflict = {{"refused":17}}',
        f'1060 0 2 DELETE {TARGET}/0000000000001111 = 200 OK = {{"done":true}}',
        f'1060 0 1 GET {TARGET}/0000000000001111 = 410 Gone = {{"refused":14}}',
        '1060 0 1 GET /v1/merchants/shop1/audit = 200 OK = {"denied":0,"given":0,"made":1}',
    ),
    "what the vault refuses": (
        FIRST,
        '1000 0 1 guest = 403 Forbidden = {"refused":8}',
        '1000 0 1 GET /v1/merchants/nobody/audit = 404 Not Found = {"refused":7}',
        f'1000 0 1 GET {TARGET}/1111111111111111 = 404 Not Found = {{"refused":13}}',
        f'1060 0 1 POST {TARGET}/0000000000001111/number = 410 Gone = {{"refused":16}}',
    ),
}
# Messages that have a name; the guest has no right.
NAMED = {
    "worked": ASKED,
    "guest": f"POST {TARGET}/0000000000001111/number HTTP/1.1\r\nX-Vault-Caller: guest\r\n\r\n".encode(),
}


def made(program, file):
    """A shop with a single life of 60, at which `till-1` has all rights from 1000 on."""
    shop.made(program, file, 60, 0, {"till-1": tuple(RIGHTS)}, now=1000)
    return file


def fault_of(ran, answered):
    """What is wrong with a run that has to answer these bytes."""
    return unlike((ran.status, ran.out, ran.told), (0, answered, ""))


def fault_of_line(program, file, line):
    """What is wrong with a line of a script."""
    if " = " not in line:
        ran = run(program, *(file if it == "FILE" else it for it in line.split()))
        return fault_of(ran, b"done\n")
    request, status, body = line.split(" = ")
    now, digit, times, request = request.split(" ", 3)
    text = NAMED.get(request) or asked(request)
    ran = run(program, "pipe", "--now", now, "--digits", digit, file, given=text * int(times))
    return fault_of(ran, answer(status, body) * int(times))


def judged(tally, program):
    """All connections, each to a shop of its own."""
    whole, files = made(program, Path("whole.db")), (Path(f"shop{it}.db") for it in itertools.count())
    for name, text, answered in CASES:
        ran = run(program, "pipe", "--now", 1000, "--digits", 0, copied(whole, next(files)), given=text)
        tally.judge(name, fault_of(ran, answered), "connections")
    for name, lines in SCRIPTS.items():
        file = copied(whole, next(files))
        for line in lines:
            tally.judge(f"{name}: {line}", fault_of_line(program, file, line), "lines of scripts")
