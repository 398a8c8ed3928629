"""What messages ask for, and how those that ask for nothing are refused: by targets, heads and bodies. All
answers are judged byte for byte, at fixed moments and with fixed digits."""

import sqlite3
from pathlib import Path
from typing import NamedTuple

from model.vault import RIGHTS
from runs import connections
from runs.cases import ASKED
from runs.connections import ANSWERED, BAD, CLOSES, LARGE, SHOWN, TARGET, WHOLE
from runs.connections import answer, asked, refusal, token_asked
from shared import messages, shop
from shared.files import copied
from shared.runs import must, run

# The worked token, the places about it, and the counts of its merchant.
ONE = f"{TARGET}/0000000000001111"
NUMBER, REVOKE = f"{ONE}/number", f"{ONE}/revoke"
AUDIT = "/v1/merchants/shop1/audit"
# What is answered about a live token that was asked for and not used since.
VIEWED, GIVEN = answer("200 OK", SHOWN), answer("200 OK", WHOLE)
DONE, LIVE = answer("200 OK", '{"done":true}'), refusal("409 Conflict", 17)
COUNTED = answer("200 OK", '{"denied":0,"given":0,"made":1}')
NAMELESS, UNENTITLED = refusal("404 Not Found", 56), refusal("403 Forbidden", 8)


def refused_method(allow):
    """The answer to a method that a place doesn't take, with those that it takes."""
    return refusal("405 Method Not Allowed", 57, f"Allow: {allow}")


def ordered(body):
    """A request for a token with this body."""
    return token_asked(len(body), body)


class Asked(NamedTuple):
    """What a connection sends, what comes back, and the shop and the moment at which it is asked."""

    name: str
    text: bytes
    answered: bytes
    shop: str = "sold"
    now: int = 1000


# Targets, and the methods that each takes with their answers. The first message lacks a request number.
TARGETS = (
    (TARGET, {"POST": refusal(BAD, 58)}),
    (ONE, {"GET": VIEWED, "DELETE": LIVE}),
    (NUMBER, {"POST": GIVEN}),
    (REVOKE, {"POST": DONE}),
    (AUDIT, {"GET": COUNTED}),
)
# Methods in both cases.
METHODS = ("GET", "POST", "DELETE", "PUT", "get", "post", "delete")
# Messages about a token, the right that each asks for, and what is answered by it.
RIGHTS_OF = (
    ("GET", ONE, "view", VIEWED),
    ("DELETE", ONE, "purge", LIVE),
    ("POST", NUMBER, "detokenize", GIVEN),
    ("POST", REVOKE, "revoke", DONE),
)
# A request for a card number.
IN_BOTH_CASES = f"POST {NUMBER} HTTP/1.1\r\nx-vault-CALLER: till-1\r\n\r\n".encode()
# Targets, the methods of the place that each names, and a method that it takes with its answer.
NAMING = (
    (TARGET, "POST", "POST", refusal(BAD, 58)),
    (f"{TARGET}/12", "GET, DELETE", "GET", refusal(BAD, 3)),
    (f"{TARGET}/12/number", "POST", "POST", refusal(BAD, 3)),
    (f"{TARGET}/12/revoke", "POST", "POST", refusal(BAD, 3)),
    # what stands for the token is `number`, which is none
    (f"{TARGET}/number", "GET, DELETE", "GET", refusal(BAD, 3)),
    (AUDIT, "GET", "GET", COUNTED),
)
# Targets that name nothing.
NAMING_NOTHING = (
    "/v1/merchants//tokens",
    "/v1/merchants/shop1",
    "/v1/merchants/shop1/tokens?x=1",
    "/v1/merchants/shop1/tokens/12?x=1",
    "/v1/merchants/shop1/tokens/",
    "/v1/merchants/shop1/tokens//number",
    "/v1/merchants/shop1/tokens/12/",
    "/v1/merchants/shop1/tokens/12/numbers",
    "/v1/merchants/shop1/tokens/12/number/",
    "/v1/merchants/shop1/audit/",
    "/v1/merchants/a/b/tokens",
    "/v2/merchants/shop1/tokens",
    "*",
)
# Messages, and the first refusal that applies to each.
HEADS = (
    ("GET /v1/merchants/shop1/audits HTTP/1.1", NAMELESS),
    ("PUT /v1/merchants/shop1/audit HTTP/1.1", refused_method("GET")),
    ("GET /v1/merchants/shop1/audit HTTP/1.1", refusal(BAD, 58)),
    ("GET /v1/merchants/shop1/audit HTTP/1.1\r\nX-Vault-Caller: a\r\nX-Vault-Caller: a", refusal(BAD, 58)),
    ("GET /v1/merchants/shop1/audit HTTP/1.1\r\nX-Vault-Caller: Till", refusal(BAD, 4)),
    ("GET /v1/merchants/Shop/audit HTTP/1.1\r\nX-Vault-Caller: till-1", refusal(BAD, 4)),
    ("GET /v1/merchants/shop1/tokens/4111111111111111 HTTP/1.1\r\nX-Vault-Caller: till-1", refusal(BAD, 3)),
    ("GET /v1/merchants/shop1/tokens/x HTTP/1.1\r\nX-Vault-Caller: till-1", refusal(BAD, 3)),
    (f"POST {TARGET} HTTP/1.1\r\nX-Vault-Caller: a\r\nX-Vault-Request: 07", refusal(BAD, 5)),
)
# Bodies that ask for a token, what is answered, and what the token shows.
TAKEN = (
    (b'{"number":"4111111111111111","use":"single"}', ANSWERED, VIEWED),
    (
        b'{"number":"1","number":"4111 1111 1111 1111","use":"multi"}',
        answer("200 OK", '{"expires":1120,"token":"0000000000001111"}'),
        answer("200 OK", SHOWN.replace("1060", "1120").replace("single", "multi")),
    ),
)
# Bodies that ask for no token, and the number of the first refusal that applies to each.
BODIES = (
    (b'{"number":"4111111111111111","use":"single","x":"y"}', 59),
    (b'{"number":"x\xff","use":"single"}', 59),
    (b"[" * 200, 59),
    (b'{"number":"411111111","use":"none"}', 1),
    (b'{"number":"4111111111111112","use":"none"}', 2),
    (b'{"number":"4111111111111111","use":"none"}', 19),
    (b'{"number":4111111111111111,"use":"single"}', 59),
    (b'{"number":"4111111111111111"}', 59),
    (b'{"number":"\xff","use":"single"}', 59),
    (b"", 59),
)
# Kinds of replies, each with messages to one shop in this order, and the line of JSON in their answers.
REPLIES = (
    ("a token", ASKED, ANSWERED),
    ("a number, twice", asked(f"POST {NUMBER}") * 2, GIVEN * 2),
    ("what a token shows", asked(f"GET {ONE}"), VIEWED),
    ("counts", asked(f"GET {AUDIT}"), answer("200 OK", '{"denied":0,"given":2,"made":1}')),
    ("a refusal by 17", asked(f"DELETE {ONE}"), LIVE),
    ("a refusal by 57", asked(f"PUT {AUDIT}"), refused_method("GET")),
    ("done", asked(f"POST {REVOKE}"), DONE),
)
# Numbers of refusals, a message that each refuses, and the status and the fields of the answer.
STATUSES = (
    (1, ordered(messages.order("411111111")), BAD),
    (5, messages.head("POST", TARGET, "X-Vault-Caller: till-1", "X-Vault-Request: 07"), BAD),
    (19, ordered(messages.order(use="none")), BAD),
    (50, b"POST / HTTP/1.1\r\nA b\r\n\r\n", BAD, CLOSES),
    (52, connections.TWO_LENGTHS, BAD, CLOSES),
    (58, messages.head("GET", AUDIT), BAD),
    (59, ordered(b"{}"), BAD),
    (8, messages.asked("POST", NUMBER, "guest"), "403 Forbidden"),
    (7, asked("GET /v1/merchants/nobody/audit"), "404 Not Found"),
    (13, asked(f"GET {TARGET}/1111111111111111"), "404 Not Found"),
    (56, asked("GET /"), "404 Not Found"),
    (57, asked(f"PUT {AUDIT}"), "405 Method Not Allowed", "Allow: GET"),
    # the worked message had this request number too
    (10, ordered(messages.order("5555555555554444")), "409 Conflict"),
    (17, asked(f"DELETE {ONE}"), "409 Conflict"),
    (53, connections.CODED, "411 Length Required", CLOSES),
    (54, messages.head("POST", TARGET, "Content-Length: 4097"), "413 Payload Too Large", CLOSES),
    (9, messages.token_asked(8, messages.order(use="multi")), "422 Unprocessable Entity"),
    (51, messages.head("GET", AUDIT, *["A: b"] * 33), LARGE, CLOSES),
    # each candidate for this number passes the card check
    (12, messages.token_asked(8, messages.order("0000000000")), "503 Service Unavailable"),
)
# Those that need another moment, more messages or another shop.
LATER = (
    Asked(
        "14 has its status",
        asked(f"POST {REVOKE}") + asked(f"DELETE {ONE}") + asked(f"GET {ONE}"),
        DONE * 2 + refusal("410 Gone", 14),
    ),
    Asked("16 has its status", asked(f"POST {NUMBER}"), refusal("410 Gone", 16), now=1060),
    Asked("11 has its status", asked(f"POST {NUMBER}"), refusal("507 Insufficient Storage", 11), "full"),
)


def methods():
    """Each route takes its methods, and names them to the others."""
    for target, answers in TARGETS:
        for method in METHODS:
            answered = answers.get(method) or refused_method(", ".join(answers))
            yield Asked(f"{method} {target}", asked(f"{method} {target}"), answered)


def rights():
    """A method asks for what its right allows: a caller who has it alone is answered, and no other."""
    for method, target, right, answered in RIGHTS_OF:
        for caller in RIGHTS:
            name = f"{method} {target} by one who may {caller}"
            text = messages.asked(method, target, caller)
            yield Asked(name, text, answered if caller == right else UNENTITLED)


def texts():
    """A command has what the message says: caller, merchant and token, and the moment."""
    yield Asked("a field's name in both cases", IN_BOTH_CASES, GIVEN)
    yield Asked("the last second of a token", IN_BOTH_CASES, GIVEN, now=1059)
    yield Asked("the first second behind it", IN_BOTH_CASES, refusal("410 Gone", 16), now=1060)


def targets():
    """A whole target names a place, a merchant and perhaps a token; all else names nothing."""
    for target, allow, method, answered in NAMING:
        yield Asked(f"the place of {target}", asked(f"PUT {target}"), refused_method(allow))
        yield Asked(f"what {target} names", asked(f"{method} {target}"), answered)
    for target in NAMING_NOTHING:
        yield Asked(f"{target} names nothing", asked(f"GET {target}"), NAMELESS)


def heads():
    """The first refusal that applies is answered."""
    for head, answered in HEADS:
        yield Asked(head.replace("\r\n", ", "), f"{head}\r\n\r\n".encode(), answered)


def bodies():
    """A body is read in order: the token that it asks for has its number and its use, or it is refused."""
    for body, answered, viewed in TAKEN:
        text = ordered(body) + asked(f"GET {ONE}") + asked(f"POST {NUMBER}")
        yield Asked(f"{body!r} asks for a token", text, answered + viewed + GIVEN, "both")
    for body, number in BODIES:
        yield Asked(f"{body[:60]!r} is refused by {number}", ordered(body), refusal(BAD, number), "both")


def statuses():
    """Each refusal has its status."""
    for number, text, status, *fields in STATUSES:
        yield Asked(f"{number} has its status", text, refusal(status, number, *fields))
    yield from LATER


# Each table as what its cases are.
TABLES = {
    "methods of targets": methods,
    "rights of methods": rights,
    "texts of a command": texts,
    "targets": targets,
    "heads": heads,
    "bodies": bodies,
    "statuses of refusals": statuses,
}


def shops(program, folder):
    """Shops by their names: new, for both uses, with the worked token, or unable to count another given
    number. Each right has a caller of its name, who has no other."""
    folder.mkdir()
    new = connections.made(program, folder / "new.db")
    shop.granted(program, new, {right: (right,) for right in RIGHTS}, now=1000)
    both = copied(new, folder / "both.db")
    must(program, "merchant", "--now", 1000, both, "shop1", 60, 120)
    sold = copied(new, folder / "sold.db")
    must(program, "pipe", "--now", 1000, "--digits", 0, sold, given=ASKED)
    full = copied(sold, folder / "full.db")
    with sqlite3.connect(full) as store:
        store.execute("INSERT OR REPLACE INTO counts VALUES ('shop1', 2, 4611686018427387903)")
    store.close()
    return {"new": new, "both": both, "sold": sold, "full": full}


def fault_of(program, file, now, text, answered):
    """What is wrong with the answers to a connection at this moment."""
    ran = run(program, "pipe", "--now", now, "--digits", 0, file, given=text)
    return connections.fault_of(ran, answered)


def judged(tally, program):
    """The cases of each table have a shop of their own each; all replies come from one shop."""
    folder = Path("commands")
    made, file = shops(program, folder), folder / "asked.db"
    for figure, cases in TABLES.items():
        for it in cases():
            fault = fault_of(program, copied(made[it.shop], file), it.now, it.text, it.answered)
            tally.judge(f"{figure}: {it.name}", fault, figure)
    file = copied(made["new"], file)
    for name, text, answered in REPLIES:
        tally.judge(f"replies: {name}", fault_of(program, file, 1000, text, answered), "replies")
