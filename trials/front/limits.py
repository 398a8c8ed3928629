"""What a caller is stopped at: guesses over a request number that was used, more tokens in a day than its
class has, and more card numbers. Others go on beside it."""

import json
import time
from typing import NamedTuple

from front import certificates, forged
from front.clients import NUMBER, Client
from front.raw import message
from front.services import Vault
from model.cards import completed
from shared.runs import at_once, must
from shared.tally import unlike

SHOP = "shop3"
TOKENS = f"/v1/merchants/{SHOP}/tokens"
SEEKERS = ("seeker-1", "seeker-2", "seeker-3")
# a till without a right: it is refused by the vault, and what it asks counts all the same
FILLER = "filler"
USED = 9  # the request number that a seeker has used
GUESSES = 1000
TILL = 2000  # the requests for tokens of a till in a day
CLIENTS = 8


class Kind(NamedTuple):
    """A front's own: how many guesses reach the vault, and what `Retry-After` says of a limit of a day."""

    guesses: int
    later: str


def shop(program):
    """A vault of a merchant of its own, and the certificates of those who ask there."""
    for caller in (*SEEKERS, FILLER, "batch-1", "settle"):
        certificates.by_script("caller", ".", caller)
    vault = Vault(program, SHOP, SEEKERS[0])
    tills = {caller: ("tokenize",) for caller in SEEKERS[1:]}
    vault.give({**tills, "back": ("revoke",), "settle": ("detokenize",)})
    return vault


def asked(client, request, number=NUMBER):
    """What a caller is answered who asks for a token of a card number."""
    body = json.dumps({"number": number, "use": "single"})
    return client.ask("POST", TOKENS, body, **{"X-Vault-Request": str(request)})


def judge(tally, port, vault, kind):
    """All of it, before one front; answers a token. Who has no class in the front's file is a till."""
    guessed(tally, port, vault, kind)
    repeated(tally, port)
    filled(tally, port, kind)
    return settled(tally, port)


def guessed(tally, port, vault, kind):
    """Guesses of a till, and of one whose right was withdrawn and whose token was revoked."""
    tokens = [asked(Client(port, caller), USED).json()["token"] for caller in SEEKERS]
    search(tally, port, SEEKERS[0], kind.guesses, "a till's")
    told = asked(Client(port, SEEKERS[0]), USED + 1).status
    tally.judge("another request of it goes on", unlike(told, 200))
    told = Client(port, "back").ask("POST", f"{TOKENS}/{tokens[1]}/revoke").status
    tally.judge("a token is revoked", unlike(told, 200))
    vault.kill()
    must(vault.program, "withdraw", vault.file, SEEKERS[1], SHOP, "tokenize")
    vault.start()
    told = asked(Client(port, SEEKERS[1]), USED + 1).json()
    tally.judge("a right is withdrawn", unlike(told, {"refused": 8}))
    search(tally, port, SEEKERS[1], kind.guesses, "a withdrawn till's")


def search(tally, port, caller, most, whose):
    """Of many guesses some are compared; the right one comes too late."""
    client, numbers = Client(port, caller), (completed(f"400005{it:09}") for it in range(GUESSES))
    statuses = [asked(client, USED, number).status for number in numbers]
    compared = GUESSES - statuses.count(429)
    # two more may be let through in the minutes that it takes
    fault = "" if most - 5 <= compared <= most + 2 else f"{compared}"
    tally.judge(f"of {whose} {GUESSES} guesses some {most} are compared", fault)
    told = asked(client, USED)
    tally.judge(f"and {whose} right one isn't", unlike((told.status, told.json()), (429, {"front": 429})))


def repeated(tally, port):
    """One request again and again, and then in other spellings."""
    client = Client(port, SEEKERS[2])
    statuses = [asked(client, USED).status for _ in range(150)]
    given = statuses.count(200)
    tally.judge("a request is answered a hundred times", "" if 98 <= given <= 101 else f"{given}")
    tally.judge("and refused then", unlike(statuses.count(429), 150 - given))
    attempts = tuple(spelled())
    told = forged.all_passed(port, SEEKERS[2], [sent for _, sent in attempts])
    for (name, _), (statuses, found) in zip(attempts, told, strict=True):
        tells = b'"token"' in found or b'"refused":10' in found
        tally.judge(f"the request number as {name}", f"answered {statuses}" if tells else "")
    tally.judge("a new one goes on", unlike(asked(client, USED + 1).status, 200))


def spelled():
    """Other ways to say the request number, and the target that has it."""
    name = "X-Vault-Request"
    body = json.dumps({"number": NUMBER, "use": "single"})

    def sent(*fields, target=TOKENS, method="POST"):
        return message(f"{method} {target} HTTP/1.1", *fields, body=body)

    for words in ("9", "\t9", " \t 9", "9\t", "9 \t ", "\t\t9\t\t", "\r\n 9", "9\r\n\t", "09", "+9", "9.0"):
        yield repr(words), sent(f"{name}: {words}")
    for words in ("9,", "9;x", "9 9", "9, 9", ",9", '"9"', "0x9", "9e0", "\x0b9", "9\x0c", "\u00a09", "9%20"):
        yield repr(words), sent(f"{name}: {words}")
    for other in (name.lower(), name.upper(), "X_Vault_Request", "X-Vault_Request", f"{name} ", f" {name}"):
        yield other, sent(f"{other}: 9")
    yield "a NUL behind it", sent(f"{name}: 9\0")
    for words in (("9", "9"), ("", "9"), ("10", "9"), ("9", "10"), ("x", "9"), ("9", "")):
        yield f"{words}", sent(*(f"{name}: {it}" for it in words))
    yield "no field", sent()
    for target in (
        f"https://localhost{TOKENS}",
        f"http://localhost:8443{TOKENS}",
        *(f"{TOKENS}{it}" for it in ("?x", "?x/number", "/", "#x", "#/number", "%20", ";x")),
        *(TOKENS.replace("/tokens", it) for it in ("//tokens", "/./tokens", "/%74okens", "/x/../tokens")),
    ):
        yield f"that of {target}", sent(f"{name}: 9", target=target)
    yield "that of a small post", sent(f"{name}: 9", method="post")
    yield "that of HTTP/1.0", sent(f"{name}: 9").replace(b"HTTP/1.1", b"HTTP/1.0", 1)
    chunks = message(f"POST {TOKENS} HTTP/1.1", f"{name}: 9", "Transfer-Encoding: chunked")
    yield "that of a body in chunks", chunks + f"{len(body):x}\r\n{body}\r\n0\r\n\r\n".encode()
    yield "that of a trailer", chunks.replace(b": 9", b": x") + (
        f"{len(body):x}\r\n{body}\r\n0\r\n{name}: 9\r\n\r\n".encode()
    )


def many(port, caller, ask, count):
    """What a caller is answered who asks so often, by several clients at once. It waits for a limit of seconds,
    and for no limit of a day."""
    told, left = [], iter(range(1, count + 1))

    def one():
        client = Client(port, caller)
        for turn in left:
            while (answer := ask(client, turn)).status == 429 and answer.fields.get("Retry-After") == "1":
                time.sleep(1)
            told.append((answer.status, answer.fields.get("Retry-After")))

    with at_once(one, [()] * CLIENTS):
        pass
    return told


def filled(tally, port, kind):
    """A till that asks for more tokens than it has in a day; another one, and a batch, go on."""
    told = many(port, FILLER, asked, TILL + 100)
    let = told.count((403, None))
    tally.judge(f"a till has some {TILL} requests for tokens", "" if TILL <= let <= TILL + 3 else f"{let}")
    tally.judge("and is told when it has more", unlike(told.count((429, kind.later)), len(told) - let))
    told = Client(port, FILLER).ask("GET", f"/v1/merchants/{SHOP}/audit").json()
    tally.judge("its other requests go on", unlike(told, {"refused": 8}))
    tally.judge("another till goes on", unlike(asked(Client(port, SEEKERS[2]), 77).status, 200))
    told = many(port, "batch-1", asked, TILL + 100)
    tally.judge("a batch has more", unlike(set(told), {(403, None)}))
    # one may be let through for each minute that all this took
    statuses = [asked(Client(port, SEEKERS[2]), USED).status for _ in range(20)]
    tally.judge("and others' request numbers make nobody's forgotten", unlike(statuses[-5:], [429] * 5))


def settled(tally, port):
    """A settlement brings back more card numbers than a clerk has in a day; answers their token."""
    token = asked(Client(port, SEEKERS[2]), USED + 2).json()["token"]
    told = many(port, "settle", lambda client, _: client.ask("POST", f"{TOKENS}/{token}/number"), 1050)
    tally.judge("a settlement has its numbers", unlike(set(told), {(200, None)}))
    return token


def by_day(tally, port, merchant, token, later):
    """A clerk who brought back as many card numbers as a day has, here four, is told to come much later."""
    back = Client(port, "back")
    target = f"/v1/merchants/{merchant}/tokens/{token}/number"
    told = [back.ask("POST", target) for _ in range(6)]
    tally.judge("a day's numbers have an end", unlike([it.status for it in told], [200] * 4 + [429] * 2))
    tally.judge("and it is told when", unlike(told[-1].fields.get("Retry-After"), later))
    told = back.ask("GET", f"/v1/merchants/{merchant}/audit").status
    tally.judge("other requests of it go on", unlike(told, 200))
