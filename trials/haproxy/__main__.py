"""The whole trial: python3 -m haproxy PROGRAM REPOSITORY"""

import contextlib
import json
import sys
import threading
import time

from front import both, certificates, ciphers, forged, guards, held, limits
from front.clients import NUMBER, Client
from front.raw import answer, message
from front.services import two_vaults
from haproxy import kept, waits
from haproxy.services import Front
from shared.tally import Tally, unlike

AUDIT = "/v1/merchants/shop1/audit"
TOKENS = "/v1/merchants/shop1/tokens"


def one_token(tally, port):
    """A token over TLS, and what may be kept of an answer; answers the token."""
    token = both.one_token(tally, port)
    kept = Client(port, "back").ask("GET", AUDIT).fields.get("Cache-Control")
    tally.judge("no answer is kept", unlike(kept, "no-store"))
    return token


def strangers(tally, port):
    """Who has no certificate of the authority, or one that has run out, or none with a name."""
    certificates.untaken()
    audit = message(f"GET {AUDIT} HTTP/1.1", "X-Vault-Caller: back")
    for name, caller, status, number in (
        ("no certificate", None, 400, 496),
        ("another authority's certificate", "stranger", 400, 495),
        ("a certificate that has expired", "expired", 400, 495),
        ("a subject that is no caller's name", "nobody", 403, 403),
    ):
        told = answer(port, caller, audit)
        tally.judge(name, unlike((told.status, told.json()), (status, {"front": number})))


def refused_by_the_front(tally, port):
    """What never reaches the vault, and in which words."""
    for name, sent, status, number in (
        ("a target outside", message("GET /v2/merchants/shop1/audit HTTP/1.1"), 404, 404),
        ("a target with a host", message(f"GET https://localhost{AUDIT} HTTP/1.1"), 404, 404),
        ("TRACE", message(f"TRACE {AUDIT} HTTP/1.1"), 405, 405),
        ("a body of 5 KiB", message(f"POST {TOKENS} HTTP/1.1", body="x" * 5120), 413, 413),
        ("a page of another site", message(f"GET {AUDIT} HTTP/1.1", "Sec-Fetch-Site: cross-site"), 403, 403),
        ("two sites", message(f"GET {AUDIT} HTTP/1.1", *["Sec-Fetch-Site: none"] * 2), 403, 403),
        ("a list of sites", message(f"GET {AUDIT} HTTP/1.1", "Sec-Fetch-Site: none, same-site"), 403, 403),
    ):
        told = answer(port, "back", sent)
        kept = told.fields.get("Cache-Control")
        wanted = status, {"front": number}, "no-store"
        tally.judge(f"{name} is refused", unlike((told.status, told.json(), kept), wanted))
    told = answer(port, "back", b"GIVE ME A TOKEN\r\n\r\n")
    tally.judge("no HTTP is refused", unlike(told.status, 400))
    chunks = message(f"POST {TOKENS} HTTP/1.1", "Transfer-Encoding: chunked") + b"0\r\n\r\n"
    told = answer(port, "till-1", chunks)
    tally.judge("a body in chunks is refused as by the vault", unlike(told.json(), {"refused": 53}))
    twice = message(f"POST {TOKENS} HTTP/1.1", "Transfer-Encoding: gzip, chunked") + b"0\r\n\r\n"
    # HAProxy has words of its own for what it can't read, which no configuration changes
    tally.judge("two codings are refused", unlike(answer(port, "till-1", twice).status, 422))
    for caller, target in ((None, AUDIT), ("stranger", AUDIT), ("nobody", AUDIT), ("back", "/x")):
        sent = message(f"GET {target} HTTP/1.1").replace(b"Connection: close\r\n", b"")
        _, told = forged.passed(port, caller, sent)
        ends = b"connection: close" in told.lower()
        tally.judge(f"a refusal of {caller} at {target} ends its connection", "" if ends else "it goes on")


def trailers(tally, port, vault):
    """A body in chunks, and what stands behind it, isn't handed on: it is refused also where nobody is there to
    hand it to."""
    vault.kill()
    sent = (
        message(f"POST {TOKENS} HTTP/1.1", "Transfer-Encoding: chunked")
        + b"0\r\nX-Vault-Caller: back\r\n\r\n"
    )
    statuses, _ = forged.passed(port, "guest", sent)
    vault.start()
    tally.judge("a trailer isn't handed on", unlike(statuses, [411]))


def slow(port, found):
    """A request of which the half doesn't come; what it is told, after ten seconds."""
    sent = message(f"POST {TOKENS} HTTP/1.1", "X-Vault-Request: 1", body="x" * 100)[:-50]
    found.append(answer(port, "till-1", sent))


def numbers(tally, port, token):
    """One caller brings back twenty numbers in four seconds, and other requests go on."""
    back = Client(port, "back")
    time.sleep(5)  # until what was asked before doesn't count any more
    statuses = [back.ask("POST", f"{TOKENS}/{token}/number").status for _ in range(guards.AT_ONCE)]
    given = statuses.count(200)
    tally.judge("some twenty numbers at once are given", "" if 15 <= given <= 24 else f"{given}")
    tally.judge("and the others refused", unlike(statuses.count(429), guards.AT_ONCE - given))
    tally.judge("other requests go on", unlike(back.ask("GET", AUDIT).status, 200))


def floods(tally, port):
    """A caller that asks for more than it may is refused, and another one isn't; here 20 in four seconds."""
    guest = Client(port, "guest")
    statuses = [guest.ask("GET", AUDIT).status for _ in range(60)]
    tally.judge("a flood has two answers", unlike(set(statuses), {403, 429}))
    tally.judge(
        "it is answered for a while", "" if 15 <= statuses.count(403) <= 45 else f"{statuses.count(403)}"
    )
    tally.judge("another caller isn't refused", unlike(Client(port, "back").ask("GET", AUDIT).status, 200))


def figures(tally, front):
    """What the exporter says, and to whom."""
    told = front.numbers()
    for name in ("haproxy_backend_http_responses_total", "haproxy_backend_current_queue"):
        tally.judge(f"the exporter has {name}", "" if name in told else told[:200])
    tally.judge("and no number of a card", f"{NUMBER} is there" if NUMBER in told else "")
    bound = [it for it in open("haproxy.cfg").read().splitlines() if it.strip().startswith("bind")]
    tally.judge("it listens here alone", "" if all(" 127.0.0.1:" in it for it in bound) else f"{bound}")


def guarded(tally, front):
    """What the front lets through, and what it doesn't."""
    port, late = front.port, []
    scan = ciphers.Scan(port)
    waiting = threading.Thread(target=slow, args=(port, late))
    waiting.start()
    token = one_token(tally, port)
    strangers(tally, port)
    refused_by_the_front(tally, port)
    both.forgeries(tally, front, token)
    numbers(tally, port, token)
    both.by_merchant(tally, port)
    guards.page(tally, port)
    waiting.join()
    tally.judge("half a request is told in time", unlike(json.loads(late[0].body), {"front": 408}))
    scan.judge(tally)
    return token


def at_a_front(repository, vaults, *changes):
    """A front before the vaults, with some changes of its file; it is over at the end of a `with`."""
    return contextlib.closing(Front(repository, *vaults, pairs=changes))


def limited(tally, program, repository):
    """What a caller is stopped at."""
    vault = limits.shop(program)
    with contextlib.closing(Front(repository, vault)) as front:
        limits.judge(tally, front.port, vault, limits.Kind(20, "3600"))
    vault.kill()


def main(program, repository):
    tally = Tally()
    certificates.make()
    with two_vaults(program) as vaults:
        first, second = vaults
        with at_a_front(repository, vaults) as front:
            token = guarded(tally, front)
            guards.health(tally, front, first)
            trailers(tally, front.port, first)
            held.judge(tally, front.port, second, (front.health, front.figures))
            waits.stopped(tally, front.port, first)
            waits.gone(tally, front.port, first, front)
            waits.crowded(tally, front.port, first)
        # less patience, fewer requests than a caller may have otherwise, and a client that says nothing for longer
        # than it may otherwise: while it waits for the vault it is none
        less = (
            ("retries 240", "retries 4"),
            ("rate gt 2000", "rate gt 20"),
            ("gpc1_rate ge 1000", "gpc1_rate ge 4"),
            ("timeout client 15s", "timeout client 1s"),
        )
        with at_a_front(repository, vaults, *less) as front:
            limits.by_day(tally, front.port, "shop1", token, "3600")
            floods(tally, front.port)
            waits.told_at_last(tally, front.port, first)
        # more requests than a caller may have otherwise
        with at_a_front(repository, vaults, ("rate gt 2000", "rate gt 200000")) as front:
            waits.under_load(tally, front.port, first)
            waits.restarted(tally, front.port, first)
            figures(tally, front)
            waits.relisted(tally, front.port, first)
        kept.judge(tally, first)
        limited(tally, program, repository)
        guards.logged(tally, "haproxy.err")
    tally.end()


main(*sys.argv[1:])
