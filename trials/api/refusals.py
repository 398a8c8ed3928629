"""What the front refuses itself: each of its errors that can be provoked, and what is said of it."""

import glob
import json
import os
import re
import shutil

from api.shop import SHOP
from front.raw import answer, begun, message
from shared.tally import unlike

AUDIT = f"/v1/merchants/{SHOP}/audit"
TOKENS = f"/v1/merchants/{SHOP}/tokens"

# Errors of other fronts: nginx ends the connection for 408, and for 502 and 504 the answer is 503.
OTHERS = {(408, 408), (502, 502), (504, 504)}
# What no message of a trial brings about.
UNSEEN = {(500, 500)}


def refused():
    """A name, a caller (or none, or one without TLS), a message, and its answer's status and number."""
    audit = message(f"GET {AUDIT} HTTP/1.1")
    yield "no certificate", None, audit, 400, 496
    yield "another authority's certificate", "stranger", audit, 400, 495
    yield "a certificate that has expired", "expired", audit, 400, 495
    yield "no TLS", "clear", audit, 400, 497
    yield "no HTTP", "till-1", b"GIVE ME A TOKEN\r\n\r\n", 400, 400
    yield "a long field", "till-1", message(f"GET {AUDIT} HTTP/1.1", f"Pad: {'x' * 9000}"), 400, 494
    long = [f"Pad-{it}: {'x' * 4000}" for it in range(12)]
    yield "a long head", "till-1", message(f"GET {AUDIT} HTTP/1.1", *long), 400, 494
    yield "a subject that is no caller's name", "nobody", audit, 403, 403
    from_elsewhere = message(f"GET {AUDIT} HTTP/1.1", "Sec-Fetch-Site: cross-site")
    yield "a browser at another site", "back", from_elsewhere, 403, 403
    for target in ("/x", "/v2/merchants/shop1/audit", "/v1", "/front/400"):
        yield f"the target {target}", "till-1", message(f"GET {target} HTTP/1.1"), 404, 404
    yield "the method TRACE", "till-1", message(f"TRACE {AUDIT} HTTP/1.1"), 405, 405
    yield "a large body", "till-1", message(f"POST {TOKENS} HTTP/1.1", body="x" * 5120), 413, 413
    yield "a long target", "till-1", message(f"GET /v1/merchants/{'x' * 9000} HTTP/1.1"), 414, 414
    yield "another coding", "till-1", message(f"POST {TOKENS} HTTP/1.1", "Transfer-Encoding: gzip"), 501, 501
    yield "another HTTP", "till-1", message(f"GET {AUDIT} HTTP/2.0"), 505, 505


def said_of(description, told):
    """Why an answer isn't as the description says of each operation, or nothing."""
    for operation, answers in description.answers.items():
        if told.status not in answers:
            return f"{told.status} of {operation} isn't described"
        schema = answers[told.status]["content"]["application/json"]["schema"]
        fault = description.fault(schema, told.json())
        if fault:
            return f"{told.status} of {operation}: {fault}"
    return ""


def judged(tally, description, name, told, status, body):
    """One answer: its status, its body and the fields that it has to have, and what is said of it."""
    kind, kept = told.fields.get("Content-Type"), told.fields.get("Cache-Control")
    fault = unlike((told.status, kind, kept), (status, "application/json", "no-store"))
    fault = fault or unlike(told.json(), body) or said_of(description, told)
    tally.judge(f"{name} is {status} {json.dumps(body)}", fault)


def each(tally, description, port):
    """Each refusal by the front, and one of the vault's that only a front's client is likely to meet."""
    for name, caller, sent, status, number in refused():
        judged(tally, description, name, answer(port, caller, sent), status, {"front": number})
    fields = [f"Pad-{it}: x" for it in range(40)]
    told = answer(port, "back", message(f"GET {AUDIT} HTTP/1.1", *fields))
    judged(tally, description, "too many fields, by the vault,", told, 431, {"refused": 51})
    told = answer(port, "back", message(f"GET {AUDIT} HTTP/1.1"))
    tally.judge("no answer of the vault is to be kept", unlike(told.fields.get("Cache-Control"), "no-store"))
    seen = {(number, status) for _, _, _, status, number in refused()} | {(429, 429)}
    tally.judge("each error came", unlike(description.numbers("x-front") - OTHERS - UNSEEN, seen))


def away(tally, description, client, port):
    """What is answered while the vault is away."""
    told = answer(port, "back", message(f"GET {AUDIT} HTTP/1.1"))
    judged(tally, description, "a vault that is away", told, 503, {"away": True})
    tally.judge("with the seconds to wait", unlike(told.fields.get("Retry-After"), "1"))
    if client:
        said = client.ask(port, "back", "audit", merchant=SHOP)
        tally.judge("the client that is made takes it", said.faults or unlike(said.status, 503))


def slow(port):
    """A request of which the half doesn't come; it is judged a while later."""
    return begun(port, "till-1", message(f"POST {TOKENS} HTTP/1.1", body="x" * 100)[:-50])


def hurried(configuration):
    """A folder for a front that takes one request a second of a caller, and lets none wait: its configuration
    and the certificates. Each of its limits gives anew in a second, and it says so."""
    os.mkdir("hurried")
    for path in (*glob.glob("*.pem"), *glob.glob("*.key")):
        shutil.copy(path, "hurried")
    with open(configuration) as file:
        text = re.sub(r"rate=\d+r/[sm]", "rate=1r/s", file.read()).replace('"~^429 .+" 60;', '"~^429 .+" 1;')
    with open("hurried/shipped.conf", "w") as file:
        file.write(re.sub(r"limit_req zone=(\w+)[^;]*;", r"limit_req zone=\1;", text))
    return "hurried"


def too_many(tally, description, port):
    """More requests than that."""
    found = [answer(port, "back", message(f"GET {AUDIT} HTTP/1.1")) for _ in range(6)]
    late = [it for it in found if it.status != 200]
    tally.judge("of six requests some are too many", "" if 0 < len(late) < 6 else f"{len(late)} were")
    for told in late[:1]:
        judged(tally, description, "a request too many", told, 429, {"front": 429})
