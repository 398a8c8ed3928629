"""What is refused stands in the log as what it was: by whom, of which merchant and token, by which number."""

import json
import os
import re

from front import certificates
from front.clients import NUMBER, Client
from front.raw import answer, message
from shared import lines
from shared.runs import at_once, until
from shared.tally import unlike

TOKENS = "/v1/merchants/shop1/tokens"
AT_ONCE = 40
NAMED_AS_A_CARD = "4111111111111111"


def requests(token, purged):
    """A reference, who asks, what, with which fields, and what of its line is to be so."""
    number, revoke = f"{TOKENS}/{token}/number", f"{TOKENS}/{token}/revoke"
    masked = {"merchant": "shop1", "token": f"****{token[-4:]}"}
    of_back = {**masked, "caller": "back"}
    by_number = {**of_back, "asked": "detokenize"}
    foreign = {"Sec-Fetch-Site": "cross-site"}
    yield "ref-foreign", "back", "POST", revoke, foreign, {
        **of_back,
        "asked": "revoke",
        "refused": "front 403",
    }
    yield "ref-expired", "expired", "POST", number, {}, {**by_number, "refused": "front 495 expired"}
    stranger = {**by_number, "caller": "-", "refused": "front 495"}
    yield "ref-stranger", "stranger", "POST", number, {}, stranger
    yield "ref-nobody", None, "POST", number, {}, {**stranger, "refused": "front 496"}
    yield "ref-nameless", "nobody", "POST", number, {}, {**stranger, "refused": "front 403"}
    yield "ref-guest", "guest", "POST", number, {}, {**by_number, "caller": "guest", "refused": "8"}
    yield "ref-live", "back", "DELETE", f"{TOKENS}/{token}", {}, {
        **of_back,
        "asked": "purge",
        "refused": "17",
    }
    yield "ref-unknown", "back", "GET", f"{TOKENS}/0000000000009999", {}, {"refused": "13"}
    yield "ref-merchant", "back", "GET", "/v1/merchants/nobody/audit", {}, {"refused": "7", "asked": "audit"}
    yield "ref-typed", "back", "GET", f"{TOKENS}/{NUMBER}", {}, {"refused": "3", "token": "****1111"}
    yield "ref-purged", "back", "GET", f"{TOKENS}/{purged}", {}, {"refused": "14", "asked": "view"}
    yield "ref-outside", "back", "GET", "/x", {}, {"refused": "front 404", "caller": "back"}
    yield "case 17/2026: a chargeback", "back", "POST", number, {}, {
        **by_number,
        "refused": "-",
        "status": 200,
    }
    card = {"caller": "****", "refused": "8"}
    yield "ref-card", NAMED_AS_A_CARD, "GET", "/v1/merchants/shop1/audit", {}, card
    ordered = {"merchant": "shop1", "asked": "tokenize"}
    yield "ref-request", "guest", "POST", TOKENS, {"X-Vault-Request": "4711"}, {**ordered, "request": "4711"}
    long = {"X-Vault-Request": "9223372036854775807"}
    yield "ref-long", "guest", "POST", TOKENS, long, {**ordered, "request": "922337***5807"}
    yield "ref-number", "guest", "POST", TOKENS, {"X-Vault-Request": NUMBER}, {"request": "411111***1111"}


def told_of(found, reference):
    """The line of a reference, or nothing of it."""
    return next((it for it in found if it.get("reference") == reference), {})


def read():
    return [json.loads(it) for it in lines.read("front.log")] if os.path.exists("front.log") else []


def judge(tally, front, port, token, by_body):
    """Each of them by one front, which knows by which number the vault refused from its body, or from what else
    it can see of the answer. Answers how many of a crowd were refused."""
    certificates.untaken()
    certificates.signed(NAMED_AS_A_CARD, f"/CN={NAMED_AS_A_CARD}")
    back = Client(port, "back")
    purged = Client(port, "till-1").token("shop1", 301 + by_body).json()["token"]
    back.ask("POST", f"{TOKENS}/{purged}/revoke")
    back.ask("DELETE", f"{TOKENS}/{purged}")
    asked = list(requests(token, purged))
    gone = {"refused": "14" if by_body else "14 to 16", "asked": "detokenize", "status": 410}
    asked.append(("ref-gone", "back", "POST", f"{TOKENS}/{purged}/number", {}, gone))
    for reference, caller, method, target, fields, _ in asked:
        Client(port, caller).ask(method, target, **{"X-Vault-Reference": reference, **fields})
    back.ask("GET", "/v1/merchants/shop1/audit", **{"X-Vault-Reference": f"case {NUMBER[:8]} {NUMBER[8:]}"})
    # a number behind another field of that name, and one with two signs between its parts
    spaced = "  ".join(NUMBER[it : it + 4] for it in range(0, len(NUMBER), 4))
    fields = "X-Vault-Reference: first", f"X-Vault-Reference: {NUMBER}", "X-Vault-Request: 1"
    for more in ((*fields, f"X-Vault-Request: {NUMBER}x"), (f"X-Vault-Reference: case {spaced}",)):
        answer(port, "back", message("GET /v1/merchants/shop1/audit HTTP/1.1", *more))
    until(lambda: told_of(read(), "ref-gone"), 5)
    found = read()
    digits = "".join(re.sub("[^0-9]", "", str(it.get("reference", ""))) for it in found)
    tally.judge(f"{front}: no card number as a reference", "it is there" if NUMBER in digits else "")
    for reference, *_, wanted in asked:
        told = told_of(found, reference)
        seen = {name: told.get(name) for name in wanted}
        tally.judge(f"{front}: the line of {reference}", unlike(seen, wanted))
    milliseconds = [it.get("milliseconds") for it in found if it["status"]]
    whole = all(type(it) is int for it in milliseconds)
    tally.judge(f"{front}: times in milliseconds", "" if whole else f"{milliseconds[:3]}")
    return crowded(tally, front, port, token)


def crowded(tally, front, port, token):
    """Somebody brings back more numbers at once than may be: each that was refused has its line."""
    statuses = []

    def one():
        fields = {"X-Vault-Reference": "the crowd"}
        statuses.append(Client(port, "back").ask("POST", f"{TOKENS}/{token}/number", **fields).status)

    with at_once(one, [()] * AT_ONCE):
        pass
    many = statuses.count(429)
    wanted = {"caller": "back", "merchant": "shop1", "token": f"****{token[-4:]}", "asked": "detokenize"}

    def refused():
        return sum({**wanted, "status": 429}.items() <= it.items() for it in read())

    until(lambda: refused() == many, 5)
    tally.judge(f"{front}: each of a crowd stands in the log", unlike(refused(), many))
    tally.judge(f"{front}: some were refused", "" if many else f"{set(statuses)}")
    return many
