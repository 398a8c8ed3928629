"""The log of what was taken away: what was revoked and purged, with the whole token."""

import json
import os
import re

from front.clients import NUMBER, Client
from shared import lines
from shared.runs import until
from shared.tally import unlike

TOKENS = "/v1/merchants/shop1/tokens"
PATH = "taken.log"


def asked(port, request):
    """A till's token that is revoked twice and purged, and what takes nothing away: somebody without the right,
    a live token, a card number in a token's place, what is no token. Answers the token."""
    till, back, guest = (Client(port, caller) for caller in ("till-1", "back", "guest"))
    token, live = (till.token("shop1", it).json()["token"] for it in (request, request + 1))
    guest.ask("POST", f"{TOKENS}/{token}/revoke")
    for method, place in (
        ("DELETE", live),
        ("POST", f"{NUMBER}/revoke"),
        ("DELETE", NUMBER),
        ("DELETE", f"{token[:-1]}x"),
        ("POST", f"{token}/revoke"),
        ("POST", f"{token}/revoke"),
        ("DELETE", token),
        ("POST", f"{token}/number"),
    ):
        back.ask(method, f"{TOKENS}/{place}")
    return token


def judge(tally, front, port, request):
    """A line for each that was done, with its time and the whole token, and none for any other."""
    told = {"caller": "back", "merchant": "shop1", "token": asked(port, request), "status": 200}
    wanted = [{**told, "asked": word} for word in ("revoke", "revoke", "purge")]
    until(lambda: os.path.exists(PATH) and len(lines.read(PATH)) >= len(wanted))
    found = [json.loads(it) for it in lines.read(PATH)] if os.path.exists(PATH) else []
    times = [it.pop("time", "") for it in found]
    tally.judge(f"what was taken away, by {front}", unlike(found, wanted))
    shaped = len(times) == len(wanted) and all(re.fullmatch(lines.SHAPES["time"], it) for it in times)
    tally.judge("and when", "" if shaped else f"{times}")
    mode = os.stat(PATH).st_mode & 0o777 if found else 0
    tally.judge("for a few alone", unlike(oct(mode), "0o640"))
