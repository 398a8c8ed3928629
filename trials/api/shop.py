"""The shop behind a front, and a walk through it by the client that is made of the description."""

from api.asked import NUMBER
from shared.tally import unlike

SHOP = "shop1"


def order(request, number=NUMBER):
    """The parameters of a request for a token."""
    return {"merchant": SHOP, "X-Vault-Request": request, "body": {"number": number, "use": "single"}}


def walk(token):
    """What is asked of a token by whom, with the status and a part of the body that it is to have."""
    place = {"merchant": SHOP, "token": token}
    yield "back", "view", place, 200, {"masked": "411111******1111", "state": "live", "use": "single"}
    yield "back", "detokenize", place, 200, {"number": NUMBER}
    yield "till-1", "detokenize", place, 403, {"refused": 8}
    yield "back", "audit", {"merchant": SHOP}, 200, {"denied": 1, "given": 1, "made": 1}
    yield "back", "purge", place, 409, {"refused": 17}
    yield "back", "revoke", place, 200, {"done": True}
    yield "back", "view", place, 200, {"state": "revoked"}
    yield "back", "detokenize", place, 410, {"refused": 15}
    yield "back", "purge", place, 200, {"done": True}
    yield "back", "view", place, 410, {"refused": 14}
    yield "guest", "audit", {"merchant": SHOP}, 403, {"refused": 8}
    yield "back", "audit", {"merchant": "nobody"}, 404, {"refused": 7}
    yield "nobody", "audit", {"merchant": SHOP}, 403, {"front": 403}
    yield "stranger", "audit", {"merchant": SHOP}, 400, {"front": 495}
    yield "", "audit", {"merchant": SHOP}, 400, {"front": 496}


def walked(tally, description, client, port):
    """The walk of a shop, each answer judged by both readings of the description."""
    first, again = (client.ask(port, "till-1", "tokenize", **order(7)) for _ in range(2))
    tally.judge("the client that is made has a token", first.faults or unlike(first.status, 200))
    tally.judge("and the same one again", unlike(again, first))
    other = client.ask(port, "till-1", "tokenize", **order(7, "4222222222222"))
    tally.judge("not for another number", unlike((other.status, other.body), (409, {"refused": 10})))
    for caller, operation, parameters, status, part in walk((first.body or {}).get("token", "")):
        told = client.ask(port, caller, operation, **parameters)
        found = told.status, {name: (told.body or {}).get(name) for name in part}
        fault = told.faults or unlike(found, (status, part)) or described(description, operation, told)
        tally.judge(f"{operation} by {caller or 'no certificate'} is {status}", fault)


def described(description, operation, told):
    """Why an answer isn't as the description says of an operation, or nothing."""
    response = description.answers[operation].get(told.status)
    if response is None:
        return f"{told.status} isn't described"
    return description.fault(response["content"]["application/json"]["schema"], told.body)
