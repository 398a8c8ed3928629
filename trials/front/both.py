"""What is judged behind either front."""

from front import authorities, forged, guards, subjects
from front.clients import NUMBER, Client
from front.load import MESSAGES
from shared.tally import unlike


def one_token(tally, port):
    """A token over TLS, the same again, and its number for who is entitled; answers the token."""
    till, back = Client(port, "till-1"), Client(port, "back")
    first = till.token("shop1", 100001)
    tally.judge("a token over TLS", unlike(first.status, 200))
    tally.judge("again, with its number", unlike(till.token("shop1", 100001).body, first.body))
    token = first.json()["token"]
    target = f"/v1/merchants/shop1/tokens/{token}/number"
    tally.judge("its number", unlike(back.ask("POST", target).json(), {"number": NUMBER}))
    tally.judge("not for a till", unlike(till.ask("POST", target).status, 403))
    return token


def forgeries(tally, front, token):
    """Whose certificate it is, and attempts to get past the front."""
    port = front.port
    subjects.judge(tally, port)
    subjects.revoked(tally, port, front)
    authorities.judge(tally, port, front)
    forged.judge(tally, port)
    forged.by_other_ways(tally, port, token)
    forged.too_large(tally, port)
    forged.of_numbers(tally, port)
    guards.typed_wrong(tally, port)
    guards.by_browsers(tally, port)
    guards.by_ipv6(tally, port)


def by_merchant(tally, port):
    """Two vaults: each has the tokens of its own merchant alone."""
    other = Client(port, "till-2")
    tally.judge("a token of the other shop", unlike(other.token("shop2", 1).status, 200))
    made = Client(port, "back").ask("GET", "/v1/merchants/shop2/audit").json()
    tally.judge("the other shop has made one", unlike(made.get("made"), 1))


def loaded(tally, port, load):
    """What 32 clients were answered while the vault was killed among their 2,000 messages."""
    tally.judge("no client's connection failed", "; ".join(load.faults[:3]))
    answered = sum(token is not None for token in load.tokens.values())
    tally.judge("each message was answered", unlike(answered, MESSAGES))
    tally.judge("by 200 once", unlike(load.statuses.count(200), MESSAGES))
    tally.judge("each by a token of its own", unlike(len(set(load.tokens.values())), MESSAGES))
    till = Client(port, "till-1")
    lost = [it for it, token in load.tokens.items() if till.token("shop1", it).json().get("token") != token]
    tally.judge("every answer that came is found again", f"{len(lost)} lost: {lost[:5]}" if lost else "")
