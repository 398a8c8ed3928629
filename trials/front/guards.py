"""What the front keeps from its logs, its disk and strangers' pages, and how fast numbers go out."""

import http.client
import json
import os
import signal
import ssl
import time

from front.clients import NUMBER, Client
from shared import lines
from shared.ports import has_ipv6
from shared.runs import at_once, until
from shared.tally import unlike

TOKENS = "/v1/merchants/shop1/tokens"
# more than wait for their turn
AT_ONCE = 40


def typed_wrong(tally, port):
    """A card number where none belongs, in each place of a target that a person may put it."""
    back = Client(port, "back")
    spaced = " ".join(NUMBER[place : place + 4] for place in range(0, 16, 4)).replace(" ", "%20")
    for method, target in (
        ("GET", f"{TOKENS}/{NUMBER}"),
        ("POST", f"{TOKENS}/{NUMBER}/number"),
        ("POST", f"{TOKENS}/{NUMBER}/revoke"),
        ("DELETE", f"{TOKENS}/{spaced}"),
        ("GET", f"{TOKENS}/{NUMBER}/{NUMBER}"),
        ("GET", f"{TOKENS}?number={NUMBER}"),
        ("GET", f"{TOKENS}/{NUMBER}?x={NUMBER}"),
        ("GET", f"/v1/merchants/{NUMBER}/audit"),
        ("POST", f"/v1/merchants/{NUMBER}/tokens"),
        ("GET", f"/{NUMBER}"),
        ("GET", f"/v1/{'x' * 9000}{NUMBER}"),
        ("GET", f"/v1//merchants/shop1/tokens/{NUMBER}"),
    ):
        status = back.ask(method, target).status
        tally.judge(f"{method} of a number", "" if status in range(400, 500) else f"status {status}")


def logged(tally, errors):
    """After all that was asked: what the logs say, and that no number of a card or a token is in one."""
    told = lines.judge(tally, "front.log")
    typed = {
        "caller": "back",
        "merchant": "shop1",
        "token": f"****{NUMBER[-4:]}",
        "asked": "view",
        "status": 400,
    }
    shown = any(typed.items() <= it.items() for it in told)
    tally.judge("the line of a number that was typed", "" if shown else f"none of {len(told)}")
    asked = {it["asked"] for it in told}
    wanted = {"tokenize", "detokenize", "view", "revoke", "purge", "audit", "page", "elsewhere"}
    tally.judge("each that can be asked is logged", unlike(wanted - asked, set()))
    text = open(errors).read()
    found = lines.NUMBER.findall(text)
    tally.judge(f"no number in {errors}", f"{len(found)} of them" if found else "")
    tally.judge(f"{errors} has no request", "" if "request:" not in text else text[-300:])


def page(tally, port):
    """The page for the back office is a caller's, and says what a browser may do with it."""
    for target, kind in (("/", "text/html"), ("/office.css", "text/css"), ("/office.js", "text/javascript")):
        told = Client(port, "back").ask("GET", target)
        seen = (
            told.status,
            told.fields.get("Content-Type", "").split(";")[0],
            told.fields.get("Cache-Control"),
        )
        tally.judge(f"{target} of the page", unlike(seen, (200, kind, "no-store")))
        policy = told.fields.get("Content-Security-Policy", "")
        tally.judge(f"{target} asks nobody else", "" if policy.startswith("default-src 'none'") else policy)
        tally.judge(f"{target} is what it says", unlike(told.fields.get("X-Content-Type-Options"), "nosniff"))
        stranger = Client(port, "nobody").ask("GET", target)
        tally.judge(f"{target} is not for strangers", unlike(stranger.json(), {"front": 403}))
    told = Client(port, "back").ask("GET", "/caller").json()
    tally.judge("the page is told who asks", unlike(told, {"caller": "back"}))
    told = Client(port, "nobody").ask("GET", "/caller").json()
    tally.judge("and strangers aren't", unlike(told, {"front": 403}))
    for method, target in (
        ("POST", "/"),
        ("GET", "/index.html"),
        ("GET", "/office.css/x"),
        ("GET", "/../office.js"),
    ):
        status = Client(port, "back").ask(method, target).status
        tally.judge(f"{method} {target} is no page", "" if status in (400, 403, 404) else f"{status}")


def bodies(tally, port):
    """A body that comes in as many chunks as it has bytes is answered, and never lies on a disk."""
    context = ssl.create_default_context(cafile="callers.pem")
    context.load_cert_chain("till-1.pem", "till-1.key")
    peer = http.client.HTTPSConnection("localhost", port, context=context, timeout=60)
    body = f'{{"number":"{NUMBER}",{" " * 2500}"use":"single"}}'.encode()
    before = os.stat("bodies").st_mtime_ns
    chunks = (body[place : place + 1] for place in range(len(body)))
    peer.request("POST", TOKENS, chunks, {"X-Vault-Request": "100010"}, encode_chunked=True)
    tally.judge("a body in chunks is answered", unlike(peer.getresponse().status, 200))
    tally.judge("and isn't written to a disk", unlike(os.stat("bodies").st_mtime_ns, before))
    peer.close()


def by_browsers(tally, port):
    """What a browser sends for another site's page is refused, and nothing is kept by it."""
    back = Client(port, "back")
    target = "/v1/merchants/shop1/audit"
    for site, wanted in (("cross-site", 403), ("same-site", 403), ("same-origin", 200), ("none", 200)):
        answer = back.ask("GET", target, **{"Sec-Fetch-Site": site})
        tally.judge(f"a request of {site}", unlike(answer.status, wanted))
        kept = answer.fields.get("Cache-Control")
        tally.judge(f"the answer of {site} isn't kept", unlike(kept, "no-store"))
    own = f"https://localhost:{port}"
    for origin, wanted in (("https://evil.example", 403), ("null", 403), (f"{own}0", 403), (own, 200)):
        answer = back.ask("GET", target, Origin=origin)
        tally.judge(f"a request of the origin {origin.replace(own, 'own')}", unlike(answer.status, wanted))
    form = {"Origin": "https://evil.example", "Content-Type": "application/x-www-form-urlencoded"}
    told = back.ask("POST", f"{TOKENS}/0000000000009999/revoke", "a=b", **form)
    tally.judge("another site's form revokes nothing", unlike(told.json(), {"front": 403}))


def by_ipv6(tally, port):
    """The front is there by IPv6 too, where the machine has it; its certificate has no such name."""
    if not has_ipv6():
        return
    client = Client(port, "back", host="::1")
    client.context.check_hostname = False
    try:
        told = client.ask("GET", "/v1/merchants/shop1/audit").status
    except OSError as error:
        told = type(error).__name__
    tally.judge("it listens by IPv6", unlike(told, 200))


def health(tally, front, vault):
    """Whether the vault takes connections, told to who has no certificate."""

    def told(target="/health"):
        peer = http.client.HTTPConnection("127.0.0.1", front.health, timeout=10)
        try:
            peer.request("GET", target)
            answer = peer.getresponse()
            return answer.status, json.loads(answer.read())
        except (OSError, http.client.HTTPException, ValueError) as error:
            return type(error).__name__
        finally:
            peer.close()

    tally.judge("a vault listens", unlike(told(), (200, {"vault": "listens"})))
    tally.judge(
        "nothing else is told there", unlike(told("/v1/merchants/shop1/audit"), (404, {"front": 404}))
    )
    os.kill(vault.process.pid, signal.SIGSTOP)
    try:
        tally.judge("a vault that hangs is silent", unlike(told(), (504, {"vault": "silent"})))
    finally:
        os.kill(vault.process.pid, signal.SIGCONT)
    vault.kill()
    tally.judge("a vault that is away is opening", unlike(told(), (503, {"vault": "opening"})))
    vault.start()
    tally.judge("and listens again", "" if until(lambda: told()[0] == 200) else f"{told()}")


def flooded(tally, front):
    """A flood of questions whether the vault listens reaches it 20 times a second and 21 at once."""
    statuses, begun = [], time.monotonic()

    def one():
        for _ in range(10):
            peer = http.client.HTTPConnection("127.0.0.1", front.health, timeout=10)
            peer.request("GET", "/health")
            statuses.append(peer.getresponse().status)
            peer.close()

    with at_once(one, [()] * AT_ONCE):
        pass
    most = 21 + 20 * (time.monotonic() - begun) + 1
    given = statuses.count(200)
    tally.judge("some of a flood are told that it listens", "" if 21 <= given <= most else f"{given}, {most}")
    tally.judge("and the others to come again", unlike(statuses.count(429), len(statuses) - given))


def numbers(tally, port, token):
    """One caller's requests for numbers go five a second, and those beyond the ones that wait are refused."""
    # requests for numbers that went before are forgotten five a second
    time.sleep(3)
    statuses = []

    def one():
        statuses.append(Client(port, "back").ask("POST", f"{TOKENS}/{token}/number").status)

    with at_once(one, [()] * AT_ONCE):
        seen = Client(port, "back").ask("GET", "/v1/merchants/shop1/audit").status
        tally.judge("other requests go on meanwhile", unlike(seen, 200))
    given = statuses.count(200)
    tally.judge(f"of {AT_ONCE} numbers at once some 21 are given", "" if 21 <= given <= 27 else f"{given}")
    tally.judge("and the others refused", unlike(statuses.count(429), AT_ONCE - given))
