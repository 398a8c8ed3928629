"""Whose certificate it is: the subject of each, and the caller that the front may take it for."""

from front import certificates
from front.clients import Client
from shared.tally import unlike

# What isn't exactly one common name, which is a caller's name, is nobody's.
NOBODYS = (
    "/CN=till-1/O=x,CN=back",  # a comma within another field
    "/CN=till-1/O=x\\,CN=back",
    "/CN=x,CN=back",  # a comma within the name
    "/CN=till-1/CN=back",  # two names
    "/CN=back/CN=till-1",
    "/CN=till-1+CN=back",  # two names in one part
    "/CN=back+O=x",
    "/O=Shops/CN=back",  # another field beside the name
    "/CN=back/O=Shops",
    "/CN=back/emailAddress=back@shops.example",
    "/OU=cn=back",  # a name that only looks like one
    "/O=CN=back",
    "/CN=cn=back",
    "/CN=Back",
    "/CN=BACK",
    "/CN=b\u00e4ck",
    "/CN=\u0432ack",  # a letter that looks like a b
    "/CN= back",
    "/CN=back ",
    "/CN=back\n",
    "/CN=back*",
    "/CN=back.shops.example",
    "/CN=back-office-munich",  # 18 letters
    "/UID=back",
    "/",
)


def asked(port, name):
    """What the front answers who asks for the back office's counts with this certificate."""
    return Client(port, name).ask("GET", "/v1/merchants/shop1/audit")


def judge(tally, port):
    """Each subject that is nobody's, one that is the back office's, and a front's own certificate."""
    for place, subject in enumerate(NOBODYS):
        name = f"subject-{place}"
        certificates.signed(name, subject)
        answer = asked(port, name)
        told = answer.status, answer.json()
        tally.judge(f"{subject!r} is nobody's", unlike(told, (403, {"front": 403})))
    certificates.signed("other-back", "/CN=back")
    second = asked(port, "other-back").status
    tally.judge("a second certificate of a caller is its own too", unlike(second, 200))
    certificates.signed("two-bytes", "/CN=back", letters="MASK:0x800")
    told = asked(port, "two-bytes").json()
    tally.judge("a name in letters of two bytes is nobody's", unlike(told, {"front": 403}))
    certificates.signed("front-1", "/CN=back", "serverAuth")
    servers = asked(port, "front-1").json()
    tally.judge("a server's certificate is no caller's", unlike(servers, {"front": 495}))


def revoked(tally, port, front):
    """A certificate that is taken back ends with the next reload, also over a connection that is open."""
    certificates.by_script("caller", ".", "till-9")
    open_one = Client(port, "till-9")
    target = "/v1/merchants/shop1/audit"
    tally.judge("a till's certificate is taken", unlike(open_one.ask("GET", target).json(), {"refused": 8}))
    told = certificates.by_script("revoke", ".", "till-9")
    tally.judge("it is taken back", unlike(told, "revoked 1\n"))
    front.take(revoked="revoked.pem")
    again = [Client(port, "till-9").ask("GET", target) for _ in range(5)]
    told = {(it.status, it.body) for it in again}
    tally.judge("and isn't taken any more, once it is reloaded", unlike(told, {(400, b'{"front":495}')}))
    tally.judge("nor over a connection that was open", unlike(answered(open_one, target), False))
    tally.judge("the others are taken as before", unlike(asked(port, "back").status, 200))


def answered(client, target):
    """Whether the vault answers over a connection."""
    try:
        return "refused" in client.ask("GET", target).json()
    except OSError:
        return False

