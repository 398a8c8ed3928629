"""Attempts to be another caller, or to get past the front's limits: each is a message, byte by byte."""

import concurrent.futures
import re

from front import certificates
from front.clients import NUMBER
from front.raw import begun, message
from shared.tally import unlike

AUDIT = "/v1/merchants/shop1/audit"
TOKENS = "/v1/merchants/shop1/tokens"
INNER = f"GET {AUDIT} HTTP/1.1\r\nHost: localhost\r\nX-Vault-Caller: back\r\n\r\n"
STATUS = re.compile(rb"HTTP/1\.[01] ([0-9]{3}) ")


def audit(*fields):
    """A request for counts, which the guest may not see, with some more fields."""
    return message(f"GET {AUDIT} HTTP/1.1", *fields)


def names():
    """Ways to say another's name."""
    for name in ("X-Vault-Caller", "x-vault-caller", "X-VAULT-CALLER", "X_Vault_Caller", "X-Vault_Caller"):
        yield f"{name} alone", audit(f"{name}: back")
    yield "the name twice", audit("X-Vault-Caller: back", "X-Vault-Caller: back")
    yield "the name and another", audit("X-Vault-Caller: guest", "X-Vault-Caller: back")
    yield "a list of names", audit("X-Vault-Caller: guest, back")
    yield "a space before the colon", audit("X-Vault-Caller : back")
    yield "a tab before the colon", audit("X-Vault-Caller\t: back")
    yield "a space before the name", audit(" X-Vault-Caller: back")
    yield "a folded line", audit("Pad: x\r\n X-Vault-Caller: back")
    yield "a line's end without its CR", audit("Pad: x\nX-Vault-Caller: back")
    yield "a CR alone", audit("Pad: x\rX-Vault-Caller: back")
    yield "a NUL in the name", audit("X-Vault-Caller\0: back")
    yield "a NUL in a value", audit("Pad: x\0\r\nX-Vault-Caller: back")
    yield "a letter beyond ASCII", audit("X-Vault-C\u00e4ller: back")
    yield "an escape in a value", audit("Pad: x%0d%0aX-Vault-Caller: back")
    yield "an escape in the target", message(f"GET {AUDIT}%20HTTP/1.1%0d%0aX-Vault-Caller:%20back HTTP/1.1")
    yield "the name in the target", message(f"GET {AUDIT}?X-Vault-Caller=back HTTP/1.1")
    yield "the field as one of the connection's", audit("Connection: X-Vault-Caller")
    yield "both", audit("X-Vault-Caller: back", "Connection: X-Vault-Caller, keep-alive")
    yield "a name behind a proxy", audit("X-Forwarded-Client-Cert: CN=back", "X-SSL-Client-CN: back")
    yield "a target with a host", message(
        f"GET https://back@localhost{AUDIT} HTTP/1.1", "X-Vault-Caller: back"
    )
    yield "a host that is the vault's", message(f"GET http://127.0.0.1:8087{AUDIT} HTTP/1.1")
    yield "CONNECT", message("CONNECT 127.0.0.1:8087 HTTP/1.1", "X-Vault-Caller: back")


def chunked(*fields, rest=""):
    """A request whose body seems to end before another request."""
    return message(f"POST {TOKENS} HTTP/1.1", *fields) + f"0\r\n{rest}\r\n{INNER}".encode()


def hidden():
    """Ways to hide a second request in the first."""
    size = f"Content-Length: {len(INNER) + 5}"
    yield "a coding and a length", chunked(size, "Transfer-Encoding: chunked")
    yield "a length and a coding", chunked("Transfer-Encoding: chunked", size)
    yield "a coding twice", chunked("Transfer-Encoding: chunked", "Transfer-Encoding: identity")
    yield "a list of codings", chunked("Transfer-Encoding: chunked, identity", size)
    yield "a coding that isn't one", chunked("Transfer-Encoding: xchunked", size)
    yield "a coding with a tab", chunked("Transfer-Encoding:\tchunked", size)
    yield "a coding with a space", chunked("Transfer-Encoding : chunked", size)
    yield "a coding in HTTP/1.0", chunked("Transfer-Encoding: chunked").replace(b"HTTP/1.1", b"HTTP/1.0", 1)
    yield "a name behind the body", chunked("Transfer-Encoding: chunked", rest="X-Vault-Caller: back\r\n")
    yield "a size beyond all", chunked("Transfer-Encoding: chunked").replace(
        b"0\r\n", b"10000000000000000\r\n"
    )
    for words in ("0", "5", "+5", "-1", "0x5", "5, 5", "5,", " 5 5", "05", "\x0b5", ""):
        yield f"the lengths {words!r}", message(
            f"GET {AUDIT} HTTP/1.1", f"Content-Length: {words}", size
        ) + INNER.encode()
        yield f"the length {words!r}", message(
            f"POST {TOKENS} HTTP/1.1", f"Content-Length: {words}"
        ) + INNER.encode()
    yield "a request as a body", message(f"GET {AUDIT} HTTP/1.1", body=INNER)
    yield "a change to HTTP/2", audit("Upgrade: h2c", "HTTP2-Settings: AAMAAABkAAQAAP__") + INNER.encode()
    yield "a change to a socket", audit("Upgrade: websocket", "Connection: upgrade") + INNER.encode()
    yield "a wait for the body", audit("Expect: 100-continue", "Content-Length: 5")[:-5] + INNER.encode()
    yield "the preface of HTTP/2", b"PRI * HTTP/2.0\r\n\r\nSM\r\n\r\n" + b"\0\0\0\4\0\0\0\0\0"
    yield "a request without a version", f"GET {AUDIT}\r\n\r\n{INNER}".encode()


def passed(port, caller, sent):
    """The statuses that a message is answered, and the bytes of it. A connection that ends is no answer, and
    one on which nothing more comes for two seconds is left."""
    found = b""
    try:
        with begun(port, caller, sent) as peer:
            peer.settimeout(15)
            while piece := peer.recv(65536):
                found += piece
                peer.settimeout(2)
    except OSError:
        pass
    return [int(it) for it in STATUS.findall(found)], found


def all_passed(port, caller, attempts):
    """What each attempt is answered, many side by side: some wait until the front has waited for enough."""
    with concurrent.futures.ThreadPoolExecutor(16) as pool:
        yield from pool.map(lambda sent: passed(port, caller, sent), attempts)


def judge(tally, port):
    """No attempt of the guest is answered as the back office's would be, nor as anything but a refusal."""
    attempts = (*names(), *hidden())
    told = all_passed(port, "guest", [sent for _, sent in attempts])
    for (name, _), (statuses, found) in zip(attempts, told, strict=True):
        fault = "the counts came" if b"denied" in found else ""
        good = [it for it in statuses if it < 400 and it != 100]
        tally.judge(f"by a guest: {name}", fault or (f"answered {good}" if good else ""))
    chained(tally, port)
    told = passed(port, "back", audit("Connection: close, X-Vault-Caller, X-Vault-Request"))[0]
    tally.judge("the front's own field isn't the client's to drop", unlike(told, [200]))


def chained(tally, port):
    """A certificate that a caller signed is nobody's, and another's behind one's own gives nothing."""
    certificates.chains()
    statuses, found = passed(port, "below", audit())
    fault = "the counts came" if b"denied" in found else ""
    tally.judge("a certificate that a caller signed", fault or unlike([it for it in statuses if it != 400], []))
    statuses, found = passed(port, "before", audit())
    told = statuses, found.endswith(b'{"refused":8}')
    tally.judge("another's certificate behind one's own", unlike(told, ([403], True)))


def ways_to_a_number(token):
    """Targets that look like those that bring a number back."""
    place = f"{TOKENS}/{token}"
    yield from (
        f"{place}/num%62er",
        f"{place}%2fnumber",
        f"{place}/./number",
        f"{place}//number",
        f"{place}/number/",
    )
    yield from (
        f"{place}/number?x",
        f"{place}/number%20",
        f"{place}/number#x",
        f"{place};x/number",
        f"{place}/x/../number",
    )
    yield from (
        f"{place}/NUMBER",
        f"{place}\\number",
        f"//v1/merchants/shop1/tokens/{token}/number",
        f"/V1{place[3:]}/number",
    )
    yield from (
        f"/./v1{place[3:]}/number",
        f"/v1/../v1{place[3:]}/number",
        f"/v1/merchants/shop%31/tokens/{token}/number",
    )


def by_other_ways(tally, port, token):
    """A number has one target, so its limit has no way around it."""
    targets = list(ways_to_a_number(token))
    told = all_passed(port, "back", [message(f"POST {target} HTTP/1.1") for target in targets])
    for target, (statuses, found) in zip(targets, told, strict=True):
        fault = "the number came" if NUMBER.encode() in found or 200 in statuses else ""
        tally.judge(f"no number by {target.replace(token, '{t}')}", fault)


def too_large(tally, port):
    """Messages that are larger than what the front or the vault takes are refused, and the front goes on."""
    many = [f"Pad-{it}: x" for it in range(5000)]
    attempts = (
        ("a body of 4097 bytes", message(f"POST {TOKENS} HTTP/1.1", "X-Vault-Request: 1", body="x" * 4097)),
        ("a body of 1 MB", message(f"POST {TOKENS} HTTP/1.1", "X-Vault-Request: 1", body="x" * 1000000)),
        (
            "a body of 1 MB in a chunk",
            message(f"POST {TOKENS} HTTP/1.1", "Transfer-Encoding: chunked") + b"f4240\r\n" + b"x" * 1000000,
        ),
        ("a field of 64 KB", audit(f"Pad: {'x' * 65536}")),
        ("5,000 fields", audit(*many)),
        ("a target of 64 KB", message(f"GET /v1/{'x' * 65536} HTTP/1.1")),
        ("a method of 64 KB", message(f"{'X' * 65536} {AUDIT} HTTP/1.1")),
    )
    told = all_passed(port, "back", [sent for _, sent in attempts])
    for (name, _), (statuses, _) in zip(attempts, told, strict=True):
        tally.judge(f"{name} is refused", "" if all(it >= 400 for it in statuses) else f"{statuses}")
    tally.judge("and the front goes on", unlike(passed(port, "back", audit())[0], [200]))


def of_numbers(tally, port):
    """A card number in parts of a message that a log may have: each is answered or not, and never logged."""
    attempts = (
        message(f"{NUMBER} {AUDIT} HTTP/1.1"),
        message(f"GET {AUDIT} HTTP/1.1", f"User-Agent: {NUMBER}", f"Referer: https://x/{NUMBER}"),
        message(f"GET {AUDIT} HTTP/1.1", f"X-Forwarded-For: {NUMBER}", f"Cookie: {NUMBER}"),
        message(f"GET {AUDIT} HTTP/1.1").replace(b"Host: localhost", f"Host: {NUMBER}".encode()),
        message(f"GET {AUDIT} {NUMBER}"),
        message(f"GET /v1/merchants/{NUMBER[:4]}-{NUMBER[4:]} HTTP/1.1"),
        message(f"GET /v1/merchants/41-1111-11111/tokens/{NUMBER} HTTP/1.1"),
        message(f"GET {TOKENS}/x%20{NUMBER}%22,%22x HTTP/1.1"),
        message(f'GET {TOKENS}/{NUMBER[:15]}" HTTP/1.1'),
        f"{NUMBER}\r\n\r\n".encode(),
        message(f"GET {AUDIT} HTTP/1.1", NUMBER),
    )
    for statuses, _ in all_passed(port, "back", attempts):
        tally.judge("a number in a message's head ends no front", "" if len(statuses) < 2 else f"{statuses}")
