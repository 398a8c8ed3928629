"""What the service is asked, so that each of its statuses comes."""

import json

TOKENS = "/v1/merchants/shop1/tokens"
NUMBER = "4111111111111111"


class Request:
    """A message, and the status that it is to have."""

    def __init__(self, status, method, target, caller="till-1", request=None, body="", fields=()):
        self.status, self.method, self.target = status, method, target
        named = [f"{method} {target} HTTP/1.1", f"X-Vault-Caller: {caller}", *fields]
        if request is not None:
            named.append(f"X-Vault-Request: {request}")
        if body:
            named.append(f"Content-Length: {len(body)}")
        self.bytes = ("\r\n".join((*named, "", "")) + body).encode()


def order(number=NUMBER, use="single"):
    return json.dumps({"number": number, "use": use})


def by_a_till():
    """Requests for tokens, good and bad."""
    yield Request(200, "POST", TOKENS, request=1, body=order())
    yield Request(400, "POST", TOKENS, request=2, body=order("4111111111111112"))
    yield Request(400, "POST", TOKENS, request=2, body=order(use="often"))
    yield Request(400, "POST", TOKENS, request=0, body=order())
    yield Request(400, "POST", TOKENS, request=2, body="{}")
    yield Request(403, "POST", TOKENS, caller="guest", request=2, body=order())
    yield Request(404, "POST", "/v1/merchants/nobody/tokens", request=2, body=order())
    yield Request(405, "PUT", TOKENS, request=2, body=order())
    yield Request(409, "POST", TOKENS, request=1, body=order("4222222222222"))
    yield Request(422, "POST", TOKENS, request=3, body=order(use="multi"))
    yield Request(411, "POST", TOKENS, request=3, fields=("Transfer-Encoding: chunked",))
    yield Request(413, "POST", TOKENS, request=3, body="x" * 4097)
    yield Request(431, "POST", TOKENS, request=3, fields=(f"Pad: {'x' * 9000}",))


def by_a_back_office(token):
    """Requests about a token."""
    place = f"{TOKENS}/{token}"
    yield Request(200, "GET", place, caller="back")
    yield Request(200, "POST", f"{place}/number", caller="back")
    yield Request(409, "DELETE", place, caller="back")
    yield Request(403, "POST", f"{place}/number", caller="guest")
    yield Request(404, "GET", f"{TOKENS}/1111111111111111", caller="back")
    yield Request(400, "GET", f"{TOKENS}/12", caller="back")
    yield Request(405, "PUT", place, caller="back")
    yield Request(405, "GET", f"{place}/number", caller="back")
    yield Request(405, "GET", f"{place}/revoke", caller="back")
    yield Request(405, "POST", "/v1/merchants/shop1/audit", caller="back")
    yield Request(200, "POST", f"{place}/revoke", caller="back")
    yield Request(410, "POST", f"{place}/number", caller="back")
    yield Request(200, "DELETE", place, caller="back")
    yield Request(410, "GET", place, caller="back")
    yield Request(410, "POST", f"{place}/revoke", caller="back")
    yield Request(200, "GET", "/v1/merchants/shop1/audit", caller="back")
    yield Request(404, "GET", "/v1/merchants/nobody/audit", caller="back")
    yield Request(403, "GET", "/v1/merchants/shop1/audit", caller="guest")
