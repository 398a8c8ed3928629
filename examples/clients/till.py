#!/usr/bin/env python3
"""A till that asks a vault for tokens through its front.

    till.py URL MERCHANT [--certificate PEM --key PEM --authority PEM] [--caller NAME] [--tries N]

It reads card numbers from standard input, one a line, and prints a token and its end for each. A request that
is refused isn't repeated: its line is `refused` and the vault's number, or `refused front` and the front's.
Each new request has a number of its own, drawn from the system's randomness. Where an answer is lost, the
vault is away or the front has too many requests, the same request is sent again with the same number, after a
pause that doubles up to ten seconds: the vault answers its first token, so no request is done twice. A
merchant that isn't known is asked for again for some seconds where a front is between: its route may be on its
way. Each request has a reference, by which the front's log has it. The exit status is 1 where a request was
refused or has no answer.
"""

import argparse
import http.client
import json
import secrets
import ssl
import sys
import time
import urllib.parse


PATIENCE = 30  # seconds for an answer
UNKNOWN = 7  # a merchant that isn't known
UNKNOWN_TRIES = 6


class Lost(Exception):
    """No answer came, or one that says to come again: the request may be sent again, after so many seconds."""

    def __init__(self, why, after=0):
        super().__init__(why)
        self.after = after


def connection(arguments):
    """A new connection. Each request has its own, and there is no pool: a vault serves one connection after
    the other, so one that stays open would hold up all other callers where no front is between."""
    place = urllib.parse.urlsplit(arguments.url)
    if place.scheme == "http":
        return http.client.HTTPConnection(place.netloc, timeout=PATIENCE)
    try:
        context = ssl.create_default_context(cafile=arguments.authority)
        if arguments.certificate:
            context.load_cert_chain(arguments.certificate, arguments.key)
    except OSError as error:
        raise SystemExit(f"the certificates can't be used: {error}") from None
    return http.client.HTTPSConnection(place.netloc, timeout=PATIENCE, context=context)


def reference():
    """Sixteen letters by which the front's log has a request; digits might be taken for a card number."""
    return "till-" + "".join(secrets.choice("abcdefghijklmnop") for _ in range(16))


def sent(peer, arguments, request, mark, number):
    """The status and the body of the answer to one request, and after how many seconds to come again."""
    fields = {"X-Vault-Request": str(request), "X-Vault-Caller": arguments.caller, "Connection": "close"}
    fields["X-Vault-Reference"] = mark
    target = f"/v1/merchants/{urllib.parse.quote(arguments.merchant, safe='')}/tokens"
    try:
        peer.request("POST", target, json.dumps({"number": number, "use": "single"}), fields)
        answer = peer.getresponse()
        after = answer.getheader("Retry-After", "0")
        return answer.status, answer.read(), int(after) if after.isdecimal() else 0
    except ssl.SSLCertVerificationError as error:
        raise SystemExit(f"the front's certificate isn't trusted: {error.verify_message}") from None
    except (OSError, http.client.HTTPException) as error:
        raise Lost(type(error).__name__) from None
    finally:
        peer.close()


def judged(status, body, after):
    """What an answer says: a token and its end, or `refused` and by what."""
    try:
        told = dict(json.loads(body))
    except (TypeError, ValueError):
        told = {}
    if status == 200 and "token" in told:
        return told["token"], told["expires"]
    if "refused" in told:
        return "refused", told["refused"]
    if 400 <= status < 500 and status not in (408, 429):
        return "refused", "front", told.get("front", status)
    raise Lost(f"status {status}", after)


def token(arguments, number):
    """What is answered for a card number, by one request that is repeated until it has an answer."""
    request, mark, after = 1 + secrets.randbelow(2**63 - 1), reference(), 0
    unknowns = min(UNKNOWN_TRIES, arguments.tries) if arguments.url.startswith("https:") else 1
    for attempt in range(arguments.tries):
        time.sleep(max(after, min(10, 0.05 * 2**attempt)) if attempt else 0)
        try:
            told = judged(*sent(connection(arguments), arguments, request, mark, number))
            unknowns -= told == ("refused", UNKNOWN)
            if told != ("refused", UNKNOWN) or unknowns <= 0:
                return told
            raise Lost(f"refused {UNKNOWN}")
        except Lost as why:
            after = why.after
            print(f"request {request} has no answer: {why}", file=sys.stderr)
    raise SystemExit(f"request {request} has no answer yet: send it again with this number")


def main():
    parser = argparse.ArgumentParser()
    for word in ("url", "merchant"):
        parser.add_argument(word)
    parser.add_argument("--caller", default="till-1", help="for trials without a front, which sets the name")
    parser.add_argument("--tries", type=int, default=10, help="how often a request is sent at most")
    for word in ("--certificate", "--key", "--authority"):
        parser.add_argument(word)
    arguments = parser.parse_args()
    refused = 0
    for line in sys.stdin:
        told = token(arguments, line.strip())
        refused += told[0] == "refused"
        print(*told, flush=True)
    if refused:
        raise SystemExit(f"requests that were refused: {refused}")


main()
