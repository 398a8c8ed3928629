#!/usr/bin/env python3
"""A back office: the rows of a CSV file get tokens, a number is brought back, and dead tokens are purged.

    back_office.py --step STEP URL FILE MERCHANT ROWS [--caller NAME] [--token T] [--program VAULT]
        [--tries N] [--certificate PEM --key PEM --authority PEM]

`--step batch` sends ROWS, a CSV file `request,number,use`, to `vault batch`, and `--step sweep` purges dead
tokens: both on the machine that has FILE, while no service has it open. A batch that was stopped is sent
again as it was. `--step number` brings the number of T back through the service at URL. A step that isn't
done ends with a line on standard error and a status above 0; so does a batch of which a row is refused.
"""

import argparse
import csv
import http.client
import io
import json
import ssl
import subprocess
import sys
import time
import urllib.parse


def ended(line, status=1):
    """Ends the step with a line on standard error and a status."""
    print(line, file=sys.stderr)
    raise SystemExit(status)


def run(arguments, word, again, rows=None):
    """What the program prints for a step, and its status 0 or 1; where it was stopped, `again` says what to
    do."""
    words = [arguments.program, word, arguments.file, arguments.caller, arguments.merchant]
    try:
        ran = subprocess.run(words, stdin=rows, capture_output=True, text=True)
    except OSError as error:
        ended(f"{arguments.program} can't be run: {error.strerror}")
    line = ran.stderr.strip().replace("\nvault:", ":") or "the program was killed"
    if line.endswith("another program has FILE open"):
        ended(f"{line}: stop the service that has the file, and {again}", 3)
    if ran.returncode == 4 or ran.returncode < 0:
        ended(f"{line}: {again}", 4)
    if ran.returncode > 1:
        ended(line, ran.returncode)
    return ran.stdout, ran.returncode


def batch(arguments):
    """Prints the rows of a batch's answer: request, token and end, or `refused` and a number."""
    try:
        with open(arguments.rows, "rb") as rows:
            told, status = run(arguments, "batch", "send the same rows again", rows)
    except OSError as error:
        ended(f"{arguments.rows} can't be read: {error.strerror}")
    if told.startswith("refused"):
        ended(f"the batch is {told.strip()}", status)
    for row in csv.DictReader(io.StringIO(told)):
        print(*row.values())
    if status:
        ended("some rows are refused", status)


def sweep(arguments):
    """Prints how many dead tokens were purged; the service has to be stopped."""
    told, status = run(arguments, "sweep", "sweep again")
    if status:
        ended(f"the sweep is {told.strip()}", status)
    print(told.strip())


def connection(arguments):
    """A new connection. Each request has its own, and there is no pool: a vault serves one connection after
    the other, so one that stays open would hold up all other callers where no front is between."""
    place = urllib.parse.urlsplit(arguments.url)
    if place.scheme == "http":
        return http.client.HTTPConnection(place.netloc, timeout=30)
    try:
        context = ssl.create_default_context(cafile=arguments.authority)
        if arguments.certificate:
            context.load_cert_chain(arguments.certificate, arguments.key)
    except OSError as error:
        ended(f"the certificates can't be used: {error}")
    return http.client.HTTPSConnection(place.netloc, timeout=30, context=context)


def sent(peer, arguments):
    """The status of an answer and what it says, or None and why there is no answer."""
    merchant, token = (urllib.parse.quote(it, safe="") for it in (arguments.merchant, arguments.token))
    fields = {"X-Vault-Caller": arguments.caller, "Connection": "close"}
    try:
        peer.request("POST", f"/v1/merchants/{merchant}/tokens/{token}/number", headers=fields)
        answer = peer.getresponse()
        return answer.status, dict(json.loads(answer.read()))
    except ssl.SSLCertVerificationError as error:
        ended(f"the front's certificate isn't trusted: {error.verify_message}")
    except (OSError, http.client.HTTPException) as error:
        return None, type(error).__name__
    except (TypeError, ValueError):
        return answer.status, {}
    finally:
        peer.close()


def number(arguments):
    """Prints that a token's number came back; a caller of one's own would go on with `told["number"]`."""
    for attempt in range(arguments.tries):
        time.sleep(0.2 if attempt else 0)
        status, told = sent(connection(arguments), arguments)
        if status == 200 and "number" in told:
            return print(f"a number of {len(told['number'])} digits")
        if status and "refused" in told:
            ended(f"refused {told['refused']}")
        if status and 400 <= status < 500 and status not in (408, 429):
            ended(f"refused front {told.get('front', status)}")
    ended(f"no number came: {f'status {status}' if status else told}; ask again")


def main():
    parser = argparse.ArgumentParser()
    for word in ("url", "file", "merchant", "rows"):
        parser.add_argument(word)
    parser.add_argument("--program", default="vault")
    parser.add_argument("--step", choices=("batch", "number", "sweep"), required=True)
    parser.add_argument("--caller", help="who asks: of a batch till-1 and else back, where it is left out")
    parser.add_argument("--token", default="", help="the token whose number is asked for")
    parser.add_argument("--tries", type=int, default=50, help="how often the service is asked at most")
    for word in ("--certificate", "--key", "--authority"):
        parser.add_argument(word)
    arguments = parser.parse_args()
    if arguments.caller is None:
        arguments.caller = "till-1" if arguments.step == "batch" else "back"
    {"batch": batch, "number": number, "sweep": sweep}[arguments.step](arguments)


main()
