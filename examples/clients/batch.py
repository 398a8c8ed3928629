#!/usr/bin/env python3
"""A batch while the service runs: the rows of a CSV file get tokens through the front, several at a time.

    batch.py URL MERCHANT ROWS ANSWERS [--certificate PEM --key PEM --authority PEM] [--caller NAME]
        [--connections N] [--tries N]

ROWS is what `vault batch` takes, `request,number,use`, and ANSWERS becomes what it prints, line for line:
`request,answer,detail` in the order of the rows. Where ANSWERS is there already, a run that was stopped goes
on behind its last whole line. A row that has no line yet is sent again with its request number, whether or
not it was answered before: the vault answers its first token. A merchant that isn't known is asked for again
for some seconds where a front is between: its route may be on its way. Rows with the same request number are
sent one after the other, in their order. There may be any number of rows; the caller is that of the certificate.

The exit status is that of `vault batch`: 0, or 1 where a row is refused, or 4 where it stopped at a row that
isn't three fields (44), at another first line (40) or for want of an answer. A front that refuses the caller
ends it with 1.
"""

import argparse
import collections
import concurrent.futures
import csv
import http.client
import json
import os
import re
import ssl
import sys
import threading
import time
import urllib.parse
import zlib

HEADER = ["request", "number", "use"]
FIRST_LINE = b"request,answer,detail\n"
REQUEST = re.compile(r"[1-9][0-9]{0,18}")
UNKNOWN = 7  # a merchant that isn't known, which behind a front may be a route that is on its way
UNKNOWN_SECONDS = 3  # for which it is asked for again, once for the whole batch
MOST_TEXT = 64  # no number and no use is as long, so what is behind it changes no refusal
AHEAD = 32  # rows that are under way for each connection


class Stopped(Exception):
    """The batch ends here: a line for standard error, and the exit status."""


class Lost(Exception):
    """No answer came, or one that says to come again."""


def rows(path):
    """The first line of the file and its rows, as texts of a letter for each byte."""
    with open(path, encoding="latin-1", newline="") as file:
        if file.read(3) != "\xef\xbb\xbf":
            file.seek(0)
        records = (it for it in csv.reader(file) if it)
        if next(records, None) != HEADER:
            raise Stopped("stopped 40: the first line isn't request,number,use", 4)
        yield HEADER
        for record in records:
            if len(record) != 3:
                raise Stopped("stopped 44: a row hasn't three fields", 4)
            yield record


def shown(request):
    """The request number of a row as its line has it: 0 where the row has none."""
    return request if REQUEST.fullmatch(request) and int(request) < 2**63 else "0"


class Front:
    """Asks the front; each thread has a connection of its own, which stays open."""

    def __init__(self, arguments):
        self.arguments, self.mine, self.over = arguments, threading.local(), threading.Event()
        self.unknown_since = None
        self.place = urllib.parse.urlsplit(arguments.url)
        self.target = f"/v1/merchants/{urllib.parse.quote(arguments.merchant, safe='')}/tokens"
        self.context = None
        if self.place.scheme == "https":
            self.context = ssl.create_default_context(cafile=arguments.authority)
            if arguments.certificate:
                self.context.load_cert_chain(arguments.certificate, arguments.key)

    def connection(self):
        """This thread's connection."""
        peer = getattr(self.mine, "peer", None)
        if peer is None:
            words = {"timeout": 150}
            made = http.client.HTTPSConnection if self.context else http.client.HTTPConnection
            peer = made(self.place.netloc, **words, **({"context": self.context} if self.context else {}))
            self.mine.peer = peer
        return peer

    def sent(self, request, number, use):
        """The status and the body of the answer to one request."""
        fields = {"X-Vault-Request": request, "X-Vault-Caller": self.arguments.caller}
        if not self.context:
            fields["Connection"] = "close"
        peer = self.connection()
        try:
            peer.request("POST", self.target, json.dumps({"number": number, "use": use}), fields)
            answer = peer.getresponse()
            return answer.status, answer.read()
        except ssl.SSLCertVerificationError as error:
            raise Stopped(f"the front's certificate isn't trusted: {error.verify_message}", 1) from None
        except (OSError, http.client.HTTPException) as error:
            peer.close()
            raise Lost(type(error).__name__) from None

    def answered(self, request, number, use):
        """What is told of one request: an answer and its detail, or `Lost`."""
        status, body = self.sent(request, number, use)
        try:
            told = dict(json.loads(body))
        except (TypeError, ValueError):
            told = {}
        if status == 200 and "token" in told:
            return told["token"], told["expires"]
        if told.get("refused") == UNKNOWN and self.may_be_on_its_way():
            raise Lost(f"refused {UNKNOWN}")
        if "refused" in told:
            return "refused", told["refused"]
        if 400 <= status < 500 and status not in (408, 429):
            raise Stopped(f"the front refuses this by {told.get('front', status)}", 1)
        raise Lost(f"status {status}")

    def may_be_on_its_way(self):
        """Whether a merchant that isn't known may yet be: behind a front, in the first seconds."""
        if self.unknown_since is None:
            self.unknown_since = time.monotonic()
        return self.context and time.monotonic() - self.unknown_since < UNKNOWN_SECONDS

    def line(self, row):
        """The line of a row, which is asked for until it has an answer."""
        request, number, use = row[0], row[1][:MOST_TEXT], row[2][:MOST_TEXT]
        if shown(request) == "0":
            return b"0,refused,5\n"
        last = Lost("the batch is over")
        for attempt in range(self.arguments.tries):
            if self.over.wait(min(10, 0.05 * 2**attempt) if attempt else 0):
                break
            try:
                answer, detail = self.answered(request, number, use)
                return f"{request},{answer},{detail}\n".encode()
            except Lost as why:
                last = why
        raise Stopped(f"request {request} has no answer ({last}): send the same rows again", 4)


def begun(path):
    """The file of the answers, behind its last whole line, and the request numbers that it has."""
    file = open(path, "a+b")
    file.seek(0)
    found = file.read()
    whole = found[: found.rfind(b"\n") + 1]
    if whole and not whole.startswith(FIRST_LINE):
        raise Stopped(f"{path} is another file", 1)
    file.truncate(len(whole))
    file.seek(0, os.SEEK_END)
    if not whole:
        file.write(FIRST_LINE)
    lines = whole.splitlines()[1:]
    return file, [line.split(b",")[0].decode() for line in lines], sum(b",refused," in it for it in lines)


def behind(records, done):
    """The rows that have no line yet; each of the others has to be that of its line."""
    for request in done:
        row = next(records, None)
        if row is None or request != shown(row[0]):
            raise Stopped("the answers that are there are of other rows", 1)
    return records


def under_way(front, records, connections):
    """The lines of the rows in their order, while others are asked for ahead. A row that isn't one is told
    behind the lines of those before it."""
    pools = [concurrent.futures.ThreadPoolExecutor(1) for _ in range(connections)]
    asked, end = collections.deque(), None
    try:
        while True:
            try:
                row = next(records, None)
            except Stopped as why:
                end, row = why, None
            if row is None:
                break
            pool = pools[zlib.crc32(row[0].encode("latin-1")) % connections]
            asked.append(pool.submit(front.line, row))
            if len(asked) >= AHEAD * connections:
                yield asked.popleft().result()
        while asked:
            yield asked.popleft().result()
        if end:
            raise end
    finally:
        front.over.set()
        for pool in pools:
            pool.shutdown(cancel_futures=True)


def run(arguments):
    """Writes a line for each row, and answers how many are refused."""
    records = rows(arguments.rows)
    next(records)  # the first line is read before anything is made
    file, done, refused = begun(arguments.answers)
    with file:
        for line in under_way(Front(arguments), behind(records, done), arguments.connections):
            file.write(line)
            file.flush()
            refused += b",refused," in line
    return refused


def main():
    parser = argparse.ArgumentParser()
    for word in ("url", "merchant", "rows", "answers"):
        parser.add_argument(word)
    parser.add_argument("--caller", default="till-1", help="for trials without a front, which sets the name")
    parser.add_argument("--connections", type=int, default=8, help="how many rows are asked for at a time")
    parser.add_argument("--tries", type=int, default=20, help="how often a request is sent at most")
    for word in ("--certificate", "--key", "--authority"):
        parser.add_argument(word)
    try:
        raise SystemExit(1 if run(parser.parse_args()) else 0)
    except Stopped as why:
        print(why.args[0], file=sys.stderr)
        raise SystemExit(why.args[1]) from None
    except OSError as error:
        print(f"a file can't be used: {error}", file=sys.stderr)
        raise SystemExit(1) from None


main()
