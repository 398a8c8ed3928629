"""Lines in the log that no front writes, and torn files: who.py counts them, and tells of the rest."""

import gzip
import json
import os
import subprocess
import sys

from shared.tally import unlike

LINE = {
    "time": "2026-11-02T10:00:00Z",
    "from": "127.0.0.1",
    "caller": "night",
    "merchant": "shop1",
    "token": "****0001",
    "asked": "detokenize",
    "status": 200,
}
WORDS = ("shop1", "--until", "2026-11-02", "--each")


def line(**other):
    return json.dumps({**LINE, **other}).encode()


# Lines that are none, and why.
ODD = {
    "deep": b"[" * 60000,
    "deep within": b'{"time":"2026-11-02T10:00:00Z","caller":' + b"[" * 60000,
    "a number of 5000 digits": line(status=1).replace(b'"status": 1', b'"status": 1' + b"0" * 5000),
    "eight megabytes": b'{"time":"' + b"x" * 8000000,
    "NUL": b"\0" * 4096,
    "no UTF-8": b'{"time":"\xff\xfe"}',
    "a time before all times": line(time="0001-01-01T00:00:00+23:59"),
    "a caller that is a list": line(caller=["night"]),
    "a status that is a text": line(status="200"),
    "a list": b"[1]",
    "nothing": b"",
}


def who(repository, *words):
    words = [sys.executable, f"{repository}/deploy/logs/who.py", *words, "--folder", "odd"]
    return subprocess.run(words, capture_output=True)


def judge(tally, repository):
    """Each odd line between two that are sound; signs that can't be printed; a torn file and a torn line."""
    os.mkdir("odd")
    for name, odd in ODD.items():
        with open("odd/front.log", "wb") as file:
            file.write(b"\n".join((line(), odd, line(caller="back"), b"")))
        ran = who(repository, *WORDS)
        told = [ran.returncode, ran.stdout.count(b" 200"), ran.stderr]
        tally.judge(f"who.py: {name}", unlike(told, [0, 2, b"lines that aren't the log's: 1\n"]))
    odd = "\x1b]0;pwn\x07 \u202e\udc80\x9b"
    with open("odd/front.log", "wb") as file:
        file.write(line(caller=odd, token=odd, reference=odd, refused=odd) + b"\n" + line() + b"\n")
    for words in (WORDS, WORDS[:-1]):
        ran = who(repository, *words)
        signs = {it for it in ran.stdout + ran.stderr if not (32 <= it < 127 or it == 10)}
        told = signs, ran.returncode
        tally.judge(f"who.py: it prints what can be printed, {words[-1]}", unlike(told, (set(), 0)))
    with open("odd/front.log-20261101.gz", "wb") as file:
        file.write(gzip.compress((line() + b"\n") * 1000)[:-20])
    ran = who(repository, *WORDS)
    fits = b" night ****0001 200\n" in ran.stdout and b"can't be read whole" in ran.stderr
    fits = fits and ran.returncode == 1
    tally.judge("who.py: a torn file is said, and the others are read", "" if fits else f"{ran}"[-300:])
    # what a full disk leaves of a line stands before the next one
    os.remove("odd/front.log-20261101.gz")
    with open("odd/front.log", "wb") as file:
        file.write(line().replace(b": ", b":")[:70] + line().replace(b": ", b":") + b"\n")
    ran = who(repository, *WORDS)
    tally.judge("who.py: a torn line before a whole one", unlike(ran.stdout.count(b" 200"), 1))
