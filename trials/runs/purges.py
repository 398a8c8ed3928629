"""Dead tokens, whose numbers a sweep purges at one moment."""

import itertools
from pathlib import Path

from runs.connections import made
from runs.rows import HEADER
from shared import messages
from shared.files import copied
from shared.runs import run
from shared.tally import unlike

TOKENS = ("0000000000001111", "1111111111111111", "2222222222221111")
NUMBER = '{"number":"4111111111111111"}'


def counts(many, given, denied):
    """The body of an audit."""
    return f'{{"denied":{denied},"given":{given},"made":{many}}}'


# Sweeps by a caller at a merchant and a moment, and what they say; numbers of a token and counts that are
# asked for at a moment, and what the body of each answer is.
CASES = {
    "dead tokens are purged, and live ones stay": (
        ("sweep", "till-1 shop1 1065", "purged 2"),
        ("sweep", "till-1 shop1 1065", "purged 0"),
        ("number", "0 1065", '{"refused":14}'),
        ("number", "1 1065", NUMBER),
        ("number", "2 1065", '{"refused":14}'),
        ("audit", "1065", counts(3, 1, 2)),
    ),
    "whoever has no right purges nothing; where no token is dead nothing is refused": (
        ("sweep", "guest shop1 1070", "refused 8"),
        ("number", "0 1070", '{"refused":16}'),
        ("number", "2 1070", '{"refused":15}'),
        ("sweep", "till-1 shop1 1070", "purged 3"),
        ("sweep", "guest shop1 1070", "purged 0"),
    ),
    "a merchant that isn't known has no tokens": (
        ("sweep", "till-1 shop2 1070", "purged 0"),
        ("sweep", "till-1 shop1 1070", "purged 3"),
    ),
    "an earlier moment is the merchant's": (
        ("token", "4 4 1060", '{"expires":1120,"token":"4444444444441111"}'),
        ("sweep", "till-1 shop1 1000", "purged 2"),
    ),
}


def said(program, file, kind, words):
    """What a step says: the line of a sweep, or the body of an answer."""
    *some, now = words.split()
    if kind == "sweep":
        return run(program, "sweep", "--now", now, file, *some).out.decode().strip()
    digit = 0
    if kind == "token":
        request, digit = some
        text = messages.token_asked(request)
    elif kind == "audit":
        text = messages.asked("GET", "/v1/merchants/shop1/audit", "till-1")
    else:
        target = f"/v1/merchants/shop1/tokens/{TOKENS[int(some[0])]}/number"
        text = messages.asked("POST", target, "till-1")
    ran = run(program, "pipe", "--now", now, "--digits", digit, file, given=text)
    return messages.first_answer(ran.out)[0].body.decode()


def three(program, file):
    """A shop with three tokens, made at 1000, 1010 and 1020 with a life of 60; the third is revoked."""
    made(program, file)
    for place, token in enumerate(TOKENS):
        said(program, file, "token", f"{place + 1} {place} {1000 + 10 * place}")
    text = messages.asked("POST", f"/v1/merchants/shop1/tokens/{TOKENS[2]}/revoke", "till-1")
    run(program, "pipe", "--now", 1020, file, given=text)
    return file


def judge_many(tally, program, file):
    """More are purged than are asked for at a time."""
    made(program, file)
    rows = b"".join(b"%d,4111111111111111,single\n" % (it + 1) for it in range(1001))
    run(program, "batch", "--now", 1000, file, "till-1", "shop1", given=HEADER + rows)
    told = [said(program, file, "audit", "1060"), said(program, file, "sweep", "till-1 shop1 1060")]
    told.append(said(program, file, "audit", "1060"))
    wanted = [counts(1001, 0, 0), "purged 1001", counts(1001, 0, 0)]
    tally.judge("1001 dead tokens", unlike(told, wanted), "sweeps")


def judged(tally, program):
    """All cases, each at a shop of its own."""
    files = (Path(f"swept{it}.db") for it in itertools.count())
    whole = three(program, next(files))
    for name, steps in CASES.items():
        file = copied(whole, next(files))
        for kind, words, wanted in steps:
            fault = unlike(said(program, file, kind, words), wanted)
            tally.judge(f"{name}: {kind} {words}", fault, "sweeps")
    judge_many(tally, program, next(files))
