"""Scripts: lines of words that ask a vault's file for something, each with its answer behind ` = `.

open CALLER MERCHANT SINGLE MULTI NOW       sets the merchant, where the caller gets all rights
set MERCHANT SINGLE MULTI NOW [LEAD]        grant CALLER MERCHANT RIGHT NOW [UNTIL]
withdraw CALLER MERCHANT RIGHT NOW          tokenize CALLER MERCHANT REQUEST USE NUMBER DIGITS NOW
audit CALLER MERCHANT NOW                   detokenize, view, revoke or purge CALLER MERCHANT TOKEN NOW
made MERCHANT                               how many tokens its rows are
dead CALLER MERCHANT NOW                    how many a sweep of a copy purges, and which
check, migrate or pipe                      what that says, or how it refuses the file
run SQL                                     changes the file by Python's sqlite3
number SQL                                  the number that sqlite3 reads of a copy, or `none`
"""

import itertools
import json
import sqlite3
from pathlib import Path

from model.vault import RIGHTS
from runs import paths
from shared import messages, rows, shop
from shared.commands import TARGETS
from shared.files import copied
from shared.runs import run, side_by_side
from shared.tally import unlike

# The words of an answer, by a member that no other kind of answer has.
TOLD = {
    "token": "{token} {expires}",
    "number": "{number}",
    "masked": "{masked} {use} {birth} {expires} {state}",
    "made": "{made} {given} {denied}",
    "refused": "refused {refused}",
    "done": "done",
}
# Lines that ask by a message.
ASKING = ("tokenize", *TARGETS)


def message_of(words):
    """The moment and the digits of a line that asks by a message, and the message."""
    right, caller, merchant, *rest = words
    if right == "tokenize":
        request, use, number, digits, now = rest
        return now, digits, messages.token_asked(request, messages.order(number, use), merchant, caller)
    *token, now = rest
    method, target = TARGETS[right]
    place = f"/v1/merchants/{merchant}" + target.format(token="".join(token))
    return now, "0", messages.asked(method, place, caller)


def told(body):
    """A body of an answer in words."""
    found = json.loads(body)
    return next(words.format(**found) for member, words in TOLD.items() if member in found)


def asked(program, file, lines):
    """The answers to messages that one moment and the same digits belong to, in one run."""
    parts = [message_of(line.split()) for line in lines]
    now, digits, _ = parts[0]
    text = b"".join(message for *_, message in parts)
    ran = run(program, "pipe", "--now", now, "--digits", digits, file, given=text)
    return [told(answer.body) for answer in messages.answers_in(ran.out)]


def opened(program, file, caller, merchant, single, multi, now):
    """A merchant is set, and the caller gets all rights there."""
    shop.made(program, file, single, multi, {caller: tuple(RIGHTS)}, merchant, now)
    return "done"


def was_set(program, file, merchant, single, multi, now, lead=6):
    """What the setting of a merchant says."""
    return said(program, "merchant", "--now", now, "--lead", lead, file, merchant, single, multi)


def was_granted(program, file, caller, merchant, right, now, until=None):
    """What the giving of a right says."""
    end = () if until is None else ("--until", until)
    return said(program, "grant", "--now", now, *end, file, caller, merchant, right)


def was_withdrawn(program, file, caller, merchant, right, now):
    """What the taking away of a right says."""
    return said(program, "withdraw", "--now", now, file, caller, merchant, right)


def said(program, *words):
    """The output of a run, without its line's end."""
    return run(program, *words).out.decode().removesuffix("\n")


def made(_, file, merchant):
    """How many tokens a merchant has; its count has to be the same."""
    return str(sum(key[:2] == ("entry", merchant) for key in rows.read(file)[1]))


def purged_in(file):
    """The tokens of a file whose numbers are purged."""
    found = rows.read(file)[1]
    return {key[2] for key, row in found.items() if key[0] == "entry" and row.number is None}


def dead(program, file, caller, merchant, now):
    """What a sweep purges of a copy, and how many it says."""
    copy = copied(Path(file), Path(f"{file}-swept"))
    many = said(program, "sweep", "--now", now, copy, caller, merchant).removeprefix("purged ")
    return " ".join((many, *sorted(purged_in(copy) - purged_in(file))))


def changed(_, file, *words):
    """Statements of SQL are run over a file."""
    return paths.changed(file, " ".join(words))


def number(_, file, *words):
    """The number that a query shows of a copy, so that the file keeps its log; `none` where it has no row."""
    conn = sqlite3.connect(copied(Path(file), Path(f"{file}-read")))
    try:
        found = conn.execute(" ".join(words)).fetchone()
    finally:
        conn.close()
    return str(found[0]) if found else "none"


# What answers a line that asks by no message, by its first word.
OTHERS = {
    "open": opened,
    "set": was_set,
    "grant": was_granted,
    "withdraw": was_withdrawn,
    "made": made,
    "dead": dead,
    "check": paths.checked,
    "migrate": paths.moved,
    "pipe": paths.opened,
    "run": changed,
    "number": number,
}


def answers(program, file, lines):
    """The answers to lines, in their order. Messages that follow one another with one moment and the same
    digits go in one run."""

    def together(numbered):
        place, line = numbered
        words = line.split()
        return message_of(words)[:2] if words[0] in ASKING else place

    for _, group in itertools.groupby(enumerate(lines), together):
        few = [line for _, line in group]
        kind, *words = few[0].split()
        if kind in ASKING:
            yield from asked(program, file, few)
        else:
            yield OTHERS[kind](program, file, *words)


def faults(program, file, lines):
    """The questions of a script, each with its fault if it has one."""
    pairs = [line.rsplit(" = ", 1) for line in lines]
    found = answers(program, file, [question for question, _ in pairs])
    every = zip(pairs, itertools.chain(found, itertools.repeat("nothing")))
    return [(question, unlike(answer, wanted)) for (question, wanted), answer in every]


def follow(case, lines):
    """Each line of a script is answered over the case's file as it says."""
    for question, fault in faults(case.program, case.file, lines):
        case.judge(question, fault)


def judge_each(tally, program, folder, cases, make=None):
    """Each case is a script by its name, over a file of its own; that is made first, or isn't there."""
    Path(folder).mkdir()

    def tried(numbered):
        place, text = numbered
        file = f"{folder}/{place}.db"
        if make:
            make(file)
        return faults(program, file, text.splitlines())

    for name, found in zip(cases, side_by_side(tried, enumerate(cases.values()))):
        for question, fault in found:
            tally.judge(f"{name}, {question}", fault)
