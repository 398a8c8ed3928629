"""What a connection is answered: for each message its answer, and for the fault behind them one more."""

import itertools
import json
from typing import NamedTuple

from model.refusals import refused
from model.rules import NO_TOKEN, outcome
from reader import connection, fields, requests


class Due(NamedTuple):
    """An answer that is due: its status, its body, the methods that it allows, and whether it closes."""

    status: int
    body: bytes
    allow: str | None
    closes: bool


class Dialogue(NamedTuple):
    """The answers that are due, and those of which one may follow them: None stands for no answer."""

    answers: list
    last: list


def due(reply, closes, allow=None):
    """The answer that says a reply: a status and what the body has."""
    status, body = reply
    return Due(status, json.dumps(body, sort_keys=True, separators=(",", ":")).encode(), allow, closes)


def answer(rows, message, now, draw):
    """The answer to one message, whose changes are made. `draw` answers the candidates for a token of a
    number."""
    closes = fields.closes(message.head)
    try:
        command = requests.command_of(message)
    except requests.BadMethod as fault:
        return due(refused(57), closes, fault.args[1])
    except requests.Refused as fault:
        return due(refused(fault.number), closes)
    reply, changes = outcome(rows, command, now, draw(command.number))
    rows.put(changes)
    return due(refused(12) if reply == NO_TOKEN else reply, closes)


def dialogue(rows, text, now, draw):
    """What is answered to the bytes of a connection; the rows are changed by its messages."""
    reading = connection.read(text)
    found = [answer(rows, message, now, draw) for message in reading.messages]
    last = [fault and due(refused(fault), True) for fault in sorted(reading.faults, key=str)]
    return Dialogue(found, last)


def drawn(digits):
    """How candidates come of 300 drawn digits: the first ones of each 15, and the number's last four."""
    full = (digits * 300)[:300]

    def draw(number):
        for place in range(0, 300, 15):
            yield full[place : place + len(number) - 4] + number[-4:]

    return draw


def hidden():
    """Candidates for where nobody knows what is drawn: one after the other, and none that a message names."""
    places = itertools.count(1)

    def draw(number):
        for place in places:
            yield f"{place:0{len(number) - 4}}{number[-4:]}"

    return draw
