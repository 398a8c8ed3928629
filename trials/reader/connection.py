"""The bytes of a connection: its messages, and how they end."""

from typing import NamedTuple

from reader import fields, heads


class Message(NamedTuple):
    """A head and its body."""

    head: heads.Head
    body: bytes


class Reading(NamedTuple):
    """The messages of some bytes, and the faults that may be answered behind them: numbers, or None for none.
    One fault is all that is ever answered, and which of several depends on how the bytes were cut."""

    messages: list
    faults: set


def read(text):
    """What some bytes are."""
    found = []
    while True:
        head, faults = heads.head_in(text)
        if head is None:
            return Reading(found, faults)
        size, fault = fields.body_size(head)
        if fault is not None:
            return Reading(found, {fault})
        end = head.size + size
        if len(text) < end:
            return Reading(found, {None})
        found.append(Message(head, text[head.size : end]))
        if fields.closes(head):
            return Reading(found, {None})
        text = text[end:]
