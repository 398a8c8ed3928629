"""The command that a message asks for, or the number of the first refusal that applies."""

import json
import re

from model.cards import passes
from model.vault import MULTI, SINGLE, Command
from reader import fields

PART = r"([^/?]+)"
ROUTES = (
    (re.compile(f"/v1/merchants/{PART}/tokens".encode()), {b"POST": "tokenize"}),
    (re.compile(f"/v1/merchants/{PART}/tokens/{PART}".encode()), {b"GET": "view", b"DELETE": "purge"}),
    (re.compile(f"/v1/merchants/{PART}/tokens/{PART}/number".encode()), {b"POST": "detokenize"}),
    (re.compile(f"/v1/merchants/{PART}/tokens/{PART}/revoke".encode()), {b"POST": "revoke"}),
    (re.compile(f"/v1/merchants/{PART}/audit".encode()), {b"GET": "audit"}),
)
NAME = re.compile(rb"[a-z0-9-]{1,16}")
TOKEN = re.compile(rb"[0-9]{10,19}")
REQUEST = re.compile(rb"[1-9][0-9]{0,18}")
NUMBER = re.compile(r"[0-9](?:[ -]?[0-9]){9,18}")
USES = {"single": SINGLE, "multi": MULTI}


class Refused(Exception):
    """A refusal, by its number."""

    @property
    def number(self):
        return self.args[0]


class BadMethod(Refused):
    """57, with the methods that the target takes."""


def route(head):
    """What is asked for, and the texts of merchant and token in the target."""
    for template, methods in ROUTES:
        found = template.fullmatch(head.target)
        if found:
            if head.method not in methods:
                raise BadMethod(57, b", ".join(methods).decode())
            return methods[head.method], *found.groups()
    raise Refused(56)


def needed(text, pattern, refusal):
    """A text that has to match, or the refusal."""
    if not pattern.fullmatch(text):
        raise Refused(refusal)
    return text.decode()


def sole(head, name):
    """The value of a field that has to be there once."""
    value = fields.sole(head, name)
    if value is None:
        raise Refused(58)
    return value


def no_constant(word):
    """A word such as NaN, which Python would read."""
    raise ValueError(word)


def texts(body):
    """The two texts of a body. Of a member that comes twice the last one counts: RFC 8259 leaves it open."""
    try:
        found = json.loads(body.decode(), object_pairs_hook=list, parse_constant=no_constant)
    except (ValueError, RecursionError):
        raise Refused(59) from None
    values = dict(found) if body.lstrip(b" \t\r\n").startswith(b"{") else {}
    if values.keys() != {"number", "use"}:
        raise Refused(59)
    if not all(isinstance(value, str) and is_text(value) for value in values.values()):
        raise Refused(59)
    return values["number"], values["use"]


def is_text(value):
    """Whether a text has no half of a pair alone, which UTF-8 can't write."""
    return not any(0xD800 <= ord(sign) <= 0xDFFF for sign in value)


def order(head, body):
    """The request number, the card number and the use that are asked with."""
    request = int(needed(sole(head, b"x-vault-request"), REQUEST, 5))
    if request >= 2**63:
        raise Refused(5)
    number, use = texts(body)
    if not NUMBER.fullmatch(number):
        raise Refused(1)
    digits = re.sub("[ -]", "", number)
    if not passes(digits):
        raise Refused(2)
    if use not in USES:
        raise Refused(19)
    return request, digits, USES[use]


def command_of(message):
    """The command that a message asks for."""
    asked, merchant, *rest = route(message.head)
    caller = needed(sole(message.head, b"x-vault-caller"), NAME, 4)
    merchant = needed(merchant, NAME, 4)
    if asked == "tokenize":
        return Command(asked, caller, merchant, "", *order(message.head, message.body))
    if asked == "audit":
        return Command(asked, caller, merchant)
    token = needed(rest[0], TOKEN, 3)
    if passes(token):
        raise Refused(3)
    return Command(asked, caller, merchant, token)
