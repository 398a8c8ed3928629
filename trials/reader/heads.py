"""The head of a message, byte by byte: what it is made of, and whether more bytes may still make one."""

import string
from typing import NamedTuple

MOST_BYTES = 8192
MOST_FIELDS = 32
NAME_BYTES = frozenset((string.ascii_letters + string.digits + "!#$%&'*+-.^_`|~").encode())
TARGET_BYTES = frozenset(range(33, 256)) - {127}
VALUE_BYTES = (frozenset(range(32, 256)) - {127}) | {9}
VERSION = b"HTTP/1."
CR, LF, SPACE, COLON = 13, 10, 32, 58


class Head(NamedTuple):
    """A whole head: `size` is how many bytes it has, `minor` the last digit of its version."""

    method: bytes
    target: bytes
    minor: int
    fields: list
    size: int


class Bad(Exception):
    """No bytes can follow that make a head."""


class Open(Exception):
    """More bytes are needed."""


class Bytes:
    """The bytes from which a head is read, and how far it has come."""

    def __init__(self, text):
        self.text = text
        self.at = 0
        self.fields = []
        self.target = None
        self.begun = 0

    def next(self):
        """The next byte, which isn't taken yet."""
        if self.at == len(self.text):
            raise Open
        return self.text[self.at]

    def run(self, allowed):
        """The bytes of a class, and the one behind them."""
        start = self.at
        while self.next() in allowed:
            self.at += 1
        return self.text[start : self.at]

    def take(self, *wanted):
        """One byte, which has to be one of these."""
        if self.next() not in wanted:
            raise Bad
        self.at += 1
        return self.text[self.at - 1]

    def line_end(self):
        """CR LF, or LF alone."""
        if self.take(CR, LF) == CR:
            self.take(LF)


def some(text):
    """A part that may not be empty."""
    if not text:
        raise Bad
    return text


def read_target(found):
    """The target, which has to be UTF-8 at its end; until then nothing is said of that."""
    found.target = found.at
    target = some(found.run(TARGET_BYTES))
    try:
        target.decode()
    except UnicodeDecodeError:
        raise Bad from None
    found.take(SPACE)
    found.target = None
    return target


def read_fields(found):
    """The fields, each a name and a value without the white space around it, and the empty line."""
    while found.next() not in (CR, LF):
        found.begun += 1
        name = some(found.run(NAME_BYTES))
        found.take(COLON)
        value = found.run(VALUE_BYTES)
        found.line_end()
        found.fields.append((name.lower(), value.strip(b" \t")))
    found.line_end()


def read_all(found):
    """A whole head."""
    while found.next() in (CR, LF):
        found.line_end()
    method = some(found.run(NAME_BYTES))
    found.take(SPACE)
    target = read_target(found)
    for byte in VERSION:
        found.take(byte)
    minor = found.take(48, 49) - 48
    found.line_end()
    read_fields(found)
    return Head(method, target, minor, found.fields, found.at)


def is_text(target):
    """Whether the beginning of a target may become UTF-8."""
    try:
        target.decode()
    except UnicodeDecodeError as fault:
        return fault.reason == "unexpected end of data"
    return True


def head_in(text):
    """The whole head at the beginning of some bytes, and nothing else; or None, and what may be answered: 50,
    51, or None where nothing is wrong yet."""
    found = Bytes(text)
    try:
        head = read_all(found)
    except Bad:
        return None, {50} | too_large(text, found)
    except Open:
        return None, open_faults(text, found)
    if head.size > MOST_BYTES or len(head.fields) > MOST_FIELDS:
        return None, {51}
    return head, set()


def too_large(text, found):
    """51 where there are too many bytes, or a 33rd field has begun."""
    return {51} if len(text) > MOST_BYTES or found.begun > MOST_FIELDS else set()


def open_faults(text, found):
    """What may be answered of a head that isn't whole."""
    if len(text) > MOST_BYTES or len(found.fields) > MOST_FIELDS:
        return {51}
    if found.begun > MOST_FIELDS:
        return {51, None}
    if found.target is not None and not is_text(text[found.target :]):
        return {50, None}
    return {None}
