"""Messages of HTTP as a trial sends them, and answers as it reads them."""

from typing import NamedTuple

# The card number of the worked message.
NUMBER = "4111111111111111"


def order(number=NUMBER, use="single"):
    """The body that asks for a token."""
    return f'{{"number":"{number}","use":"{use}"}}'.encode()


def head(method, target, *fields):
    """The head of a message: its first line, its fields and the empty line."""
    return "\r\n".join((f"{method} {target} HTTP/1.1", *fields, "", "")).encode()


def asked(method, target, caller="back"):
    """A message without a body."""
    return head(method, target, f"X-Vault-Caller: {caller}")


def token_asked(request, body=order(), merchant="shop1", caller="till-1"):
    """A message that asks for a token."""
    fields = ("Host: vault", f"X-Vault-Caller: {caller}", f"X-Vault-Request: {request}")
    target = f"/v1/merchants/{merchant}/tokens"
    return head("POST", target, *fields, f"Content-Length: {len(body)}") + body


class Answer(NamedTuple):
    """An answer: its status, its fields by their names in small letters, and its body."""

    status: int
    fields: dict
    body: bytes

    @property
    def closes(self):
        """Whether it says that the connection closes."""
        return self.fields.get("connection") == "close"


class NoAnswer(Exception):
    """Bytes that are no answer, or only the beginning of one."""


def first_answer(text):
    """The first answer of some bytes, and what follows it."""
    top, found, rest = text.partition(b"\r\n\r\n")
    line, *fields = top.decode("ascii", "replace").split("\r\n")
    version, _, code = line.partition(" ")
    if not found or version != "HTTP/1.1" or not code[:3].isdigit():
        raise NoAnswer(f"no head of an answer: {line[:60]!r}")
    pairs = {name.lower(): value for name, _, value in (field.partition(": ") for field in fields)}
    size = int(pairs.get("content-length", -1))
    if len(pairs) != len(fields) or pairs.get("content-type") != "application/json" or size < 0:
        raise NoAnswer(f"fields that no answer has: {sorted(pairs)}")
    if len(rest) < size:
        raise NoAnswer("a body that is cut short")
    return Answer(int(code[:3]), pairs, rest[:size]), rest[size:]


def answers_in(text):
    """All answers of some bytes, which are nothing else."""
    found = []
    while text:
        answer, text = first_answer(text)
        found.append(answer)
    return found
