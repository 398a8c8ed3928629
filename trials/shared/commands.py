"""Commands as messages of HTTP, and what their answers say."""

import json

from model.refusals import refused
from model.vault import USES
from shared import messages

TARGETS = {
    "detokenize": ("POST", "/tokens/{token}/number"),
    "view": ("GET", "/tokens/{token}"),
    "revoke": ("POST", "/tokens/{token}/revoke"),
    "purge": ("DELETE", "/tokens/{token}"),
    "audit": ("GET", "/audit"),
}


def message(command):
    """The message that asks for a command."""
    if command.right == "tokenize":
        body = messages.order(command.number, USES[command.use])
        return messages.token_asked(command.request, body, command.merchant, command.caller)
    method, target = TARGETS[command.right]
    place = f"/v1/merchants/{command.merchant}" + target.format(token=command.token)
    return messages.asked(method, place, command.caller)


def reply(answer):
    """The status of an answer, and its body."""
    return answer.status, json.loads(answer.body)


def whole_answers(text):
    """The answers that bytes begin with, and the rest, in which none is whole."""
    found = []
    while True:
        top, ended, rest = text.partition(b"\r\n\r\n")
        size = next((int(it[16:]) for it in top.split(b"\r\n") if it.startswith(b"Content-Length: ")), None)
        if not ended or size is None or len(rest) < size:
            return found, text
        answer, text = messages.first_answer(text)
        found.append(reply(answer))


def row(command):
    """The row of a batch that asks for a command."""
    return f"{command.request},{command.number},{USES[command.use]}\n"


def line_answer(line):
    """The answer that a line of a batch says."""
    _, answer, detail = line.decode().split(",")
    if answer == "refused":
        return refused(int(detail))
    return 200, {"expires": int(detail), "token": answer}
