"""One stream in all its cuttings, compared with itself and with the reader."""

import random
import re
import time

from model.vault import sound
from random_bytes import cuttings, grounds
from random_bytes.streams import Maker
from reader.answers import Due, hidden
from shared import messages, service
from shared.files import removed
from shared.runs import Ran, run


class Stream:
    """The bytes of a seed, and what is due to them."""

    def __init__(self, ground, seed):
        self.ground = ground
        self.seed = seed
        self.chosen = random.Random(seed)
        self.text = Maker(self.chosen, ground.tokens).stream()
        self.due, self.after = ground.expected(self.text)

    @property
    def figure(self):
        """What stands behind the messages."""
        last = [answer.body[11:-1].decode() if answer else "nothing" for answer in self.due.last]
        return f"ending with {' or '.join(last)}"

    @property
    def kinds(self):
        """What the answers are that are due: numbers of refusals, or a part of what is told."""
        return [re.match(r'\{"(?:refused":)?(\w+)', answer.body.decode())[1] for answer in self.due.answers]


def seen(answer):
    """What is compared of an answer that came."""
    return Due(answer.status, answer.body, answer.fields.get("allow"), answer.closes)


def difference(came, due):
    """What differs between the answers that came and those that are due."""
    for place, wanted in enumerate(due.answers):
        if place == len(came):
            return f"{place} answers, and {len(due.answers)} are due"
        if came[place] != wanted:
            return f"answer {place + 1} is {told(came[place])}, and {told(wanted)} is due"
    rest = came[len(due.answers) :]
    if len(rest) > 1 or (rest[0] if rest else None) not in due.last:
        came, wanted = ([told(answer) for answer in answers] for answers in (rest, due.last))
        return f"behind {len(due.answers)} answers come {came}, and one of {wanted} is due"
    return ""


def told(answer):
    """An answer in a line of a failure, without a card number."""
    if answer is None:
        return "nothing"
    text = answer.body.decode("utf-8", "replace")
    body = re.sub(r"[0-9]{10,19}(?=\")", lambda digits: f"({len(digits[0])} digits)", text)
    return " ".join(filter(None, (str(answer.status), body, answer.allow, answer.closes and "close")))


def fault_of(ran, due):
    """What is wrong with a run of a pipe."""
    if ran.status != 0 or ran.err:
        return str(ran)
    try:
        return difference([seen(answer) for answer in messages.answers_in(ran.out)], due)
    except messages.NoAnswer as other:
        return str(other)


def piped(stream, name, cut):
    """One cutting through a pipe: what came, and what the file is after it."""
    ground = stream.ground
    file = ground.copied(f"stream{stream.seed}.db")
    words = [ground.program, "pipe", "--now", grounds.NOW, "--digits", ground.digits, file]
    ran = cuttings.piped(words, cut(random.Random(stream.seed), stream.text))
    checked = run(ground.program, "check", file) if name == "in one piece" else Ran(0, b"", b"")
    removed(file)
    fault = fault_of(ran, stream.due)
    due = sound(stream.after.count)
    if not fault and checked.out and checked.out != due:
        fault = f"the file after it: {checked}, and {due} is due"
    return ran, fault


def served(stream):
    """A random cutting through a service, whose moments and digits aren't known."""
    ground = stream.ground
    file = ground.copied(f"served{stream.seed}.db")
    before = int(time.time())
    due, _ = ground.expected(stream.text, before, hidden())
    pieces = cuttings.randomly(random.Random(stream.seed), stream.text)
    with service.Service(ground.program, "--connections", 1, file) as open_service:
        if open_service.port is None:
            return f"no service: {open_service.ended()}"
        with open_service.connect() as peer:
            came = service.send(peer, pieces, 0.001)
        ended = open_service.ended()
    removed(file)
    if ended.status != 0:
        return f"the service: {ended}"
    try:
        found = [seen(answer) for answer in messages.answers_in(came)]
    except messages.NoAnswer as other:
        return str(other)
    return difference(likened(found, before), due._replace(answers=likened(due.answers, before)))


def likened(answers, before):
    """Answers with a number in place of each token, by when it came first, and with moments of now as the one
    before the service began."""
    tokens = {}

    def likened_token(found):
        return b'"token":"%d"' % tokens.setdefault(found[1], len(tokens))

    def likened_end(found):
        end = int(found[1])
        lives = [life for merchant in grounds.MERCHANTS for life in merchant[1:3]]
        early = next((before + life for life in lives if 0 <= end - before - life <= 60), end)
        return b'"expires":%d' % early

    def likened_body(body):
        return re.sub(rb'"expires":([0-9]+)', likened_end, re.sub(rb'"token":"([^"]*)"', likened_token, body))

    return [answer._replace(body=likened_body(answer.body)) for answer in answers]


def try_stream(ground, seed, is_served, show):
    """Each case of a stream, with its name, what is wrong with it, and the figure that it counts under; and
    the kinds of its answers."""
    stream = Stream(ground, seed)
    found, first = [], None
    for name, cut in cuttings.CUTTINGS.items():
        ran, fault = piped(stream, name, cut)
        if first is None:
            first = ran
        elif not fault and len(stream.due.last) == 1 and ran.out != first.out:
            fault = "other bytes than in one piece"
        found.append((f"seed {seed}, {name}", fault, f"{stream.figure}, {name}"))
    if is_served:
        name = "through a service"
        found.append((f"seed {seed}, {name}", served(stream), f"{stream.figure}, {name}"))
    if show and any(fault for _, fault, _ in found):
        print(f"seed {seed}: {stream.text!r}", flush=True)
    return found, stream.kinds
