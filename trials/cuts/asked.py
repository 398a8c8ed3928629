"""Cases of messages and of rows: a pipe, a service with clients side by side, a batch."""

import bisect
import contextlib
import itertools
import os
import subprocess
import threading

from kills.jobs import HEADER, line_reply, rows_of
from kills.shop import clock
from shared.commands import message, row, whole_answers
from shared.runs import at_once
from shared.service import Service

CALLERS = {"shop1": "till-1", "shop2": "till-2"}
COMMON = ("back", "guest")


@contextlib.contextmanager
def started(words, more, out=subprocess.PIPE):
    """The program with its input and its output; it is over at the end of a `with`."""
    pipe, words = subprocess.PIPE, [str(it) for it in words]
    environment = os.environ | more
    process = subprocess.Popen(words, stdin=pipe, stdout=out, stderr=pipe, bufsize=0, env=environment)
    try:
        yield process
    finally:
        if process.poll() is None:
            process.kill()
            process.communicate()


def over(story, process, statuses):
    """Waits for the end of a program, which has to be one of these."""
    out, err = process.communicate(timeout=60)
    if process.returncode not in statuses:
        story.faults.append(f"{story.kind}: status {process.returncode}: {err[-200:]!r}")
    return out


def answer_of(receive):
    """One answer, or none where the other end is gone."""
    text, answers = b"", []
    while not answers and (piece := receive()):
        answers, text = whole_answers(text + piece)
    return answers


def pipe(story, disk, path, many, more):
    """Messages in a pipe, each once the one before is answered."""
    shop, fixed = story.shop, story.shop.moment() if story.shop.random.random() < 0.5 else None
    with started([shop.program, "pipe", *(("--now", fixed) if fixed else ()), path], more) as process:
        for _ in range(many):
            command, begun, asked = shop.command(), clock(), disk.now
            process.stdin.write(message(command))
            answers = answer_of(lambda: os.read(process.stdout.fileno(), 65536))
            came, moments = disk.now, [fixed] if fixed else range(begun, clock() + 1)
            story.tell([command], answers, moments, asked, came if answers else None)
        over(story, process, (0,))


class Client:
    """A client of a service, which asks at a merchant of its own so many times."""

    def __init__(self, story, disk, connect, merchant, many):
        self.story, self.disk, self.connect, self.merchant, self.many = story, disk, connect, merchant, many

    def command(self):
        """A command at this client's merchant, by its caller or one that makes no requests."""
        while True:
            found = self.story.shop.command()
            callers = (CALLERS[self.merchant], *COMMON)
            if found.merchant == self.merchant and found.caller in callers:
                return found

    def ask(self, lock):
        """One message by a connection of its own."""
        with lock:
            command = self.command()
        begun, asked = clock(), self.disk.now
        with self.connect() as peer:
            peer.sendall(message(command))
            answers = answer_of(lambda: peer.recv(65536))
            came = self.disk.now
        with lock:
            moments = range(begun, clock() + 1)
            self.story.tell([command], answers, moments, asked, came if answers else None)

    def work(self, lock):
        try:
            for _ in range(self.many):
                self.ask(lock)
        except (OSError, ValueError) as fault:
            self.story.faults.append(f"{self.story.kind}, a client: {fault!r}")


@contextlib.contextmanager
def side_by_side(story, disk, connect, merchants, many):
    """Clients at these merchants, who have ended when a `with` is over; the lock of what they tell."""
    story.several, lock = True, threading.Lock()
    clients = [Client(story, disk, connect, it, many) for it in merchants]
    with at_once(Client.work, [(it, lock) for it in clients]):
        yield lock


def serve(story, disk, path, many, more):
    """Clients of a service side by side, and the service is ended while it waits."""
    with Service(story.shop.program, "--connections", 10**6, path, more=more) as service:
        with side_by_side(story, disk, service.connect, CALLERS, many // 2):
            pass


def batch(story, disk, path, many, more):
    """Rows of a batch, whose lines go into a file: which of them were there at an event, the event tells."""
    shop, merchant = story.shop, story.shop.merchant()
    commands, fixed = rows_of(shop, many, merchant), shop.moment()
    asked, words = disk.now, [shop.program, "batch", "--now", fixed, path, "till-1", merchant]
    with open(disk.answers, "wb") as answers, started(words, more, answers) as process:
        process.stdin.write((HEADER + "".join(map(row, commands))).encode())
        over(story, process, (0, 1))
    said, lines = disk.said(), disk.answers.read_bytes().splitlines(keepends=True)
    ends = list(itertools.accumulate(map(len, lines)))
    for command, line, end in zip(commands, lines[1:], ends[1:]):
        answer, came = line_reply(command, line.rstrip(b"\n")), bisect.bisect_left(said, end)
        story.tell([command], [answer], [fixed], asked, came)
    for command in commands[max(0, len(lines) - 1):]:
        story.tell([command], [], [fixed], asked, None)
