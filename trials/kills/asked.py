"""Messages to a program that is killed among them: to a service, and in a pipe."""

import os

from kills.shop import clock
from kills.stopped import Stopped
from shared.commands import message, whole_answers
from shared.runs import SECONDS
from shared.service import connected, port_of

MOST = 120


class Run:
    """What a killed run leaves: commands that are undecided, the moments that they may have, how many of them
    may have been carried out at most, and what was wrong by then."""

    def __init__(self, kind):
        self.kind = kind
        self.undecided, self.moments, self.most = [], [], None
        self.faults, self.answers, self.killed = [], 0, False

    def end(self, stopped, statuses):
        """The run is over: it was killed, or ended with one of these statuses."""
        status, out, err = stopped.ended()
        self.killed = stopped.killed and not stopped.hung
        if stopped.hung:
            self.faults.append(f"no end within {SECONDS:.0f} s")
        elif not self.killed and status not in statuses:
            self.faults.append(f"status {status}: {err[-200:]!r}")
        return status, out


class Pipe:
    """The two ends of a pipe through the program."""

    def __init__(self, stopped):
        self.process = stopped.process

    def send(self, text):
        self.process.stdin.write(text)

    def receive(self):
        return os.read(self.process.stdout.fileno(), 65536)


class Connection:
    """A connection to a service."""

    def __init__(self, port):
        self.peer = connected(port, 40)

    def send(self, text):
        self.peer.sendall(text)

    def receive(self):
        return self.peer.recv(65536)

    def close(self):
        self.peer.close()


def send(shop, run, talk, stopped, fixed):
    """Sends one to four messages at once, and takes their answers; whether all of them came."""
    commands = [shop.command() for _ in range(shop.random.choice((1, 1, 1, 2, 4)))]
    begun = clock()
    left, came = list(commands), True
    try:
        talk.send(b"".join(map(message, commands)))
    except OSError:
        came = False
    text = b""
    while left:
        try:
            piece = talk.receive()
        except OSError:
            piece = b""
        moments = [fixed] if fixed else range(begun, clock() + 1)
        if not piece:
            break
        answers, text = whole_answers(text + piece)
        for answer in answers:
            fault = shop.known.take(left.pop(0), moments, answer)
            run.faults += [fault] if fault else []
            run.answers += 1
        stopped.saw(run.answers)
    run.undecided, run.moments = left, list(moments)
    return came and not left


def end_asking(run, stopped):
    """Ends a run of messages: one that was asked enough is killed now."""
    if run.answers >= 2 * MOST:
        stopped.process.kill()
    run.end(stopped, ())


def pipe(shop, aims):
    """Messages in a pipe, by the clock or at a fixed moment."""
    run, fixed = Run("pipe"), shop.moment() if shop.random.random() < 0.5 else None
    words = [shop.program, "pipe", *(("--now", fixed) if fixed else ()), shop.path]
    run.aim = aims.by_answers(MOST)
    stopped = Stopped(words, *run.aim)
    talk = Pipe(stopped)
    while send(shop, run, talk, stopped, fixed) and run.answers < 2 * MOST:
        pass
    end_asking(run, stopped)
    return run


def converse(shop, run, port, stopped):
    """One connection of some messages; whether the service is still there."""
    try:
        talk = Connection(port)
    except OSError:
        run.undecided = []
        return False
    there = True
    for _ in range(shop.random.choice((1, 1, 2, 5))):
        there = there and send(shop, run, talk, stopped, None)
    talk.close()
    return there


def serve(shop, aims):
    """Connections to a service, one after the other."""
    run = Run("serve")
    run.aim = aims.by_answers(MOST)
    stopped = Stopped([shop.program, "serve", "--connections", 10000, shop.path], *run.aim)
    port = port_of(stopped.process)
    if port:
        while converse(shop, run, port, stopped) and run.answers < 2 * MOST:
            pass
    end_asking(run, stopped)
    return run
