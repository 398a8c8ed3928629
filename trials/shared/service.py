"""A service of the program, and connections to it."""

import os
import re
import socket
import subprocess
import time

from shared.runs import SECONDS, Limit, Ran

LISTENING = re.compile(rb"listening ([0-9]+)\n")


def port_of(process, seconds=SECONDS):
    """The port of a service that was just started, by the line that it says; None where it says another line,
    or none in time."""
    with Limit(process, seconds):
        found = LISTENING.fullmatch(process.stdout.readline())
    return int(found[1]) if found else None


def connected(port, seconds=SECONDS):
    """A new connection, of which each write is a piece of its own."""
    peer = socket.create_connection(("127.0.0.1", port), timeout=seconds)
    peer.setsockopt(socket.IPPROTO_TCP, socket.TCP_NODELAY, 1)
    return peer


class Service:
    """The program as it serves by these words, on a free port where they name none; it is over with a `with`.
    `more` goes to its environment. Its errors are kept, or go to another place."""

    def __init__(self, program, *words, more=None, errors=subprocess.PIPE):
        self.process = subprocess.Popen(
            [program, "serve", *map(str, words)],
            stdout=subprocess.PIPE, stderr=errors, env=os.environ | (more or {}), bufsize=0,
        )
        self.port = port_of(self.process)

    def __enter__(self):
        return self

    def __exit__(self, *_):
        self.kill()

    def kill(self):
        """Ends it as nothing can prevent."""
        self.process.kill()
        self.close()

    def stop(self):
        """Ends it as its unit does."""
        self.process.terminate()
        self.close()

    def close(self):
        """Waits for its end, and leaves what it said."""
        self.process.wait()
        for pipe in filter(None, (self.process.stdout, self.process.stderr)):
            pipe.close()

    def connect(self):
        """A new connection."""
        return connected(self.port)

    def ended(self):
        """How it ended, or that it didn't."""
        try:
            out, err = self.process.communicate(timeout=SECONDS)
        except subprocess.TimeoutExpired:
            return Ran(None, b"", b"")
        return Ran(self.process.returncode, out, err or b"")


def must_serve(program, *words, kind=Service):
    """A service that a trial builds on: it has to listen. Its errors are the trial's own."""
    service = kind(program, *words, errors=None)
    if service.port is None:
        raise SystemExit(f"no service: {service.ended()}\n0 passed, 1 failed")
    return service


def send(peer, pieces, pause=0.0):
    """Sends pieces over a connection, and answers all that comes back. A service may end the connection
    before it has read all."""
    try:
        for place, piece in enumerate(pieces):
            if place and pause:
                time.sleep(pause)
            peer.sendall(piece)
        peer.shutdown(socket.SHUT_WR)
    except (BrokenPipeError, ConnectionResetError):
        pass
    return received(peer)


def received(peer):
    """All that comes over a connection up to its end."""
    found = b""
    while True:
        try:
            piece = peer.recv(65536)
        except ConnectionResetError:
            return found
        if not piece:
            return found
        found += piece


def sent(port, text, seconds=SECONDS):
    """Sends bytes over a connection of their own, and answers all that comes back."""
    with connected(port, seconds) as peer:
        return send(peer, [text])
