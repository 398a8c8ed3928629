"""A front of few words before a vault, which keeps its connections to it as HAProxy does by itself."""

import subprocess

from peers import kept
from shared.ports import free_port, takes_connections
from shared.runs import until
from shared.service import connected

CLIENTS, MESSAGES = 8, 15
WORDS = """
defaults
    mode http
    timeout connect 30s
    timeout client 60s
    timeout server 60s
frontend clients
    bind 127.0.0.1:{port}
    default_backend vault
backend vault
    server vault 127.0.0.1:{vault}
"""


class Plain:
    """The front, which is over at the end of a `with`."""

    def __init__(self, vault):
        self.port = free_port()
        with open("plain.cfg", "w") as file:
            file.write(WORDS.format(port=self.port, vault=vault.port))

    def __enter__(self):
        self.process = subprocess.Popen(["haproxy", "-db", "-f", "plain.cfg"], stderr=subprocess.DEVNULL)
        if not until(lambda: takes_connections(self.port), 5):
            self.process.kill()
            raise SystemExit("a plain front didn't start\n0 passed, 1 failed")
        return self

    def __exit__(self, *_):
        self.process.kill()
        self.process.wait()

    def connect(self):
        """A connection of a client."""
        return connected(self.port)


def judge(tally, vault):
    """Eight clients with a message a second each: all are answered soon, over connections that stay open."""
    with Plain(vault) as front:
        clients = [kept.Client(front, 3000000 + 1000 * turn, MESSAGES, 1) for turn in range(CLIENTS)]
        kept.judge(tally, "through connections that stay open", clients, MESSAGES)
