"""Many clients at once, and a vault that is killed among their requests."""

import threading
import time

from front.clients import Client
from shared.runs import at_once

CLIENTS = 32
MESSAGES = 2000


class Load:
    """What came of each request: every status, and the token at last."""

    def __init__(self, port):
        self.port = port
        self.statuses = []
        self.tokens = {}
        self.faults = []
        self.lock = threading.Lock()

    def until_answered(self, client, request):
        """Asks with one number until a token comes; while the vault is away that is 503."""
        for _ in range(200):
            answer = client.token("shop1", request)
            with self.lock:
                self.statuses.append(answer.status)
            if answer.status == 200:
                return answer.json()["token"]
            time.sleep(0.1)
        return None

    def client(self, first, last):
        """One client's share of all requests."""
        client = Client(self.port, "till-1")
        try:
            for request in range(first, last + 1, CLIENTS):
                token = self.until_answered(client, request)
                with self.lock:
                    self.tokens[request] = token
        except OSError as error:
            self.faults.append(repr(error))

    def run(self, vault, ends, first=1, by=None):
        """Sends all messages, whose numbers begin with the first, and ends the vault so many times in the
        midst: by a kill, where nothing else is said."""
        last = first + MESSAGES - 1
        shares = [(it, last) for it in range(first, first + CLIENTS)]
        with at_once(self.client, shares) as threads:
            for turn in range(1, ends + 1):
                part = MESSAGES * turn // (ends + 1)
                while len(self.tokens) < part and any(it.is_alive() for it in threads):
                    time.sleep(0.01)
                (by or vault.kill)()
                time.sleep(0.3)
                vault.start()
