"""Clients that ask for tokens while the lists change: each has its right in every good list."""

import threading
import time

from followed.lists import CLIENTS
from shared.messages import NoAnswer

PATIENCE = 60.0
# how long a client waits between two requests, so that the file stays small and a start short
PAUSE = 0.05


class Load:
    """The clients, for the time of a `with`. They ask again by the same number where it is away."""

    def __init__(self, held):
        # what stands in `held` is the service that is asked
        self.held = held
        self.stopped = threading.Event()
        self.answered, self.again, self.faults, self.longest = {}, 0, [], 0.0
        self.threads = [threading.Thread(target=self.work, args=(it,)) for it in range(CLIENTS)]

    def __enter__(self):
        for thread in self.threads:
            thread.start()
        return self

    def __exit__(self, *_):
        self.stopped.set()
        for thread in self.threads:
            thread.join()

    def ask(self, client, request):
        """Asks until there is an answer."""
        begun = time.monotonic()
        while time.monotonic() - begun < PATIENCE:
            try:
                found = self.held[0].ask(f"till-{client}", request)
                self.longest = max(self.longest, time.monotonic() - begun)
                return found
            except (OSError, NoAnswer):
                self.again += 1
                time.sleep(PAUSE)
        return None, b""

    def work(self, client):
        """Asks all the time."""
        request = 10**6
        while not self.stopped.is_set():
            request += 1
            status, body = self.ask(client, request)
            if status == 200:
                self.answered[client, request] = body
            else:
                self.faults.append(f"till-{client}, {request}: {status} {body[:40]!r}")
            time.sleep(PAUSE)

    def lost(self):
        """Requests that aren't answered as before when they are asked once more."""
        some = sorted(self.answered)[:: max(1, len(self.answered) // 300)]
        return [it for it in some if self.ask(*it) != (200, self.answered[it])]
