"""Sixteen tills that ask for tokens through the front, and keep each answer that they were given.

A till asks for a new token, and one time in five again for one that it has, which has to be the same. Where
an answer is lost or is no token it asks again with the same number, and the loss counts."""

import http.client
import json
import random
import threading
import time

from front.clients import Client
from model.cards import completed
from shared.runs import at_once
from standby.nodes import FRONT, TILLS

PORT = 8443
# longer than the front waits for any vault
PATIENCE = 300


class Till:
    """One of them: what it asked by which number, and what it was first answered, and when."""

    def __init__(self, name, seed):
        self.random = random.Random(seed)
        self.client = Client(PORT, name, PATIENCE, host=FRONT)
        self.name, self.busy = name, False
        # a number is never used again, so those of later tills are others
        self.request = int(time.time()) * 1000
        self.asked, self.answered = {}, {}

    def next(self):
        """The number of its next request."""
        if self.answered and self.random.random() < 0.2:
            return self.random.choice(list(self.answered))
        self.request += 1
        digits = "".join(self.random.choices("0123456789", k=14))
        use = "multi" if self.random.random() < 0.2 else "single"
        self.asked[self.request] = json.dumps({"number": completed(f"4{digits}"), "use": use})
        return self.request

    def ask(self, request):
        """The status and the answer of one asking; the fault's name where there is none."""
        try:
            number = {"X-Vault-Request": str(request)}
            told = self.client.ask("POST", "/v1/merchants/shop1/tokens", self.asked[request], **number)
            return told.status, told.json()
        except (OSError, http.client.HTTPException, ValueError) as fault:
            return 0, type(fault).__name__

    def close(self):
        """The front closes a connection that is quiet, so none is kept."""
        if self.client.connection:
            self.client.connection.close()
            self.client.connection = None


class Tills:
    """All of them, which ask from `resume` to `pause`, and end with a `with`."""

    def __init__(self):
        seed = int(time.time())
        self.all = [Till(name, seed + place) for place, name in enumerate(TILLS)]
        self.lock, self.going, self.ended = threading.Lock(), threading.Event(), False
        # when each answer came, and how long it was waited for; what wasn't one; and what was lost
        self.times, self.errors, self.lost = [], [], []
        self.threads = [threading.Thread(target=self.work, args=(it,), daemon=True) for it in self.all]
        for thread in self.threads:
            thread.start()

    def __enter__(self):
        return self

    def __exit__(self, *_):
        self.ended = True
        self.going.set()

    def answered(self, till, request):
        """Asks until there is an answer, and compares it with the first one."""
        while not self.ended:
            begun = time.time()
            status, told = till.ask(request)
            now = time.time()
            with self.lock:
                if status == 200 and "token" in told:
                    self.times.append((now, now - begun))
                    if till.answered.setdefault(request, (told, now))[0] != told:
                        self.lost.append((till.name, request))
                    return
                self.errors.append((now, status, str(told)[:60]))
            time.sleep(0.5)

    def work(self, till):
        while not self.ended:
            self.going.wait()
            till.busy = True
            if self.going.is_set():
                self.answered(till, till.next())
            till.busy = False

    def resume(self):
        self.going.set()

    def pause(self):
        """No till asks any more once this returns: each has its answer."""
        self.going.clear()
        time.sleep(0.1)
        while any(till.busy for till in self.all):
            time.sleep(0.05)
        for till in self.all:
            till.close()

    def again(self, till, before):
        """Asks again for each token that a till was answered before a moment; how many."""
        some = [request for request, (_, at) in till.answered.items() if at < before]
        for request in some:
            self.answered(till, request)
        till.close()
        return len(some)

    def all_again(self, before=float("inf")):
        """The same of all tills, which pause meanwhile: how many, and how many of them are lost, which is
        answered another token."""
        lost, counts = len(self.lost), []

        def of(till):
            counts.append(self.again(till, before))

        with at_once(of, [(it,) for it in self.all]):
            pass
        return sum(counts), len(self.lost) - lost

    def first_after(self, moment):
        """When the first answer after a moment came; nothing where there is none."""
        with self.lock:
            return min((at for at, _ in self.times if at > moment), default=None)
