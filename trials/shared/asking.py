"""Clients that ask a service on a port for tokens until their input ends. What came of it is printed as JSON.
It is a program of its own, since it runs in a machine's network: python3 -m shared.asking PORT CALLERS"""

import contextlib
import json
import subprocess
import sys
import threading
import time

from model.cards import completed
from shared.messages import NoAnswer, first_answer, order, token_asked
from shared.runs import at_once
from shared.service import sent

# how long one request is asked again, and after which pause
PATIENCE, PAUSE = 60.0, 0.05


class Asking:
    """Some clients, each a caller of its own; what they were answered."""

    def __init__(self, port, callers):
        self.port = port
        self.callers = callers
        self.tokens, self.waits, self.again, self.faults = {}, [], 0, []
        self.stopped = threading.Event()

    def ask(self, caller, request):
        """One message on a connection of its own; its status and token."""
        body = order(completed(f"4{caller:03}{request:011}"))
        text = token_asked(request, body, caller=f"till-{caller}")
        answer, _ = first_answer(sent(self.port, text, PATIENCE))
        return answer.status, json.loads(answer.body).get("token")

    def answered(self, caller, request):
        """Asks until there is an answer; nothing where there is none in all that time."""
        begun = time.monotonic()
        while time.monotonic() < begun + PATIENCE:
            with contextlib.suppress(OSError, NoAnswer):
                status, token = self.ask(caller, request)
                self.waits.append(time.monotonic() - begun)
                return status, token
            self.again += 1
            time.sleep(PAUSE)
        return None, None

    def work(self, caller):
        # the pages ask for tokens too, by small numbers
        request = 10**6
        while not self.stopped.is_set():
            request += 1
            status, token = self.answered(caller, request)
            if status != 200:
                self.faults.append(f"till-{caller}, {request}: {status}")
            else:
                self.tokens[caller, request] = token

    def run(self):
        with at_once(self.work, [(it,) for it in range(1, self.callers + 1)]):
            sys.stdin.read()
            self.stopped.set()

    def asked_again(self):
        """The requests that aren't answered their first token when they are asked once more."""
        every = max(1, len(self.tokens) // 500)
        some = sorted(self.tokens)[::every]
        return [it for it in some if self.answered(*it) != (200, self.tokens[it])]


class Asked:
    """The clients beside a machine, for the time of a `with`; what they tell stands in `told` afterwards."""

    def __init__(self, machine, port=8087, callers=4):
        words = [*machine.beside, sys.executable, "-m", "shared.asking", str(port), str(callers)]
        pipe = subprocess.PIPE
        self.process = subprocess.Popen(words, stdin=pipe, stdout=pipe, text=True)

    def __enter__(self):
        return self

    def __exit__(self, *_):
        out, _ = self.process.communicate("")
        self.told = json.loads(out or "{}")

    @property
    def fault(self):
        """What isn't as it has to be: a request without an answer, or with another one as it is repeated."""
        lost = self.told.get("faults", ["no end"]) + self.told.get("differ", [])
        return "; ".join(map(str, lost[:3]))


def main(port, callers):
    asking = Asking(int(port), int(callers))
    asking.run()
    told = {"answered": len(asking.tokens), "again": asking.again, "faults": asking.faults[:20]}
    longest = round(max(asking.waits, default=0), 3)
    print(json.dumps(told | {"longest": longest, "differ": asking.asked_again()}))


if __name__ == "__main__":
    main(*sys.argv[1:])
