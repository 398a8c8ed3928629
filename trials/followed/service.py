"""A service that follows both lists, with what it says, and questions to it."""

import itertools
import json
import queue
import threading
import time

from followed.lists import MERCHANTS, RIGHTS
from shared.messages import first_answer, token_asked
from shared.service import Service, must_serve, sent

# within how many seconds a change has to be in force
LATEST = 2.0
# within how many seconds there is a look, and within how many there are two
ONE_LOOK, TWO_LOOKS = 1.0, 1.3
# the numbers of the trial's own requests; those of the load are smaller
REQUESTS = itertools.count(10**9)


def words(file, port=0):
    """What a service of a file is told that follows both lists."""
    return "--port", port, "--merchants", MERCHANTS, "--rights", RIGHTS, file


class Followed(Service):
    """The program as it serves a file on a port and follows both lists."""

    def __init__(self, program, *words, errors=None):
        super().__init__(program, *words, errors=errors)
        self.lines = queue.Queue()
        self.reader = threading.Thread(target=self.read, daemon=True)
        self.reader.start()

    def read(self):
        """Keeps the lines that it says, without their moments, which are checked."""
        for line in self.process.stdout:
            text, _, moment = line.decode().strip().rpartition(" at ")
            near = moment.isdecimal() and abs(int(moment) - time.time()) < 5
            self.lines.put(text if near else f"{line.decode().strip()}, at another time")

    def close(self):
        self.reader.join()
        super().close()

    def said(self, seconds=LATEST):
        """The next line, where one comes within that time."""
        try:
            return self.lines.get(timeout=seconds)
        except queue.Empty:
            return None

    def ask(self, caller, request, merchant="shop1"):
        """The answer to one message that asks for a token: its status and its body."""
        answer, _ = first_answer(sent(self.port, token_asked(request, caller=caller, merchant=merchant)))
        return answer.status, answer.body

    def status(self, caller, merchant="shop1"):
        """The status of a new request of a caller."""
        return self.ask(caller, next(REQUESTS), merchant)[0]

    def has_life(self, seconds):
        """Whether a new token of the tills' shop lives so long."""
        status, body = self.ask("till-0", next(REQUESTS))
        return status == 200 and abs(json.loads(body)["expires"] - time.time() - seconds) < 5

    def comes(self, holds, latest=LATEST):
        """After how many seconds this holds of the service; nothing where it doesn't within the time."""
        begun = time.monotonic()
        while True:
            found = holds(self)
            spent = time.monotonic() - begun
            if found or spent > latest:
                return spent if found and spent <= latest else None
            time.sleep(0.02)


def followed(program, file, port=0):
    """A service of a file that follows both lists."""
    return must_serve(program, *words(file, port), kind=Followed)
