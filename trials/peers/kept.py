"""A client that keeps its connection, as a pool of connections does."""

import threading
import time

from peers.shop import asked, token_of
from shared.tally import unlike


class Client(threading.Thread):
    """Sends so many messages, one each `pause` seconds. Where the service ended the connection before it
    answered a message, the message goes over a new one, as its request number allows."""

    def __init__(self, service, first, count, pause):
        super().__init__()
        self.service = service
        self.requests = range(first, first + count)
        self.pause = pause
        self.peer = None
        self.connections = 0
        self.waited = []

    def tried(self, request):
        """The answer over the connection that is kept, or else over a new one; None where that was ended."""
        if self.peer is None:
            self.peer = self.service.connect()
            self.connections += 1
        try:
            self.peer.sendall(asked(request))
            answer = self.peer.recv(65536)
        except OSError:
            answer = b""
        if answer:
            return answer
        self.peer.close()
        self.peer = None
        return None

    def run(self):
        for request in self.requests:
            begun = time.monotonic()
            answer = None
            while answer is None and time.monotonic() < begun + 5:
                answer = self.tried(request)
            if answer and token_of(answer):
                self.waited.append(time.monotonic() - begun)
            time.sleep(max(0, begun + self.pause - time.monotonic()))
        if self.peer:
            self.peer.close()


def judge(tally, name, clients, many):
    """Clients that run side by side, each of so many messages: all are answered soon."""
    for client in clients:
        client.start()
    for client in clients:
        client.join()
    longest = max(max(client.waited, default=0) for client in clients)
    answered = [len(client.waited) for client in clients]
    tally.judge(f"{name}: all answered", unlike(answered, [many] * len(clients)))
    tally.judge("within 2 s each", "" if longest <= 2 else f"{longest:.1f} s")
    print(f"{name}: {longest:.2f} s at most", flush=True)
