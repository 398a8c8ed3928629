"""A service of the program without a last connection, and messages to it."""

import json
import socket
import time

from shared import shop
from shared.service import Service, must_serve, received

NUMBER = "4111111111111111"
# The bytes of a short segment.
SEGMENT = 536


def made(program, file, life=86400):
    """A vault with a shop whose till may ask for tokens, which live so many seconds."""
    shop.made(program, file, life, 0, shop.TILL)


def asked(request):
    """The message that asks for a token."""
    body = json.dumps({"number": NUMBER, "use": "single"})
    head = f"POST /v1/merchants/shop1/tokens HTTP/1.1\r\nX-Vault-Caller: till-1\r\nX-Vault-Request: {request}"
    return f"{head}\r\nContent-Length: {len(body)}\r\n\r\n{body}".encode()


class Served(Service):
    """The program as it serves a file; peers may take little, and wait for long."""

    def connect(self, room=None):
        """A connection; with `room` either side takes little before somebody reads: the service's own room
        for answers is some of the peer's segments, which are short."""
        peer = socket.socket()
        if room:
            peer.setsockopt(socket.SOL_SOCKET, socket.SO_RCVBUF, room)
            peer.setsockopt(socket.IPPROTO_TCP, socket.TCP_MAXSEG, SEGMENT)
        peer.settimeout(100)
        peer.connect(("127.0.0.1", self.port))
        peer.setsockopt(socket.IPPROTO_TCP, socket.TCP_NODELAY, 1)
        return peer

    def answered(self, request):
        """After how many seconds another peer has the answer to its message, and the answer."""
        begun = time.monotonic()
        with self.connect() as peer:
            peer.sendall(asked(request))
            peer.shutdown(socket.SHUT_WR)
            found = received(peer)
        return time.monotonic() - begun, found


def served(program, file):
    """A service of a file."""
    return must_serve(program, file, kind=Served)


def given(answer):
    """The body of an answer that gives a token; else it is empty."""
    head, _, body = answer.partition(b"\r\n\r\n")
    return json.loads(body) if head.startswith(b"HTTP/1.1 200 OK") else {}


def token_of(answer):
    """The token of an answer that gives one."""
    return given(answer).get("token")


def expires_of(answer):
    """The end of the token of an answer that gives one."""
    return given(answer).get("expires")
