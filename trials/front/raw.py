"""Messages to the front byte by byte, and what comes back."""

import socket

from front.clients import Answer, Client, Fields


def message(line, *fields, body=""):
    """The bytes of a message, by its first line and the fields beyond those that each has."""
    more = (f"Content-Length: {len(body)}",) if body else ()
    fields = ("Host: localhost", "Connection: close", *fields, *more)
    return ("\r\n".join((line, *fields, "", "")) + body).encode()


def begun(port, caller, sent):
    """A connection over which a message was sent, or a part of one."""
    peer = socket.create_connection(("localhost", port), timeout=60)
    if caller != "clear":
        peer = Client(port, caller).context.wrap_socket(peer, server_hostname="localhost")
    peer.sendall(sent)
    return peer


def received(peer):
    """All that comes over a connection up to its end."""
    with peer:
        return b"".join(iter(lambda: peer.recv(65536), b""))


def answer(port, caller, sent):
    """What a message is answered over a connection of its own."""
    found = received(begun(port, caller, sent))
    head, _, body = found.partition(b"\r\n\r\n")
    line, *fields = head.decode().split("\r\n")
    pairs = (field.partition(": ")[::2] for field in fields)
    return Answer(int(line.split()[1]), Fields(pairs), body)
