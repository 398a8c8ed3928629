"""What slow peers do, each on a thread of its own until its connection ends or it is told to stop."""

import time

from peers.shop import asked


def until_ended(work, stop):
    """Does the work again and again, until it fails or is told to stop."""
    try:
        while not stop.is_set():
            work()
    except OSError:
        pass


def a_byte_a_second(service, stop):
    """Sends a message a byte a second."""
    text = iter(asked(1) * 100)
    with service.connect() as peer:

        def send():
            peer.sendall(bytes([next(text)]))
            time.sleep(1)

        until_ended(send, stop)


def idle(service, stop):
    """Connects and says nothing."""
    with service.connect() as peer:
        peer.settimeout(0.2)

        def wait():
            try:
                if not peer.recv(1):
                    stop.set()
            except TimeoutError:
                pass

        until_ended(wait, stop)


def says_close_and_stays(service, stop):
    """Sends a message that closes the connection, takes its answer, and stays."""
    with service.connect() as peer:
        peer.settimeout(0.2)
        peer.sendall(asked(1).replace(b"\r\n\r\n", b"\r\nConnection: close\r\n\r\n", 1))

        def stay():
            try:
                peer.recv(65536)
            except TimeoutError:
                pass
            stop.wait(0.1)

        until_ended(stay, stop)


def a_message_each_four_seconds(service, stop):
    """Sends one message after the other, and takes each answer."""
    numbers = iter(range(1000, 2000))
    with service.connect() as peer:

        def send():
            peer.sendall(asked(next(numbers)))
            if not peer.recv(65536):
                raise OSError
            time.sleep(4)

        until_ended(send, stop)


def takes_a_byte_a_second(service, stop):
    """Sends many messages at once, and takes a byte of the answers a second."""
    with service.connect(room=2048) as peer:
        peer.settimeout(0.5)
        try:
            peer.sendall(b"GET / HTTP/1.1\r\n\r\n" * 20000)
        except OSError:
            pass
        peer.settimeout(100)

        def take():
            if not peer.recv(1):
                raise OSError
            time.sleep(1)

        until_ended(take, stop)
