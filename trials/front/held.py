"""Connections that somebody holds, thousands of a kind, while one vault hangs: a caller of another vault is
answered all the same. So too with thousands that say nothing, at each port of the front, from an address of
their own and from a shop's."""

import concurrent.futures
import os
import resource
import signal
import socket
import ssl
import threading
import time

from front.clients import Client
from front.raw import message
from shared.runs import until

MANY = 5000
AT_ONCE = 8
# whoever holds them has an address of its own, or sits in a shop that the front knows or in another one
HOLDER = "127.0.0.2"
SHOP = "127.0.0.3"
CROWDED = "127.0.0.4"
TILLS = 300  # that are behind one address, each with a certificate
WITHIN = 1.0  # seconds in which another caller has its answer
PROBES = 10

AUDIT = message("GET /v1/merchants/shop2/audit HTTP/1.1").replace(
    b"Connection: close", b"Connection: keep-alive"
)
BODY = message("POST /v1/merchants/shop2/tokens HTTP/1.1", body="x" * 1000)[:-900]
KINDS = (
    ("without a certificate", None, AUDIT),
    ("of a till", "till-2", AUDIT),
    ("that drip", "till-2", BODY),
)


def context_of(caller):
    """What a connection of a caller, or of nobody, begins with. It doesn't ask who the front is."""
    context = ssl.SSLContext(ssl.PROTOCOL_TLS_CLIENT)
    context.check_hostname, context.verify_mode = False, ssl.CERT_NONE
    if caller:
        context.load_cert_chain(f"{caller}.pem", f"{caller}.key")
    return context


class Held:
    """As many connections of a kind as the front takes, over which nothing is read; those that drip have a byte
    more each second, and those with nothing to send don't begin TLS. They are closed at the end of a `with`."""

    def __init__(self, port, caller, sent, drips=False, address=HOLDER, many=MANY):
        self.port, self.sent, self.drips, self.address, self.many = port, sent, drips, address, many
        self.context, self.peers = context_of(caller), []
        self.over, self.full = threading.Event(), threading.Event()

    def __enter__(self):
        with concurrent.futures.ThreadPoolExecutor(AT_ONCE) as pool:
            self.peers = [it for it in pool.map(lambda _: self.begun(), range(self.many)) if it]
        self.dripping = threading.Thread(target=self.drip)
        self.dripping.start()
        return self

    def __exit__(self, *_):
        self.over.set()
        self.dripping.join()
        for peer in self.peers:
            peer.close()

    def begun(self):
        """One connection with its request, or the beginning of one; nothing where the front refuses it. Once it
        leaves one waiting, it takes no more, and the others aren't tried."""
        peer = None
        try:
            if not self.full.is_set():
                place = ("127.0.0.1", self.port)
                peer = socket.create_connection(place, 5, source_address=(self.address, 0))
                if self.sent is not None:
                    peer = self.context.wrap_socket(peer, server_hostname="localhost")
                    peer.sendall(self.sent)
            return peer
        except TimeoutError:
            self.full.set()
        except OSError:
            pass
        if peer:
            peer.close()
        return None

    def drip(self):
        """A byte more for each connection in a second, where they drip."""
        while not self.over.wait(1) and self.drips:
            for peer in self.peers:
                try:
                    peer.send(b"x")
                except OSError:
                    pass


def answered(port, address=None):
    """In how many seconds another caller has its answer over a connection of its own, or None."""
    begun = time.monotonic()
    try:
        status = Client(port, "back", 5, address).ask("GET", "/v1/merchants/shop1/audit").status
    except OSError:
        return None
    return time.monotonic() - begun if status == 200 else None


def judge(tally, port, hanging, sides):
    """Each kind in turn, while the vault of its merchant hangs: ten answers one after the other come to another
    caller of another vault, each within a second. The front's other ports are its sides."""
    resource.setrlimit(resource.RLIMIT_NOFILE, (resource.getrlimit(resource.RLIMIT_NOFILE)[1],) * 2)
    os.kill(hanging.process.pid, signal.SIGSTOP)
    try:
        for name, caller, sent in KINDS:
            judge_kind(tally, port, name, Held(port, caller, sent, name == "that drip"))
    finally:
        os.kill(hanging.process.pid, signal.SIGCONT)
    # those that say nothing end by themselves, so nobody waits for that
    judge_kind(tally, port, "that say nothing", Held(port, None, None), seconds=3)
    for place, side in enumerate(sides):
        name = f"to its side {place + 1} that say nothing"
        judge_kind(tally, port, name, Held(side, None, None), seconds=3)
    within = Held(port, None, None, address=SHOP)
    judge_kind(tally, port, "in a shop that say nothing", within, SHOP, 3)
    tills = Held(port, "guest", b"", address=CROWDED, many=TILLS)
    judge_kind(tally, port, "of tills behind an address", tills, CROWDED, 3)


def judge_kind(tally, port, name, held, address=None, seconds=20):
    """One kind, and another caller at an address of its own or at theirs: it is answered within so long."""
    told = []

    def all_in_time():
        del told[:]
        while len(told) < PROBES and (not told or (told[-1] or 9) <= WITHIN):
            told.append(answered(port, address))
        return told[-1] is not None and told[-1] <= WITHIN

    with held:
        fits = until(all_in_time, seconds)
        shown = ", ".join("none" if it is None else f"{it:.1f} s" for it in told)
        tally.judge(f"{held.many} connections {name} leave room for another caller", "" if fits else shown)
        slowest = max(it or 99 for it in told)
        print(
            f"of {held.many} connections {name} {len(held.peers)} are taken; another waits {slowest:.2f} s",
            flush=True,
        )
