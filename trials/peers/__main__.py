"""The whole trial: python3 -m peers PROGRAM"""

import os
import socket
import sys
import threading
import time

from peers import kept, slow
from peers.shop import asked, expires_of, made, served, token_of
from shared.runs import at_once, must, run
from shared.tally import Tally, unlike

# A peer, and after how many seconds another one has its answer, at least and at most.
PEERS = (
    (slow.a_byte_a_second, 4, 6),
    (slow.idle, 0, 1),
    (slow.takes_a_byte_a_second, 4, 6),
    (slow.says_close_and_stays, 4, 6),
    (slow.a_message_each_four_seconds, 0, 1),
)


def behind(program, tally, work, least, most):
    """Another peer behind a slow one: it waits for as long as the slow one may take."""
    file = f"{work.__name__}.db"
    made(program, file)
    with served(program, file) as service:
        stop = threading.Event()
        thread = threading.Thread(target=work, args=(service, stop))
        thread.start()
        time.sleep(0.5)
        seconds, answer = service.answered(7)
        stop.set()
        fault = "no token" if token_of(answer) is None else ""
        if not least <= seconds <= most:
            fault = f"{seconds:.1f} s"
        tally.judge(f"behind {work.__name__}: after {least} to {most} s", fault)
        print(f"behind {work.__name__}: {seconds:.1f} s", flush=True)
    thread.join()


def idlers(program, tally):
    """A message behind ten peers that connect and say nothing."""
    made(program, "idlers.db")
    with served(program, "idlers.db") as service:
        peers = [service.connect() for _ in range(10)]
        seconds, answer = service.answered(7)
        fault = "no token" if token_of(answer) is None else ""
        tally.judge("behind ten idle peers: within 2 s", fault or ("" if seconds <= 2 else f"{seconds:.1f} s"))
        print(f"behind ten idle peers: {seconds:.2f} s", flush=True)
        for peer in peers:
            peer.close()


def crowd(program, tally):
    """Eight clients that keep their connections, each with a message a second, are all answered soon."""
    made(program, "crowd.db")
    with served(program, "crowd.db") as service:
        clients = [kept.Client(service, 1000 * turn, 15, 1) for turn in range(1, 9)]
        kept.judge(tally, "eight that keep their connections", clients, 15)


def alone(program, tally):
    """A client that nobody waits behind keeps its one connection over its pauses."""
    made(program, "alone.db")
    with served(program, "alone.db") as service:
        client = kept.Client(service, 1000, 4, 3)
        client.start()
        client.join()
    tally.judge("alone: all answered", unlike(len(client.waited), 4))
    tally.judge("on one connection", unlike(client.connections, 1))


def patience(program, tally):
    """A peer that begins late, and one that pauses, are answered."""
    made(program, "patience.db")
    with served(program, "patience.db") as service, service.connect() as peer:
        time.sleep(2)
        peer.sendall(asked(1)[:40])
        time.sleep(2)
        peer.sendall(asked(1)[40:])
        peer.shutdown(socket.SHUT_WR)
        tally.judge("4 seconds are not too long", "" if token_of(peer.recv(65536)) else "no token")


def tokens(program, tally):
    """No two messages, services and pipes draw alike."""
    made(program, "drawn.db")
    found = []
    for turn in range(2):
        with served(program, "drawn.db") as service, service.connect() as peer:
            for request in (2 * turn + 1, 2 * turn + 2):
                peer.sendall(asked(request))
                found.append(token_of(peer.recv(65536)))
    for turn in range(2):
        out = run(program, "pipe", "drawn.db", given=asked(5 + turn)).out
        found.append(token_of(out))
    tally.judge("six tokens, each drawn anew", unlike(len(set(found) - {None}), 6))
    # tokens of fresh vaults too: the same request, twice
    first = []
    for file in ("one.db", "two.db"):
        made(program, file)
        with served(program, file) as service:
            first.append(token_of(service.answered(1)[1]))
        first.append(token_of(run(program, "pipe", file, given=asked(2)).out))
    tally.judge("and four of two more vaults", unlike(len(set(first) - {None}), 4))


def moments(program, tally):
    """Each message of a connection has the clock's own second, and a sweep the second at which it comes."""
    made(program, "moments.db", life=1)
    ends = []
    with served(program, "moments.db") as service, service.connect() as peer:
        for request in (1, 2):
            before = int(time.time())
            peer.sendall(asked(request))
            end = expires_of(peer.recv(65536))
            ends.append(end)
            late = end is None or not before + 1 <= end <= int(time.time()) + 1
            tally.judge(f"message {request} at the clock's second", f"{end}" if late else "")
            time.sleep(2)
    tally.judge("two messages, two moments", "" if ends[1] > ends[0] else f"{ends}")
    must(program, "grant", "moments.db", "back", "shop1", "purge")
    swept = run(program, "sweep", "moments.db", "back", "shop1").out
    tally.judge("a sweep at the clock's second", unlike(swept, b"purged 2\n"))


def listening_at(port):
    """The local addresses at which somebody listens on a port, as the kernel writes them."""
    found = set()
    for table in ("/proc/net/tcp", "/proc/net/tcp6"):
        if not os.path.exists(table):
            continue
        for line in open(table).read().splitlines()[1:]:
            address, state = line.split()[1], line.split()[3]
            if state == "0A" and address.endswith(f":{port:04X}"):
                found.add(address.split(":")[0])
    return found


def address(program, tally):
    """The service listens on 127.0.0.1 alone."""
    made(program, "address.db")
    with served(program, "address.db") as service:
        tally.judge("127.0.0.1 alone", unlike(listening_at(service.port), {"0100007F"}))


def unchecked(program, tally):
    """A check makes nothing, and the version is told."""
    os.mkdir("empty")
    before = os.stat("empty").st_mtime_ns
    ran = run(program, "check", "empty/typo.db")
    tally.judge("a check of a file that isn't there", unlike((ran.status, ran.out), (0, b"sound 0 0 0\n")))
    tally.judge("makes nothing", unlike((os.listdir("empty"), os.stat("empty").st_mtime_ns), ([], before)))
    for word in ("--version", "-V"):
        ran = run(program, word)
        tally.judge(word, unlike((ran.status, ran.out, ran.err), (0, b"vault 0.4.0, schema 4\n", b"")))


def ended(program, tally):
    """A service that is ended by a signal loses nothing."""
    made(program, "ended.db")
    with served(program, "ended.db") as service:
        token = token_of(service.answered(1)[1])
        service.process.terminate()
        service.process.wait()
    again = token_of(run(program, "pipe", "ended.db", given=asked(1)).out)
    tally.judge("a service that a signal ended", unlike(again, token))


def main(program):
    tally = Tally()
    for part in (patience, tokens, moments, address, unchecked, ended, idlers, crowd, alone):
        part(program, tally)
    with at_once(behind, [(program, tally, *pair) for pair in PEERS]):
        pass
    tally.end()


main(*sys.argv[1:])
