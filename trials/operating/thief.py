"""A program of an account without rights, which takes a vault's port whenever it is free, and says what it
is sent: python3 thief.py PORT SECONDS"""

import select
import socket
import sys
import time

MPTCP = 262
# How it listens: at which address, with room for how many connections, by which protocol. A listener without
# room answers by SYN cookies, which no socket sends.
WAYS = (
    (socket.AF_INET, "127.0.0.1", 128, 0),
    (socket.AF_INET, "127.0.0.1", 0, 0),
    (socket.AF_INET6, "::", 0, 0),
    (socket.AF_INET, "0.0.0.0", 0, MPTCP),
)
HOLDS = 2.5


def listener(port, way):
    """A socket that listens, or nothing where the port is taken."""
    family, address, room, protocol = way
    made = socket.socket(family, socket.SOCK_STREAM, protocol)
    made.setsockopt(socket.SOL_SOCKET, socket.SO_REUSEADDR, 1)
    try:
        made.bind((address, port))
        made.listen(room)
    except OSError:
        made.close()
        return None
    return made


def sent_to(made, end):
    """The bytes that come until then, and from how many connections."""
    peers, connected, came = [], 0, b""
    while time.monotonic() < end:
        for it in select.select([made, *peers], [], [], 0.1)[0]:
            if it is made:
                peers.append(made.accept()[0])
                connected += 1
            elif some := it.recv(4096):
                came += some
            else:
                peers.remove(it)
    return connected, came


def main(port, seconds):
    end, way = time.monotonic() + seconds, 0
    while time.monotonic() < end:
        made = listener(port, WAYS[way % len(WAYS)])
        if not made:
            time.sleep(0.001)
            continue
        connected, came = sent_to(made, min(end, time.monotonic() + HOLDS))
        told = f"{connected} connections, {len(came)} bytes {came[:300]}"
        print(f"way {way % len(WAYS)} held, {told}", flush=True)
        made.close()
        way += 1


main(int(sys.argv[1]), float(sys.argv[2]))
