"""New tokens a second of several vaults behind one front by HAProxy, all on this machine, with the load.

    spread.py PROGRAM REPOSITORY FOLDER VAULTS..

Each vault has a merchant, a file and a till of its own. LASTING (5) is how many seconds each number of vaults
is asked, and CLIENTS (16) how many connections ask each of them. A line of the table has the rate, the
greatest memory of a vault and of the front, and how many processors each part had on average.
"""

import json
import multiprocessing
import os
import subprocess
import sys
import time

from front import certificates
from front.clients import Client
from front.services import Vault
from haproxy.services import Front
from shared.runs import at_once

LASTING = float(os.environ.get("LASTING", "5"))
CLIENTS = int(os.environ.get("CLIENTS", "16"))
BODY = json.dumps({"number": "4111111111111111", "use": "single"})
# more requests than a caller may have otherwise
UNLIMITED = (("rate gt 2000", "rate gt 2000000"),)


def message(merchant, request):
    """The bytes of one request."""
    head = f"POST /v1/merchants/{merchant}/tokens HTTP/1.1\r\nHost: vault\r\nX-Vault-Request: {request}\r\n"
    return f"{head}Content-Length: {len(BODY)}\r\n\r\n{BODY}".encode()


def answered(peer):
    """Whether one whole answer comes that is a token."""
    found = b""
    while b"\r\n\r\n" not in found or not found.endswith(b"}"):
        piece = peer.recv(65536)
        if not piece:
            return False
        found += piece
    return found.startswith(b"HTTP/1.1 200")


def connection(port, till, merchant, requests, ends, counts):
    """One client: it asks for a token after the other until the time is over."""
    client = Client(port, till)
    client.connect()
    client.connection.connect()
    peer = client.connection.sock
    good = 0
    for request in requests:
        if time.monotonic() >= ends:
            break
        peer.sendall(message(merchant, request))
        if not answered(peer):
            counts.append(-1)
            break
        good += 1
    counts.append(good)
    client.connection.close()


def till(port, place, ends, queue):
    """All clients of one till, in a process of their own; how many tokens they got."""
    counts = []
    name, merchant = f"till-{place}", f"shop{place}"
    requests = [range(it, 10**9, CLIENTS) for it in range(1, CLIENTS + 1)]
    with at_once(connection, [(port, name, merchant, it, ends, counts) for it in requests]):
        pass
    queue.put(counts)


def peak(processes):
    """The greatest memory of these processes, in MiB."""
    texts = [open(f"/proc/{it}/status").read() for it in processes]
    return max(int(it.split("VmHWM:")[1].split()[0]) for it in texts) / 1024


def used(processes):
    """The seconds of processors that these processes had."""
    fields = [open(f"/proc/{it}/stat").read().rpartition(")")[2].split() for it in processes]
    return sum(int(it[11]) + int(it[12]) for it in fields) / os.sysconf("SC_CLK_TCK")


def measured(front, vaults):
    """The tokens a second of these vaults, the errors, and what each part had of memory and processors."""
    queue, ends = multiprocessing.Queue(), time.monotonic() + LASTING
    parts = {"vaults": [it.process.pid for it in vaults], "front": front.workers()}
    before = {name: used(it) for name, it in parts.items()}
    words = [(front.port, place, ends, queue) for place in range(1, len(vaults) + 1)]
    processes = [multiprocessing.Process(target=till, args=it) for it in words]
    for process in processes:
        process.start()
    counts = [it for _ in processes for it in queue.get()]
    for process in processes:
        process.join()
    spent = {name: (used(it) - before[name]) / LASTING for name, it in parts.items()}
    memory = {name: peak(it) for name, it in parts.items()}
    return sum(it for it in counts if it > 0) / LASTING, counts.count(-1), memory, spent


def kept(program, vaults):
    """How many tokens stand in each file, once its vault has ended."""
    told = []
    for vault in vaults:
        vault.kill()
        ran = subprocess.run([program, "check", vault.file], capture_output=True, text=True)
        told.append(ran.stdout.split())
    return told


def one(program, repository, folder, many):
    """One line of the table, and what a trial judges: tokens by the clients, errors, what `check` says."""
    place = f"{folder}/spread-{many}"
    os.mkdir(place)
    os.chdir(place)
    certificates.by_script("authority", ".")
    certificates.by_script("server", ".", "localhost")
    vaults = [Vault(program, f"shop{it}", f"till-{it}") for it in range(1, many + 1)]
    for it in range(1, many + 1):
        certificates.by_script("caller", ".", f"till-{it}")
    front = Front(repository, *vaults, pairs=UNLIMITED)
    try:
        rate, errors, memory, spent = measured(front, vaults)
    finally:
        front.end()
    figures = f"{rate:.0f} | {memory['vaults']:.1f} | {memory['front']:.1f}"
    print(f"| {many} | {figures} | {spent['vaults']:.2f} | {spent['front']:.2f} |", flush=True)
    return round(rate * LASTING), errors, kept(program, vaults)


def table(program, repository, folder, sizes):
    """The whole table."""
    load = os.getloadavg()[0]
    print(f"{os.cpu_count()} processors, load {load:.1f}, {CLIENTS} clients a vault, {LASTING:.0f} s a line")
    print()
    print("| Vaults | Tokens a second | A vault, MiB | Front, MiB | Vaults, processors | Front, processors |")
    print("|---|---|---|---|---|---|")
    return [one(program, repository, folder, many) for many in sizes]


if __name__ == "__main__":
    table(*sys.argv[1:4], [int(it) for it in sys.argv[4:]])
