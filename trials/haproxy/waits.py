"""Vaults that are away: a wait, and no error."""

import threading
import time

from front import both
from front.clients import Client
from front.load import MESSAGES, Load
from shared.runs import at_once
from shared.tally import unlike

# how long a vault is away at most, and what a wait may take beyond that
AWAY, MORE = 6.0, 4.0
CROWD = 300
# the crowd's, of which none may have as many connections
ADDRESSES = ("127.0.0.2", "127.0.0.3")


def stopped(tally, port, vault):
    """A request that comes while the vault is stopped is answered once it is back."""
    vault.kill()
    found = []

    def one():
        begun = time.monotonic()
        answer = Client(port, "till-1").token("shop1", 100003)
        found.append((answer.status, time.monotonic() - begun))

    thread = threading.Thread(target=one)
    thread.start()
    time.sleep(AWAY)
    vault.start()
    thread.join()
    status, spent = found[0]
    tally.judge("a request to a vault that is away is answered 200", unlike(status, 200))
    fault = "" if AWAY <= spent <= AWAY + MORE else f"{spent:.1f} s"
    tally.judge(f"within {MORE:.0f} s of its return", fault)
    print(f"a vault was away for {AWAY:.0f} s, and one request waited for {spent:.1f} s")


def under_load(tally, port, vault):
    """32 clients, 2,000 messages, and a vault that is killed three times among them."""
    load = Load(port)
    begun = time.monotonic()
    load.run(vault, 3)
    spent = time.monotonic() - begun
    both.loaded(tally, port, load)
    others = [it for it in load.statuses if it != 200]
    tally.judge("and by an error of the front else", unlike(set(others) - {502, 503}, set()))
    print(f"{MESSAGES} messages over three kills took {spent:.1f} s, with {len(others)} errors: {others[:5]}")


def restarted(tally, port, vault):
    """Two orderly restarts of the vault under load: nobody is told an error."""
    load = Load(port)
    load.run(vault, 2, first=MESSAGES + 1, by=vault.stop)
    tally.judge("no client's connection failed at a restart", "; ".join(load.faults[:3]))
    told = {status: load.statuses.count(status) for status in set(load.statuses)}
    tally.judge("no 503 at a restart", unlike(told, {200: MESSAGES}))


def relisted(tally, port, vault):
    """A change of rights is an edited file and a restart: a wait for whoever asks meanwhile, and no error."""
    till = "[till-1]\nshop1 = ['tokenize']\n"
    vault.list(f"{till}[back]\nshop1 = ['detokenize']\n[guest]\nshop1 = ['audit']\n# end\n")
    load = Load(port)
    load.run(vault, 1, first=2 * MESSAGES + 1, by=vault.stop)
    told = {status: load.statuses.count(status) for status in set(load.statuses)}
    tally.judge("no error at a change of rights", unlike(told, {200: MESSAGES}))
    for caller, status in (("guest", 200), ("back", 403)):
        answer = Client(port, caller).ask("GET", "/v1/merchants/shop1/audit")
        tally.judge(f"what is listed counts from then on for {caller}", unlike(answer.status, status))
    vault.list(f"{till}[back]\nshop1 = ['detokenize', 'audit']\n# end\n")
    vault.stop()
    vault.start()
    answer = Client(port, "back").ask("GET", "/v1/merchants/shop1/audit")
    tally.judge("and what is listed again comes back", unlike(answer.status, 200))


def crowded(tally, port, vault):
    """One caller's requests wait in a crowd that has an end, and others wait beside it."""
    vault.kill()
    statuses = []

    def one(caller, address):
        answer = Client(port, caller, address=address).ask("GET", "/v1/merchants/shop1/audit")
        statuses.append((caller, answer.status))

    with at_once(one, [("guest", ADDRESSES[it % 2]) for it in range(CROWD)]):
        time.sleep(4)
        with at_once(one, [("back", None)]):
            vault.start()
    many = statuses.count(("guest", 429))
    tally.judge("some of a crowd are refused", "" if 0 < CROWD - many <= 256 else f"{many} of {CROWD}")
    tally.judge("and the others answered", unlike(statuses.count(("guest", 403)), CROWD - many))
    tally.judge("a caller beside it is answered", unlike(statuses.count(("back", 200)), 1))


def told_at_last(tally, port, vault):
    """What is told where the vault doesn't come back for as long as a front waits."""
    vault.kill()
    answer = Client(port, "back").ask("GET", "/v1/merchants/shop1/audit")
    told = answer.status, answer.json(), answer.fields.get("Retry-After")
    tally.judge("a vault that stays away is told at last", unlike(told, (503, {"away": True}, "1")))
    vault.start()


def gone(tally, port, vault, front):
    """Who hangs up while it waits is forgotten; others wait on."""
    vault.kill()
    client = Client(port, "till-1")
    client.connect()
    client.connection.timeout = 1
    try:
        client.token("shop1", 100004)
        told = "an answer"
    except OSError:
        told = ""
    tally.judge("who waits for a second has no answer", told)
    time.sleep(1)
    waiting = [it for it in front.numbers().splitlines() if it.startswith("haproxy_backend_current_queue")]
    tally.judge("and isn't waited for", "" if all(it.endswith(" 0") for it in waiting) else f"{waiting}")
    vault.start()
