"""What the exporter makes of a vault's count and the log's lines, over a clock of this trial's own."""

import importlib.util
import json
import types

from shared.tally import unlike

GOOD, LOST, FORGED, HUNG_UP = 200, None, 0, 499
# What happens, one after the other: numbers that are given or forged, the seconds after them, and what is
# unlogged then.
STEPS = (
    ("numbers with a line each", (GOOD, GOOD, GOOD), 30, 0),
    ("two without a line", (LOST, LOST), 30, 2),
    ("lines of numbers that were never given", (FORGED, FORGED, FORGED), 300, 2),
    ("hide none of later", (LOST,), 30, 3),
    ("a client that hung up, and got its number", (HUNG_UP,), 30, 3),
    ("one that hung up before", ("hung up for nothing",), 300, 3),
    ("hides none of later", (LOST, LOST), 30, 5),
    ("a vault that was restored", ("restored",), 30, 5),
    ("loses one", (LOST, GOOD), 30, 6),
    ("an exporter that is begun anew", ("begun anew",), 30, 6),
    ("goes on", (LOST,), 30, 7),
)


def line(status):
    return {"asked": "detokenize", "merchant": "shop1", "status": status}


def happens(module, account, what, given):
    """One of the steps; the account and what the vault has given."""
    if what == "restored":
        return account, given - 5
    if what == "begun anew":
        told = json.loads(json.dumps({it: getattr(account, it) for it in account.KEPT}))
        return module.Account(**told), given
    if what != LOST:
        account.line(line({FORGED: GOOD, "hung up for nothing": HUNG_UP}.get(what, what)))
    return account, given + (what in (GOOD, LOST, HUNG_UP))


def judge(tally, repository):
    """Each step, and what it is asked afterwards."""
    spec = importlib.util.spec_from_file_location("front_log", f"{repository}/deploy/front_log.py")
    module = importlib.util.module_from_spec(spec)
    spec.loader.exec_module(module)
    now = 1000.0
    module.time = types.SimpleNamespace(monotonic=lambda: now, time=lambda: 1800000000 + now)
    account, given = module.Account(), 100
    account.count(given, 0, now)
    for name, all_of, seconds, wanted in STEPS:
        for what in all_of:
            account, given = happens(module, account, what, given)
        for _ in range(0, seconds + 60, 30):
            now += 30
            account.compare(now, 10)
            account.count(given, account.logged, now)
        tally.judge(f"the ledger: {name}", unlike(account.unlogged, wanted))
