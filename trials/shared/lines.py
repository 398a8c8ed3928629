"""The lines of a front's log: their shape, in which a card number has no place."""

import gzip
import json
import re

ASKED = ("tokenize", "detokenize", "view", "revoke", "purge", "audit", "page", "elsewhere")
SHAPES = {
    "time": r"20[0-9-]{8}T[0-9:]{8}(?:Z|[+-][0-9:]{5})",
    "from": r"[0-9a-f.:]{1,45}",
    "caller": r"-|\*{4}|[a-z0-9-]{1,16}",
    "merchant": r"-|[a-z0-9-]{1,16}",
    "token": r"-|\*{4}[0-9]{0,4}",
    "asked": "-|" + "|".join(ASKED),
    "status": r"[0-9-]{1,3}",
    "milliseconds": r"[0-9-]{1,9}",
    "refused": r"-|\?|14 to 16|[0-9]{1,2}|away|front [0-9]{3}(?: expired| early| revoked| list expired)?",
    "request": r"-|[0-9]{1,9}|[0-9]{0,6}\*{3}[0-9]{4}",
    "reference": r"-|[A-Za-z0-9][A-Za-z0-9 ._:/#-]{0,63}",
}
# what HAProxy says of its own parts as it starts and stops
OWN = re.compile(r"Proxy [A-Za-z0-9<>]+ (?:started|stopped \(cumulated conns: FE: [0-9]+, BE: [0-9]+\))\.")
# ten digits, alone or with a sign between two
NUMBER = re.compile(r"[0-9](?:(?:[ -]|%20)?[0-9]){9,}")


def fault_of(line):
    """What a line has that none may have, or nothing."""
    try:
        told = json.loads(line)
    except ValueError:
        return f"no JSON: {line[:60]}"
    if not set(told) <= set(SHAPES) or not {"time", "caller", "asked", "status"} <= set(told):
        return f"the keys {sorted(told)}"
    for key, value in told.items():
        if not re.fullmatch(SHAPES[key], str(value)):
            return f"another {key}"
        if key != "time" and NUMBER.search(str(value)):
            return f"a number as {key}"
    return ""


def read(path):
    """The lines of a log, which may be compressed. What HAProxy writes behind a bar is no part of this log:
    rsyslog takes it away, and where HAProxy writes its lines itself it is left out here."""
    with (gzip.open if path.endswith(".gz") else open)(path, "rt") as file:
        return [line.partition("|")[0] for line in file.read().splitlines()]


def judge(tally, path):
    """Each line of a log, of which there are some; what they say. A front may tell of itself between them."""
    lines = [it for it in read(path) if not OWN.fullmatch(it)]
    faults = [it for it in map(fault_of, lines) if it]
    told = f"{len(faults)} of {len(lines)}: {sorted(set(faults))[:5]}"
    tally.judge(f"no number in the {len(lines)} lines of {path}", told if faults or not lines else "")
    return [] if faults else [json.loads(it) for it in lines]
