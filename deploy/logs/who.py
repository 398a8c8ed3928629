#!/usr/bin/env python3
"""Who brought back card numbers of a merchant, by the front's log; and whether it has all of them.

    who.py MERCHANT [--days N] [--until DAY] [--asked WORD] [--each] [--request N] [--folder FOLDER]
    who.py --reconcile [MERCHANT] [--days N] [--ledger FILE] [--folder FOLDER]

It reads `front.log` of FOLDER and the files that logrotate made of it, compressed or not, and prints a line
for each caller: how many numbers it got, how many times it was refused, of how many tokens (as far as their
last four digits tell), and its first and last time. `--each` prints each request in its place, with the number
that refused it, its request number and its reference, as far as there are. `--request N` takes those of one
request number alone, of which a log has the first six digits and the last four. N of `--days` is 7, counted back
from now or from the end of DAY, as 2026-11-27, in UTC. WORD is `detokenize`, or another that the log has:
`tokenize`, `view`, `revoke`, `purge`, `audit`. A line that isn't the log's is counted on standard error, and
what can't be printed is escaped. The exit status is 1 if a file can't be read whole.

`--reconcile` compares how many numbers the vault gave with how many lines tell of one. The exporter notes in
FILE, its `ledger.json`, twice a day what each vault had given. Between two such times `unlogged` are numbers
that no line tells of: one that went out while the log was full, or past the front, or one whose answer was
lost and that the front asked for again. `perhaps` are requests whose client hung up or whose answer was lost, so
each may have brought a number back. `uncounted` are lines of numbers that the vault didn't give. The exit status
is 1 if there are any unlogged or uncounted.
"""

import argparse
import bisect
import collections
import datetime
import json
import os
import re
import sys

sys.dont_write_bytecode = True
sys.path[1:1] = [os.path.dirname(os.path.dirname(os.path.abspath(__file__))), "/usr/lib/vault"]
import front_log  # noqa: E402

UTC = datetime.timezone.utc


def plain(text):
    """A text as a terminal may have it."""
    return str(text).encode("unicode_escape").decode()


def lines(folder, faults):
    """The lines of all files, the oldest file first. What can't be read of one is told."""
    for path in front_log.kept(f"{folder}/front.log"):
        try:
            with front_log.opened(path) as file:
                yield from (line for line, _, _ in front_log.lines(file))
        except front_log.UNREADABLE as error:
            faults.append(path)
            print(f"{plain(path)} can't be read whole: {plain(error)}", file=sys.stderr)


def requests(folder, since, until, faults):
    """Each request of that time, and how many lines were none."""
    strange = 0
    for line in lines(folder, faults):
        told = front_log.request(line)
        try:
            told["time"] = datetime.datetime.fromisoformat(told["time"]).astimezone(UTC)
        except (TypeError, ValueError, OverflowError):
            strange += 1
            continue
        if since <= told["time"] < until:
            yield told
    if strange:
        print(f"lines that aren't the log's: {strange}", file=sys.stderr)


def logged(request):
    """A request number as a log has it."""
    return re.sub(r"^([0-9]{0,6})[0-9]{6,}([0-9]{4})$", r"\1***\2", request)


def shown(moment):
    return f"{moment:%Y-%m-%d %H:%M:%S}"


def summed(found):
    """A line for each caller, the one with the most numbers first."""
    callers = collections.defaultdict(list)
    for told in found:
        callers[told["caller"]].append(told)
    print(f"{'caller':16} {'given':>7} {'refused':>7} {'tokens':>7}  {'first':19}  last")
    given = {caller: [it for it in all_of if it["status"] == 200] for caller, all_of in callers.items()}
    for caller in sorted(callers, key=lambda it: (-len(given[it]), it)):
        all_of = callers[caller]
        tokens = len({it["token"] for it in given[caller]})
        times = [it["time"] for it in all_of]
        counts = f"{len(given[caller]):7} {len(all_of) - len(given[caller]):7} {tokens:7}"
        print(f"{plain(caller):16} {counts}  {shown(min(times))}  {shown(max(times))}")


def each(found):
    """A line for each request, the oldest first."""
    for told in sorted(found, key=lambda it: it["time"]):
        more = (
            f"{word} {plain(told[word])}"
            for word in ("refused", "request", "reference")
            if told.get(word, "-") != "-"
        )
        print(shown(told["time"]), plain(told["caller"]), plain(told["token"]), told["status"], *more)


def ledger(path, merchant, since):
    """Of each merchant the times that it notes since then, each with what the vault had given."""
    try:
        with open(path) as file:
            accounts = json.load(file)["merchants"]
    except (OSError, ValueError, KeyError) as error:
        raise SystemExit(f"{path} can't be read: {error}") from None
    found = {name: [it for it in told["marks"] if it[0] >= since] for name, told in accounts.items()}
    return {name: marks for name, marks in found.items() if merchant in (None, name)}


def reconciled(folder, marks, faults):
    """Of each merchant a row for each time between two marks: given, logged, perhaps."""
    ends = {name: [it[0] for it in of_one] for name, of_one in marks.items()}
    rows = {
        name: [[after[1] - before[1], 0, 0] for before, after in zip(of_one, of_one[1:])]
        for name, of_one in marks.items()
    }
    first = datetime.datetime.fromtimestamp(min((it[0] for it in ends.values() if it), default=0), UTC)
    for told in requests(folder, first, datetime.datetime.max.replace(tzinfo=UTC), faults):
        # a time is of the second that it names, which is over before the next mark
        place = bisect.bisect_left(ends.get(told["merchant"], ()), int(told["time"].timestamp())) - 1
        if told["asked"] == "detokenize" and 0 <= place < len(rows.get(told["merchant"], ())):
            out = front_log.went_out(told)
            rows[told["merchant"]][place][2 if out is None else 1] += 1 if out is None else out
    return rows


def reconcile(arguments, since):
    """Prints what adds up and what doesn't; the exit status."""
    faults = []
    marks = ledger(arguments.ledger, arguments.merchant, since.timestamp())
    rows = reconciled(arguments.folder, marks, faults)
    names = "given", "logged", "perhaps", "unlogged", "uncounted"
    print(f"{'merchant':16}", *(f"{it:>9}" for it in names), " from, until")
    wrong = 0
    for name, of_one in sorted(rows.items()):
        if not of_one:
            print(f"{name:16} the ledger has no two times of it yet")
        whole = [marks[name][0][0], marks[name][-1][0], *map(sum, zip(*of_one))] if of_one else []
        between = zip(marks[name], marks[name][1:], of_one)
        parts = [(before[0], after[0], *row) for before, after, row in between]
        missing = [max(0, given - out - perhaps) for _, _, given, out, perhaps in parts]
        extra = [max(0, out - given) for _, _, given, out, perhaps in parts]
        wrong += sum(missing) + sum(extra)
        shows = [(*whole, sum(missing), sum(extra))] if whole else []
        shows += [(*part, *it) for part, *it in zip(parts, missing, extra) if any(it) and len(parts) > 1]
        for begun, end, *counts in shows:
            times = ", ".join(shown(datetime.datetime.fromtimestamp(it, UTC)) for it in (begun, end))
            print(f"{name:16}", *(f"{it:9}" for it in counts), f" {times}")
    return 1 if wrong or faults else 0


def words():
    parser = argparse.ArgumentParser()
    parser.add_argument("merchant", nargs="?")
    parser.add_argument("--reconcile", action="store_true")
    parser.add_argument("--days", type=int, default=7)
    parser.add_argument("--until", type=datetime.date.fromisoformat)
    parser.add_argument("--asked", default="detokenize")
    parser.add_argument("--each", action="store_true")
    parser.add_argument("--request")
    parser.add_argument("--folder", default="/var/log/vault")
    parser.add_argument("--ledger", default="/var/lib/private/vault-exporter/ledger.json")
    arguments = parser.parse_args()
    if not arguments.merchant and not arguments.reconcile:
        parser.error("which merchant?")
    return arguments


def main():
    arguments, faults = words(), []
    until = datetime.datetime.now(UTC) + datetime.timedelta(seconds=1)
    if arguments.until:
        day = datetime.datetime.combine(arguments.until, datetime.time(), UTC)
        until = day + datetime.timedelta(days=1)
    since = until - datetime.timedelta(days=arguments.days)
    if arguments.reconcile:
        return reconcile(arguments, since)
    wanted = arguments.merchant, arguments.asked
    found = [
        told
        for told in requests(arguments.folder, since, until, faults)
        if (told["merchant"], told["asked"]) == wanted
        and (arguments.request is None or told.get("request") == logged(arguments.request))
    ]
    (each if arguments.each else summed)(found)
    return 1 if faults else 0


sys.exit(main())
