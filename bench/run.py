#!/usr/bin/env python3
"""Times single-use tokens over a file, and a file's whole check, by the vault, by Python's sqlite3 and by C
over libsqlite3: run.sh builds what it wants, and calls it.

N is how many commands are timed, BEFORE how many entries stand before them, CHECKED how many entries a file
has that is checked, COUNTED how many commands are counted by valgrind and strace (0: none; 1000 at most, as
many as a pipe answers), and ROUNDS how often each side is timed, in turn with the others and on a copy of the
same file. PROGRAM, VAULT and SAME are the built programs; without PROGRAM the vault alone is left out.
"""

import os
import pathlib
import sys
import tempfile

sys.dont_write_bytecode = True
import figures  # noqa: E402, without leaving a folder of its bytecode here
import traces  # noqa: E402
from settings import number, numbers  # noqa: E402
from sides import Sides  # noqa: E402

DISK = ("Syncs, a second", "Load")
STOLEN = "Taken by the host, %"
RATES = ("alone", "whole", "python", "peer")
NAMES = {"alone": "Vault, alone", "whole": "Vault, whole way", "python": "Python", "peer": "C"}


def machine(sides):
    """What the disk gives and how busy the machine is."""
    return {"syncs": figures.time_disk(sides.folder, 1000), "load": figures.load()}


def machine_cells(rounds):
    """The last two cells of each line."""
    return [figures.middle([it["syncs"] for it in rounds]), figures.middle([it["load"] for it in rounds], 1)]


def timed_cells(rounds):
    """The same, and the greatest share of a round's sides that the host took."""
    return [*machine_cells(rounds), figures.middle([it["stolen"] for it in rounds], 2)]


def say(*words):
    """How far the measure is, beside the tables."""
    print(*words, file=sys.stderr, flush=True)


def token_round(sides, entries, many):
    """One round of all sides over a file with so many entries."""
    found = machine(sides)
    shares = {}
    for name, side in (("alone", sides.alone), ("python", sides.python), ("peer", sides.peer_rate)):
        found[name], shares[name] = figures.undisturbed(side, entries, many)
    whole, shares["whole"] = figures.undisturbed(sides.whole_way, entries, many)
    found["whole"], found["opening"], found["peak"] = whole
    found["stolen"] = max(shares.values())
    return found


def quotient(one, other):
    """One figure in parts of another one, or none where either is none."""
    return None if one is None or other is None else one / other


def print_rates(rounds):
    columns = [f"{NAMES[side]}, a second" for side in RATES]
    figures.print_head("Tokens", "Entries before", *columns, *DISK, STOLEN)
    for entries, found in rounds.items():
        cells = [figures.middle_or_none(it[side] for it in found) for side in RATES]
        figures.print_line(entries, *cells, *timed_cells(found))


def print_shares(rounds):
    """The vault's rates in parts of the others', each of one round."""
    pairs = [(ours, theirs) for ours in RATES[:2] for theirs in RATES[2:]]
    columns = [f"{NAMES[ours]} / {NAMES[theirs]}" for ours, theirs in pairs]
    figures.print_head("Rates as parts of the others', by round", "Entries before", *columns, *DISK, STOLEN)
    for entries, found in rounds.items():
        shares = [[quotient(it[ours], it[theirs]) for it in found] for ours, theirs in pairs]
        cells = [figures.middle_or_none(share, 2) for share in shares]
        figures.print_line(entries, *cells, *timed_cells(found))


def print_openings(rounds):
    figures.print_head("The opening in a pipe", "Entries", "Seconds", "Peak, MiB", *DISK, STOLEN)
    for entries, found in rounds.items():
        seconds, peaks = ([it[name] for it in found] for name in ("opening", "peak"))
        figures.print_line(entries, figures.middle(seconds, 3), f"{max(peaks):.1f}", *timed_cells(found))


def print_growth(rounds):
    """What a token costs over the greatest file, in parts of what it costs over the smallest, by round."""
    least, most = min(rounds), max(rounds)
    if least == most:
        return
    title = f"The cost of a token with {most} entries before, in parts of that with {least}, by round"
    figures.print_head(title, *(NAMES[side] for side in RATES), *DISK, STOLEN)
    pairs = list(zip(rounds[least], rounds[most]))
    costs = [[quotient(few[side], many[side]) for few, many in pairs] for side in RATES]
    cells = [figures.middle_or_none(cost, 2) for cost in costs]
    figures.print_line(*cells, *timed_cells(rounds[least] + rounds[most]))


def time_tokens(sides, before, many, how_often):
    """All sides in turn, over each file in each round."""
    rounds = {entries: [] for entries in before}
    for place in range(how_often):
        for entries in before:
            found = token_round(sides, entries, many)
            rounds[entries].append(found)
            rates = ", ".join(f"{NAMES[side]} {found[side] or 0:.0f}" for side in RATES)
            say(f"round {place + 1} of {how_often}, tokens a second after {entries}: {rates}")
    for show in (print_rates, print_shares, print_openings, print_growth):
        show(rounds)


def command(sides, side, entries, many):
    """The words of a side for so many commands after others, on a copy of their file, and what it reads."""
    path = sides.copy(entries)
    if side == "whole":
        return (sides.vault, "pipe", path), sides.messages(entries + 1, many)
    words = (sides.bench, path, "unknown", 0, many) if side == "alone" else (sides.peer, path, many)
    return words, os.devnull


def counted(sides, count, side, entries, many):
    """What a side counts for these commands and for none, or none where there is no such side."""
    if side == "peer" and not sides.peer or side == "alone" and not sides.bench:
        return None
    return [count(*command(sides, side, entries, n), sides.folder) for n in (many, 0)]


def print_instructions(sides, before, many):
    """Machine instructions a command, and how they grow."""
    if not traces.has("valgrind"):
        print("\nvalgrind isn't there: no instructions are counted")
        return
    shown = ("alone", "whole", "peer")
    figures.print_head("Instructions a token", "Entries before", *(NAMES[side] for side in shown), *DISK)
    ours = {}
    for entries in before:
        say(f"instructions of {many} tokens after {entries}")
        found = machine(sides)
        pairs = [counted(sides, traces.instructions, side, entries, many) for side in shown]
        each = [None if pair is None else (pair[0] - pair[1]) / many for pair in pairs]
        ours[entries] = each[0]
        cells = ["-" if it is None else f"{it:,.0f}" for it in each]
        figures.print_line(entries, *cells, *machine_cells([found]))
    if len(ours) > 1 and sides.bench:
        least, most = min(ours), max(ours)
        growth = ours[most] / ours[least]
        print(f"\nThe vault's alone with {most} entries, in parts of those with {least}: {growth:.2f}")


def print_writes(sides, before, many):
    """Bytes written and syncs a command."""
    if not traces.has("strace"):
        print("\nstrace isn't there: no writes and syncs are counted")
        return
    columns = ("Vault, KiB", "Vault, syncs", "C, KiB", "C, syncs")
    figures.print_head("Written and synced a token", "Entries before", *columns, *DISK)
    for entries in before:
        say(f"writes and syncs of {many} tokens after {entries}")
        found, cells = machine(sides), []
        for pair in (counted(sides, traces.written, side, entries, many) for side in ("alone", "peer")):
            if pair is None:
                cells += ["-", "-"]
                continue
            size, syncs = ((some - none) / many for some, none in zip(*pair))
            cells += [f"{size / 1024:.1f}", f"{syncs:.3f}"]
        figures.print_line(entries, *cells, *machine_cells([found]))


def print_traces(sides, before, many):
    """What the tools count; where one gives up, a line says so and the measure goes on."""
    for show in (print_instructions, print_writes):
        try:
            show(sides, before, many)
        except traces.Unwatched as why:
            print(f"\n{why}", flush=True)


def time_checks(sides, checked, how_often):
    """The whole check of each file, by both sides in turn."""
    columns = ("`vault check`, s", "Its check alone, s", "Python, s", "`vault check`, MiB", "Python, MiB")
    figures.print_head("The check", "Entries", *columns, *DISK)
    for entries in checked:
        rounds = []
        for place in range(how_often):
            say(f"round {place + 1} of {how_often}: the check of {entries}")
            rounds.append(machine(sides))
            ours, theirs = sides.check(entries), sides.python_check(entries)
            rounds[-1]["figures"] = (ours[0], ours[2], theirs[0], ours[1], theirs[1])
        *seconds, our_peaks, their_peaks = zip(*(it["figures"] for it in rounds))
        cells = [figures.middle(it, 3) for it in seconds]
        cells += [f"{max(it):.1f}" for it in (our_peaks, their_peaks)]
        figures.print_line(entries, *cells, *machine_cells(rounds))


def main():
    many, how_often, count = number("N", 2000), number("ROUNDS", 5), int(os.environ.get("COUNTED", 400) or 0)
    before, checked = numbers("BEFORE", "1000 100000"), numbers("CHECKED", "10000 100000")
    bench, vault, peer = (os.environ.get(name) for name in ("PROGRAM", "VAULT", "SAME"))
    print(f"{os.cpu_count()} cores, {how_often} rounds, {many} tokens a side; {count} are counted")
    with tempfile.TemporaryDirectory() as name:
        sides = Sides(*(it and os.path.abspath(it) for it in (bench, vault, peer)), pathlib.Path(name))
        if before:
            time_tokens(sides, before, many, how_often)
        if before and count:
            print_traces(sides, before, count)
        if checked:
            time_checks(sides, checked, how_often)


if __name__ == "__main__":
    main()
