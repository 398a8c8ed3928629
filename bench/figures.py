"""Figures of some rounds, the lines of a table, and what the machine was doing meanwhile."""

import os
import time

# How much the host may take, in hundredths of the processors' time, and how often a side runs until it does.
MOST_STOLEN = 0.25
TRIES = 5


def time_disk(folder, many):
    """The syncs a second of a file that grows by a page each time."""
    with open(folder / "pages", "wb", buffering=0) as file:
        os.sync()
        start = time.perf_counter()
        for _ in range(many):
            file.write(bytes(4096))
            os.fdatasync(file.fileno())
        return many / (time.perf_counter() - start)


def middle(figures, digits=0):
    """The middle one of some figures, and the least and the greatest."""
    figures = sorted(figures)
    least, mid, most = (f"{x:.{digits}f}" for x in (figures[0], figures[len(figures) // 2], figures[-1]))
    return f"{mid} ({least} to {most})"


def middle_or_none(figures, digits=0):
    """The same, or a dash where a round has no figure."""
    figures = list(figures)
    return "-" if None in figures or not figures else middle(figures, digits)


def load():
    """How many processes wanted a processor, over the last minute."""
    return os.getloadavg()[0]


def stolen():
    """For how many seconds of its processors' time a virtual machine has waited for its host."""
    with open("/proc/stat") as file:
        return int(file.readline().split()[8]) / os.sysconf("SC_CLK_TCK")


def watched(side, *words):
    """What a side answers, and the share of the processors' time that the host took meanwhile, in
    hundredths."""
    start, before = time.perf_counter(), stolen()
    answer = side(*words)
    spent = (time.perf_counter() - start) * os.cpu_count()
    return answer, 100 * (stolen() - before) / spent


def undisturbed(side, *words):
    """The same of a side that runs anew while the host took more than MOST_STOLEN, TRIES times at most. The
    try with the least of it counts, whatever it answers."""
    tries = []
    while len(tries) < TRIES:
        tries.append(watched(side, *words))
        if tries[-1][1] <= MOST_STOLEN:
            break
    return min(tries, key=lambda it: it[1])


def print_head(title, *columns):
    """What a table shows, and its first lines."""
    print(f"\n{title}:\n\n| {' | '.join(columns)} |\n|{'---|' * len(columns)}", flush=True)


def print_line(*cells):
    print(f"| {' | '.join(map(str, cells))} |", flush=True)
