"""Runs the trial: memory PROGRAM LIBRARY [all]."""

import os
import pathlib
import random
import sys
import tempfile

from memory import jobs
from memory.refused import Trial
from shared.masked import MaskedTally
from shared.runs import side_by_side

# Those that are refused by default: each of the first, so many of the others, and so many around a change.
FIRST = 300
PART = 1000
AROUND = 3


class Sweep:
    """The requests of one job that are refused, with what came of each."""

    def __init__(self, trial, tally):
        self.trial, self.tally = trial, tally
        self.found = {}

    def refuse(self, places):
        """Refuses requests that weren't refused yet, side by side."""
        new = sorted(set(places) - self.found.keys())
        for at, (said, fault) in zip(new, side_by_side(self.trial.outcome, new)):
            self.found[at] = said
            self.tally.judge(f"{self.trial.job.name}, request {at}", fault, said)

    def refuse_changes(self):
        """Halves the way between neighbours whose outcomes differ, and refuses those around each change."""
        while gaps := self.gaps():
            self.refuse((low + high) // 2 for low, high in gaps)
        changes = [at for at in self.found if at + 1 in self.found and self.found[at] != self.found[at + 1]]
        self.refuse(near for at in changes for near in range(max(1, at - AROUND), at + AROUND + 2))

    def gaps(self):
        """Neighbours that were refused, with others between them, whose outcomes differ."""
        places = sorted(self.found)
        return [
            (low, high)
            for low, high in zip(places, places[1:])
            if high - low > 1 and self.found[low] != self.found[high]
        ]


def last_request(trial, tally):
    """How many requests the plain run has."""
    told = trial.many
    if not told.isdigit() or int(told) < 10:
        tally.fail_one(f"{trial.job.name}: its requests for memory aren't seen: {told!r}, {trial.plain}")
        return 0
    return int(told)


def try_job(trial, tally, chosen, every):
    """Refuses the requests of one job, up to the first that isn't there."""
    last = last_request(trial, tally)
    if not last:
        return 0
    sweep = Sweep(trial, tally)
    others = range(FIRST + 1, last + 1)
    some = chosen.sample(others, min(len(others), 1 + len(others) // PART))
    sweep.refuse(range(1, last + 2) if every else (*range(1, min(FIRST, last) + 1), *some, last, last + 1))
    sweep.refuse_changes()
    if sweep.found.get(last + 1) != "none was refused":
        tally.fail_one(f"{trial.job.name}: request {last + 1} isn't the first that no run has")
    return last


def main(program, library, every):
    """Tries each job, and ends with the figures."""
    chosen = random.Random(int(os.environ.get("SEED", "1")))
    tally = MaskedTally()
    with tempfile.TemporaryDirectory() as name:
        folder = pathlib.Path(name)
        jobs.make_bases(program, folder)
        for job in jobs.all_jobs(folder):
            last = try_job(Trial(program, library, folder, job), tally, chosen, every)
            tally.show(f"{job.name}, {last} requests for memory")
    tally.end()


if __name__ == "__main__":
    main(sys.argv[1], sys.argv[2], "all" in sys.argv[3:])
