"""disk PROGRAM LIBRARY [all] [--seed S]"""

import argparse
import collections
import pathlib
import random
import tempfile
import time

from disk import grounds, jobs
from disk.faults import FAULTS, UNFAILING, Disk
from disk.jobs import LONG
from disk.judged import Case
from shared.tally import Tally

# How many places of a job's calls are tried with each fault, and how many by `all` where those are too many:
# of reads, and of a batch that copies a log back.
CHOSEN, MANY = 2, 30


class Trial:
    """All jobs, each with all faults."""

    def __init__(self, program, library, folder, seed):
        self.program, self.folder, self.seed = program, folder, seed
        self.random = random.Random(seed)
        self.tally = Tally()
        self.work = folder / "work"
        self.work.mkdir()
        self.disk = Disk(library, self.work)

    def jobs(self):
        """The jobs, with the files that they begin with."""
        small = grounds.small(self.program, self.folder)
        long = grounds.long(self.program, self.folder, small)
        older = {version: grounds.older(self.folder, small, version) for version in (1, 2, 3)}
        return list(jobs.all_jobs(small, long, older, self.folder))

    def case(self, job):
        return Case(self.program, self.disk, job, self.work / "vault.db")

    def counts(self, job):
        """How many calls of each kind a job has over a disk that is well."""
        found = {}
        for calls, fault in UNFAILING.items():
            case = self.case(job)
            ended = case.run(fault, 0)
            found[calls] = self.disk.calls
            fault = case.told() or ("" if ended == "done" else ended)
            if calls == "writes" and not found[calls]:
                fault = fault or "no call was seen: isn't the program linked to the C library as it starts?"
            self.tally.judge(f"{job.name}, a disk that is well", fault, "well")
        return found

    def places(self, job, fault, calls, every):
        """The places that are tried of so many calls: all of them, or some that are drawn. With a long log
        the last few aren't, since tokens are drawn, and so not each run has as many pages to copy."""
        large = fault.calls == "reads" or job.name == LONG
        calls = calls * 9 // 10 if job.name == LONG else calls
        most = CHOSEN if not every else MANY if large else calls
        return sorted(self.random.sample(range(1, calls + 1), min(most, calls)))

    def take(self, job, every):
        """One job with all faults."""
        counts = self.counts(job)
        ends, runs = collections.Counter(), 0
        for fault in FAULTS:
            calls = counts[fault.calls]
            for at in self.places(job, fault, calls, every):
                case = self.case(job)
                ends[case.run(fault, at)] += 1
                runs += 1
                name = f"seed {self.seed}, {job.name}, {fault.name} at call {at} of {calls}"
                self.tally.judge(name, case.told(), fault.name)
        said = ", ".join(f"{many} {end}" for end, many in ends.most_common())
        calls = ", ".join(f"{many} {kind}" for kind, many in counts.items())
        print(f"{job.name} ({calls}): {runs} runs, {said}", flush=True)


def main():
    parser = argparse.ArgumentParser(prog="disk.sh PROGRAM")
    parser.add_argument("program")
    parser.add_argument("library")
    parser.add_argument("all", nargs="?", choices=("all",))
    parser.add_argument("--seed", type=int, default=int(time.time()))
    words = parser.parse_args()
    print(f"seed {words.seed}", flush=True)
    with tempfile.TemporaryDirectory() as name:
        trial = Trial(words.program, words.library, pathlib.Path(name), words.seed)
        for job in trial.jobs():
            trial.take(job, words.all)
    trial.tally.show("failing calls")
    trial.tally.end()


if __name__ == "__main__":
    main()
