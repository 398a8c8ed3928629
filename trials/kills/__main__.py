"""kills PROGRAM [--kills N] [--seed S]"""

import argparse
import collections
import pathlib
import random
import tempfile
import time

from kills import asked, files, jobs
from kills.aims import Aims
from kills.judged import Judge
from kills.shop import Shop
from kills.stopped import Stopped
from shared.files import removed
from shared.runs import must
from shared.tally import Tally

# How often each kind of run is killed, of twenty kills.
SHARES = {
    asked.serve: 6, asked.pipe: 4, jobs.batch: 2, jobs.sweep: 2, jobs.rights: 2, jobs.words: 1,
    files.migrate: 2, files.made: 1,
}
# Runs that end before they are killed don't count; after so many of them another kind is next.
MOST_RUNS = 5


def opening(program, folder):
    """How long the program takes to open a small file and end."""
    must(program, "merchant", folder / "opened.db", "shop1", 60, 60)
    spent = []
    for _ in range(5):
        begun = time.monotonic()
        must(program, "check", folder / "opened.db")
        spent.append(time.monotonic() - begun)
    removed(folder / "opened.db")
    return min(spent)


class Trial:
    """So many kills, of all kinds, over one shop after the other."""

    def __init__(self, program, folder, seed):
        self.program, self.folder, self.seed = program, folder, seed
        self.random = random.Random(seed)
        self.tally = Tally()
        self.judge = Judge(self.tally, seed)
        self.aims = Aims(seed, opening(program, folder))
        self.kills, self.runs = collections.Counter(), 0
        self.left, self.shop = 0, None

    def new_shop(self):
        """A new shop after some kills, or after a fault."""
        if self.shop:
            removed(self.shop.path)
        self.shop = Shop(self.program, self.folder / "shop.db", self.random)
        self.shop.furnish()
        self.left = self.random.randrange(8, 17)

    def kill(self, kind):
        """One kill, which may take several runs."""
        for _ in range(MOST_RUNS):
            if self.left == 0:
                self.new_shop()
            self.left -= 1
            self.runs += 1
            run = kind(self.shop, self.aims)
            self.kills[run.kind] += run.killed
            if run.killed and run.kind != "made":
                self.kill_openings("migrate" if run.kind == "migrate" else "check")
            if not self.judge.judge(self.kills.total(), self.shop, run):
                self.left = 0
            if run.killed:
                return

    def kill_openings(self, word):
        """At times the next openings are killed too, before the file is judged."""
        while self.random.random() < 0.3:
            self.runs += 1
            wait = self.random.uniform(0, 1.5 * self.aims.opening)
            stopped = Stopped([self.program, word, self.shop.path], None, wait)
            stopped.ended()
            self.kills["opening"] += stopped.killed and not stopped.hung

    def take(self, many):
        """So many kills."""
        kinds = []
        while self.kills.total() < many and self.runs < 10 * many:
            if not kinds:
                kinds = self.random.sample(list(SHARES), counts=list(SHARES.values()), k=20)
            self.kill(kinds.pop())
        killed = ", ".join(f"{many} {kind}" for kind, many in sorted(self.kills.items()))
        print(f"{self.kills.total()} kills in {self.runs} runs: {killed}")


def main():
    parser = argparse.ArgumentParser(prog="kills.sh PROGRAM")
    parser.add_argument("program")
    parser.add_argument("--kills", type=int, default=200)
    parser.add_argument("--seed", type=int, default=int(time.time()))
    words = parser.parse_args()
    print(f"seed {words.seed}", flush=True)
    with tempfile.TemporaryDirectory() as name:
        trial = Trial(words.program, pathlib.Path(name), words.seed)
        trial.take(words.kills)
    trial.tally.show(f"{trial.kills.total()} kills, seed {words.seed}")
    trial.tally.end()


if __name__ == "__main__":
    main()
