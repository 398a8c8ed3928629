"""cuts PLACE PROGRAM LIBRARY [all] [--seed S] [--only NAME]"""

import argparse
import pathlib
import random
import signal
import sys
import time

from cuts import asked, cases
from cuts.disks import SYSTEMS
from cuts.images import WAYS, Past
from cuts.judged import States
from cuts.stories import Story
from shared.tally import Tally

# How many states each control has, and how many cuts there are of an opening after a cut. `all` has so many
# of those openings in place of one.
CONTROL, RECOVERIES, OPENINGS = 3, 4, 15
CONTROLLED = next(it for it in cases.CASES if it.name == "pipe")
# What is cut again while it is opened.
TWICE = [it for it in cases.CASES if it.name in ("pipe", "a log that starts over")]


def instants(story, first, last, many, draw):
    """So many places of a story's writes, some of them just behind an answer."""
    came = sorted({it.came for it in story.steps if it.came is not None and first <= it.came <= last})
    behind = draw.sample(came, min(len(came), many // 3 + 1))
    return sorted(behind + [draw.randrange(first, last + 1) for _ in range(many - len(behind))])


class Trial:
    """All cases on one file system."""

    def __init__(self, words, system, place, tally):
        self.words, self.system, self.tally = words, system, tally
        self.random = random.Random(f"{system.name} {words.seed}")
        self.stage = cases.Stage(words.program, place, system, self.random)
        self.states = States(words.program, place, system, tally)

    def cut(self, name, story, disk, places, ways=WAYS, loses=False):
        """Cuts the power of a case at each of these places."""
        past = Past(story.image, disk.events, loses)
        for at in places:
            way = self.random.choice(ways)
            past.go_to(at)
            place = f"{way} of {len(past.later)} writes, before {at} of {disk.ended}"
            title = f"seed {self.words.seed}, {self.system.name}, {name}: {place}"
            image = past.cut(self.random, way)
            self.states.judge(story, at, image, self.random, title)

    def take(self, case):
        """One case, at so many instants."""
        begun, many = time.monotonic(), case.all if self.words.all else case.few
        story, disk = self.stage.play(case)
        events = disk.events[disk.began:disk.ended]
        flushes = sum(it.text is None for it in events)
        answers = sum(it.came is not None for it in story.steps)
        self.tally.judge(f"{case.name}, as it ran", "; ".join(story.faults[:3]), "cases as they ran")
        self.tally.judge(f"{case.name}: flushes", "" if flushes else "none arrives", "cases with flushes")
        self.cut(case.name, story, disk, instants(story, disk.began, disk.ended, many, self.random))
        figures = f"{answers} answers, {len(events) - flushes} writes, {flushes} flushes, {many} states"
        print(f"{self.system.name}, {case.name}: {figures}, {time.monotonic() - begun:.1f} s", flush=True)

    def again(self, case):
        """What a cut left is opened, and that is cut too."""
        story, disk = self.stage.play(case)
        at = self.random.randrange(disk.began, disk.ended + 1)
        past, open_steps = Past(story.image, disk.events), story.go_to(at)
        past.go_to(at)
        image = past.cut(self.random, "some")
        shop = self.states.settled(story, image, open_steps, self.random)
        after = Story("pipe", image, shop)
        disk = self.stage.record(after, asked.pipe, 3, {})
        self.tally.judge(f"{case.name}, again", "; ".join(after.faults[:3]), "cases as they ran")
        places = instants(after, 0, disk.ended, RECOVERIES, self.random)
        self.cut(f"{case.name}, opened after a cut", after, disk, places)

    def play(self):
        """All cases, or those whose name begins as it was asked for; then the controls."""
        for case in cases.CASES:
            if case.name.startswith(self.words.only):
                self.take(case)
        if self.words.only:
            return
        for case in TWICE * OPENINGS if self.words.all else TWICE[:1]:
            self.again(case)
        self.control("syncs that do nothing", {"LD_PRELOAD": self.words.library}, False)
        self.control("a disk that loses flushes", {}, True)

    def control(self, name, more, loses):
        """A disk or a program that loses what it said is kept: that has to be found behind last answers."""
        tally = Tally(0)
        states, self.states = self.states, States(self.words.program, self.stage.place, self.system, tally)
        story, disk = self.stage.play(CONTROLLED, more)
        places = [it.came for it in story.steps[-CONTROL:]]
        self.cut(name, story, disk, places, ("nothing",), loses)
        found, self.states = self.states.faulty, states
        print(f"control, {name}: losses in {found} of {CONTROL} states", flush=True)
        self.tally.judge(f"control, {name}", "" if found else "no loss is found", "controls that fail")


def main():
    signal.signal(signal.SIGTERM, lambda *_: sys.exit(1))
    parser = argparse.ArgumentParser(prog="cuts.sh PROGRAM")
    for name in ("place", "program", "library"):
        parser.add_argument(name)
    parser.add_argument("all", nargs="?", choices=("all",))
    parser.add_argument("--seed", type=int, default=int(time.time()))
    parser.add_argument("--only", default="")
    words = parser.parse_args()
    print(f"seed {words.seed}", flush=True)
    tally, place = Tally(), pathlib.Path(words.place)
    for system in SYSTEMS.values() if words.all else (SYSTEMS["ext4"],):
        trial = Trial(words, system, place, tally)
        trial.play()
        print(f"{system.name}: {trial.states.many} states", flush=True)
    tally.show("states after a cut")
    tally.end()


if __name__ == "__main__":
    main()
