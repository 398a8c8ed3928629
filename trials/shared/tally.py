"""What a trial counts: what passed, what failed, and figures that say how."""

import collections
import sys
import time


def unlike(found, wanted):
    """The fault of a value that isn't the wanted one."""
    return "" if found == wanted else f"{found!r}, not {wanted!r}"


class Tally:
    """The counts of one script; `end` prints them, and is the script's end."""

    def __init__(self, most_shown=40):
        self.passed = self.failed = 0
        self.figures = collections.Counter()
        self.most_shown = most_shown
        self.begun = time.monotonic()

    def pass_one(self, figure=None):
        """One case passed, and is counted under a figure too."""
        self.passed += 1
        if figure:
            self.figures[figure] += 1

    def fail_one(self, line):
        """One case failed: the line names it, and says what differed."""
        self.failed += 1
        if self.failed <= self.most_shown:
            print(f"FAILED  {line}", flush=True)

    def judge(self, name, fault, figure=None):
        """One case: it passed where there is no fault to tell."""
        if fault:
            self.fail_one(f"{name}: {fault}")
        else:
            self.pass_one(figure)

    def show(self, title):
        """Prints the figures so far under a title, and forgets them."""
        spent = time.monotonic() - self.begun
        self.begun = time.monotonic()
        print(f"{title}: {sum(self.figures.values())} passed, {spent:.0f} s", flush=True)
        for figure, many in sorted(self.figures.items(), key=lambda it: (-it[1], it[0])):
            print(f"    {many:6} {figure}", flush=True)
        self.figures.clear()

    def end(self):
        """The last line, which a gate counts."""
        print(f"{self.passed} passed, {self.failed} failed", flush=True)
        sys.exit(1 if self.failed else 0)
