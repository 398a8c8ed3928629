"""The program as it is killed: a while after its start, or a while after some of its answers."""

import subprocess
import time

from shared.runs import Limit


class Stopped:
    """A run of the program that is killed. `after` is how many answers come before the kill, or None where it
    comes a while after the start; `wait` is how long that is, or how long after the last answer."""

    def __init__(self, words, after, wait):
        self.after, self.wait = after, wait
        self.process = subprocess.Popen(
            [str(word) for word in words],
            stdin=subprocess.PIPE, stdout=subprocess.PIPE, stderr=subprocess.PIPE, bufsize=0,
        )
        self.begun = time.monotonic()
        self.timer = None
        self.latest = Limit(self.process)
        if after is None:
            self.kill_after(wait)

    def kill_after(self, seconds):
        """Kills the program after so many seconds."""
        if self.timer is None:
            self.timer = Limit(self.process, seconds)

    def saw(self, answers):
        """So many answers have come."""
        if self.after is not None and answers >= self.after:
            self.kill_after(self.wait)

    def ended(self):
        """Waits for its end: whether it was killed, its status, and what it said further on both streams."""
        out, err = self.process.communicate()
        self.spent = time.monotonic() - self.begun
        for timer in (self.timer, self.latest):
            if timer:
                timer.cancel()
        return self.process.returncode, out, err

    @property
    def hung(self):
        return self.latest.came

    @property
    def killed(self):
        return self.process.returncode == -9
