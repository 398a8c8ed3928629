"""When a run is killed: moments that are drawn over how long runs of its kind take."""

import random
from typing import NamedTuple


class Aim(NamedTuple):
    """A kill a while after so many answers, or, where those are None, after the start."""

    after: int | None
    wait: float

    def __str__(self):
        place = "the start" if self.after is None else f"{self.after} answers"
        return f"{1000 * self.wait:.1f} ms after {place}"


class Aims:
    """Draws aims. `opening` is how long the program takes to open a small file and end, in seconds. What else
    the machine does changes how long a run takes; so a kind whose runs end too soon gets earlier aims."""

    def __init__(self, seed, opening):
        self.random = random.Random(f"aims {seed}")
        self.opening = opening
        self.lengths, self.late = {}, {}

    @property
    def scale(self):
        """How large jobs are: 1 for a fast program, less for one that is built with checks."""
        return min(1.0, 0.15 / self.opening)

    def whole(self, kind, seconds):
        """A run of a kind came to its end before its kill, and took so long."""
        self.lengths[kind] = min(self.lengths.get(kind, seconds) * 1.5, seconds)
        self.late[kind] = self.late.get(kind, 0) + 1

    def early(self, kind):
        """A run of a kind was killed before its end."""
        self.late[kind] = 0

    def by_time(self, kind):
        """An aim by the time since the start alone: within the opening, or in the work behind it."""
        length = self.lengths.get(kind, 2 * self.opening) * 0.8 ** self.late.get(kind, 0)
        if self.random.random() < 0.2:
            return Aim(None, self.random.uniform(0, self.opening))
        return Aim(None, self.random.uniform(min(self.opening, length) / 2, length))

    def by_answers(self, most):
        """An aim by the answers that came, and a few commands' time; a few are by the time of the opening."""
        if self.random.random() < 0.15:
            return Aim(None, self.random.uniform(0, 1.5 * self.opening))
        return Aim(self.random.randrange(most), self.random.choice((0, 0.0002, 0.001)) * self.random.random())
