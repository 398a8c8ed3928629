#!/usr/bin/env python3
"""Times sweeps of several sizes that take turns: each is stopped while another one runs, so that all have the
same disk. Each token of the merchant is dead.

turns.py [PROGRAM] times the built program, which is crates/vault_cli/out/vault_cli if it is left out. DEAD
says how many tokens are dead (100000 1000000), and ROUNDS how many rounds there are (3). The first size is
what the others are compared with. A smaller sweep has turns that are shorter by as much.
"""

import os
import pathlib
import signal
import subprocess
import sys
import tempfile
import time

sys.dont_write_bytecode = True
import figures  # noqa: E402, without leaving a folder of its bytecode here
import same  # noqa: E402
import settings  # noqa: E402
import sweep  # noqa: E402
from sides import assert_sound  # noqa: E402

# The seconds of a turn of the largest sweep.
TURN = 5.0


class Sweep:
    """A sweep that is stopped but in its turns."""

    def __init__(self, program, vault, dead, turn):
        self.dead, self.turn, self.spent = dead, turn, -sweep.sweep(program, vault, "none", 0)
        words = [program, "sweep", "--now", str(sweep.NOW), str(vault), sweep.CALLER, same.MERCHANT]
        self.process = subprocess.Popen(words, stdout=subprocess.PIPE)
        self.process.send_signal(signal.SIGSTOP)

    def goes_on(self):
        """Has its turn; whether it goes on after it. Its seconds are without those of an opening."""
        start = time.perf_counter()
        self.process.send_signal(signal.SIGCONT)
        try:
            self.process.wait(self.turn)
        except subprocess.TimeoutExpired:
            self.process.send_signal(signal.SIGSTOP)
        self.spent += time.perf_counter() - start
        return self.process.returncode is None


def time_round(program, folder, sizes):
    """The seconds of each size, of sweeps in turn."""
    files = [folder / f"{dead}.db" for dead in sizes]
    for vault, dead in zip(files, sizes):
        sweep.make_file(program, vault, dead, 0)
    os.sync()
    sweeps = []
    try:
        for vault, dead in zip(files, sizes):
            sweeps.append(Sweep(program, vault, dead, TURN * dead / max(sizes)))
        going = sweeps
        while going:
            going = [one for one in going if one.goes_on()]
    finally:
        for one in sweeps:
            one.process.kill()
    for one, vault in zip(sweeps, files):
        assert one.process.communicate()[0] == f"purged {one.dead}\n".encode()
        assert_sound(program, vault, one.dead)
    return [one.spent for one in sweeps]


def main(program):
    sizes, rounds = settings.numbers("DEAD", "100000 1000000"), settings.number("ROUNDS", 3)
    timed = []
    for _ in range(rounds):
        with tempfile.TemporaryDirectory() as name:
            timed.append(time_round(program, pathlib.Path(name), sizes))
    figures.print_head(f"Sweeps in turn, {rounds} rounds", "Dead", "Seconds", "Times the first")
    for dead, seconds in zip(sizes, zip(*timed)):
        ratios = [spent / round_[0] for spent, round_ in zip(seconds, timed)]
        figures.print_line(dead, figures.middle(seconds, 2), figures.middle(ratios, 2))


if __name__ == "__main__":
    main(settings.program())
