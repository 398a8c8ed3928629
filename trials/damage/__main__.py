"""Runs the five parts of the trial: damage PROGRAM [all]."""

import os
import pathlib
import random
import sys
import tempfile

from damage import bounds, changes, damaged, missing, wrong_messages
from shared.masked import MaskedTally


def main(program, every):
    """Counts all parts, and ends with their figures."""
    seed = int(os.environ.get("SEED", "1"))
    tally = MaskedTally()
    with tempfile.TemporaryDirectory() as name:
        folder = pathlib.Path(name)
        changes.try_all(program, folder, tally)
        tally.show("changed by SQL")
        bounds.try_all(program, folder, tally)
        tally.show("at the bounds of rules")
        missing.try_all(program, folder, tally)
        tally.show("without a table")
        damaged.try_all(program, folder, tally, random.Random(seed), every)
        wrong_messages.try_all(program, folder, tally)
        tally.show("messages through a service")
    tally.end()


if __name__ == "__main__":
    main(sys.argv[1], "all" in sys.argv[2:])
