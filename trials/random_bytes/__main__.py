"""Runs the trial: random_bytes PROGRAM [--streams N] [--seed S]."""

import argparse
import collections
import pathlib
import tempfile

from random_bytes import compared, grounds
from shared.masked import MaskedTally
from shared.runs import side_by_side

# One stream of so many goes through a service too.
SERVED = 20


def main():
    """Counts one case for each cutting of each stream, and ends with the figures."""
    words = argparse.ArgumentParser(prog="bytes.sh")
    words.add_argument("program")
    words.add_argument("--streams", type=int, default=400, help="how many streams of bytes (400)")
    words.add_argument("--seed", type=int, default=1, help="the seed of the first stream (1)")
    words.add_argument("--show", action="store_true", help="print the bytes of a stream that fails")
    asked = words.parse_args()
    tally = MaskedTally()
    kinds = collections.Counter()
    with tempfile.TemporaryDirectory() as name:
        ground = grounds.Ground(asked.program, pathlib.Path(name), asked.seed)
        seeds = range(asked.seed, asked.seed + asked.streams)
        work = lambda seed: compared.try_stream(ground, seed, seed % SERVED == 0, asked.show)  # noqa: E731
        for found, answered in side_by_side(work, seeds):
            kinds.update(answered)
            for name, fault, figure in found:
                tally.judge(name, fault, figure)
    tally.show(f"{asked.streams} streams from the seed {asked.seed}")
    print("answers due:", ", ".join(f"{many} {kind}" for kind, many in kinds.most_common()))
    tally.end()


if __name__ == "__main__":
    main()
