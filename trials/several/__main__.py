"""The whole trial: python3 -m several PROGRAM REPOSITORY"""

import os
import sys

import spread
from shared.tally import Tally, unlike


def main(program, repository):
    tally = Tally()
    sizes = (1, 3)
    lines = spread.table(program, repository, os.getcwd(), sizes)
    for many, (got, errors, kept) in zip(sizes, lines, strict=True):
        tally.judge(f"no error of {many} vaults", unlike(errors, 0))
        tally.judge(f"each of {many} is sound", unlike({tuple(it[:2]) for it in kept}, {("sound", "1")}))
        least = min(int(it[2]) for it in kept)
        tally.judge(f"each of {many} has tokens", "" if least > 0 else f"{kept}")
        tokens = sum(int(it[2]) for it in kept)
        # an answer that was under way as the time was over may have been counted by nobody
        more = tokens - got
        tally.judge(f"{many} vaults have what was answered", "" if 0 <= more <= 16 * many else f"{more} more")
    tally.end()


main(*sys.argv[1:])
