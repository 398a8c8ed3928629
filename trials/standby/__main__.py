"""The whole trial, in a network namespace of its own: python3 -m standby [CUTS] [SEED]. With `typed` in place
of CUTS it is the takeovers without a cluster alone."""

import sys
import time

from shared.masked import MaskedTally
from shared.tally import unlike
from standby import faults
from standby.nodes import Refused
from standby.pair import Pair
from standby.tills import Tills
from standby.typed import typed


def clustered(tally, pair, tills, many, seed):
    """Each fault under a cluster."""
    print(f"served by {pair.cluster()}", flush=True)
    faults.cuts(tally, pair, tills, many, seed)
    for fault in (faults.switch, faults.cable, faults.disk, faults.split):
        fault(tally, pair, tills)
    pair.whole()
    _, lost = tills.all_again()
    tally.judge("at the end no answer is lost", unlike((lost, len(tills.lost)), (0, 0)))
    tally.judge("both disks are the same", unlike(pair.compared(), "0"))


def tried(tally, pair, many, seed):
    """Both machines from nothing, and each fault; or those of a pair without a cluster."""
    print(f"both machines are up after {pair.boot():.0f} s", flush=True)
    pair.volume()
    with Tills() as tills:
        if many == "typed":
            typed(tally, pair, tills)
        else:
            clustered(tally, pair, tills, int(many), int(seed or time.time()))


def main(many="10", seed=None):
    tally = MaskedTally()
    with Pair() as pair:
        try:
            tried(tally, pair, many, seed)
        except Refused as fault:
            tally.fail_one(str(fault))
    tally.end()


main(*sys.argv[1:])
