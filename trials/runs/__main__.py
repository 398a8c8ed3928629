"""The whole trial: python3 -m runs PROGRAM"""

import sys

from runs import answers, batches, commands, connections, decisions, files, fresh, heads, help, lists
from runs import merchants, moves, names, numbers, options, paths, pieces, purges, reasons, refusals, rights
from runs import rows, sequences, streams, sweeps, tokens, vaults, words
from shared.masked import MaskedTally

SUBJECTS = (
    *(answers, sequences, connections, commands, batches, rows, files, paths, rights, lists),
    *(heads, pieces, merchants),
    *(sweeps, purges, streams, words, options, help, reasons, refusals),
    *(numbers, names, decisions, vaults, tokens, fresh, moves),
)


def main(program):
    """Judges each subject, and counts what passed of it."""
    tally = MaskedTally()
    passed = {}
    for subject in SUBJECTS:
        before = tally.passed
        subject.judged(tally, program)
        passed[subject.__name__.removeprefix("runs.")] = tally.passed - before
    tally.figures.clear()
    tally.figures.update(passed)
    tally.show("runs")
    tally.end()


main(*sys.argv[1:])
