"""A tally whose lines have no card number: what an answer had is shown by how many digits it was."""

import re

from shared.tally import Tally

DIGITS = re.compile(r"(?<![0-9])[0-9](?:[ -]?[0-9]){9,18}(?![0-9])")


def masked(line):
    """A line with a word in place of what may be a card number or a token."""
    return DIGITS.sub(lambda found: f"({len(found[0])} digits)", line)


class MaskedTally(Tally):
    """The counts of one script, with such lines."""

    def fail_one(self, line):
        super().fail_one(masked(line))
