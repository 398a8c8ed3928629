"""Files without a byte, and vaults that are found again."""

from pathlib import Path

from runs import scripts
from runs.vaults import FIRST, OPENED

CASES = {
    "a table of a vault's name is no vault": """\
check = sound 0 0 0
run CREATE TABLE vault (id INTEGER) = changed
check = 30 0""",
    "a file without a byte is the empty vault": """\
audit till-1 shop1 1000 = refused 7
check = sound 0 0 0
audit till-1 shop1 1000 = refused 7""",
    "a vault is found again, and its count ends": f"""\
{OPENED}
{FIRST}
check = sound 1 1 1
tokenize till-1 shop1 7 single 4111111111111111 5 1000 = 0000000000001111 1060
detokenize till-1 shop1 0000000000001111 1059 = 4111111111111111
audit till-1 shop1 1059 = 1 1 0
run UPDATE counts SET total = 4611686018427387903 WHERE kind = 2 = changed
detokenize till-1 shop1 0000000000001111 1059 = refused 11
audit till-1 shop1 1059 = 1 4611686018427387903 0""",
}


def judged(tally, program):
    """Each case begins with a file without a byte."""
    scripts.judge_each(tally, program, "fresh", CASES, lambda file: Path(file).touch())
