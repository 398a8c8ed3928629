"""What is said of bad words. The folder `none` isn't there: a job that took such words would end at once."""

from runs.help import differing
from shared.runs import run, side_by_side
from shared.tally import unlike

# The line of bad words; behind it stands why they are.
BAD_WORDS = "vault: bad words\n"

# Words, and what is said of them.
SAID = (
    (
        "vault serve --port 99999 none/v.db",
        "PORT: 99999 isn't a port\n",
    ),
    (
        "vault serve --port http none/v.db",
        "invalid value 'http' for '--port <P>': invalid digit found in string\n",
    ),
    (
        "vault serve --connections 0 none/v.db",
        "CONNECTIONS: 0 isn't a number of one to a million\n",
    ),
    (
        "vault merchant --lead 7 none/v.db shop1 60 0",
        "LEAD: 7 isn't a number of digits that a mask may show\n",
    ),
    (
        "vault pipe --digits 12a none/v.db",
        "DIGITS: 12a isn't a text of one to three hundred digits\n",
    ),
    ("vault trail", "unrecognized subcommand 'trail'\n"),
    ("vault pipe none/v.db w.db", "unexpected argument 'w.db' found\n"),
    (
        "vault pipe --file none/v.db",
        "unexpected argument '--file' found\n",
    ),
    (
        "vault batch none/v.db till-1",
        "the following required arguments were not provided:\n  <MERCHANT>\n",
    ),
    (
        "vault serve none/v.db --rights",
        "a value is required for '--rights <RIGHTS>' but none was supplied\n",
    ),
    (
        "vault serve none/v.db --merchants",
        "a value is required for '--merchants <LIST>' but none was supplied\n",
    ),
    # what shows ten digits might show a card number
    ("vault merchant none/v.db shop1 3155760001 0", ""),
    ("vault pipe --now 253402300800 none/v.db", ""),
    ("vault batch none/v.db till-1 shop1 4111111111111111", ""),
    ("vault 4111-1111-1111-1111", ""),
)


def says(ran, wanted):
    """Why a run didn't end by bad words, with this behind their line and nothing else, or nothing."""
    return unlike((ran.status, ran.out), (2, b"")) or differing(ran.err, BAD_WORDS + wanted)


def says_help(ran):
    """Why a run didn't end by bad words with help behind their line, or nothing."""
    has_help = ran.err.startswith(BAD_WORDS.encode()) and b"Usage: vault <COMMAND>" in ran.err
    return unlike((ran.status, ran.out, has_help), (2, b"", True))


def judged(tally, program):
    """Each reason, and help where there is no word."""

    def ran(line):
        return run(program, *line.split(" ")[1:])

    for (line, wanted), one in zip(SAID, side_by_side(ran, [it[0] for it in SAID]), strict=True):
        tally.judge(f"{line}: why it is bad", says(one, wanted), "reasons of bad words")
    tally.judge("vault: help where there is no word", says_help(ran("vault")), "reasons of bad words")
