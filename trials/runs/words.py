"""Words that ask for no job, for help, or by a bad name; and words that the program doesn't get."""

import resource

from runs.cases import Case, fault_of
from shared.runs import run

# Words that ask for no job.
BAD = (
    ("vault trail", "", 2, "", "vault: bad words\nunrecognized subcommand 'trail'\n"),
    ("vault trial till-1 shop1 4111111111111111", "", 2, "", "vault: bad words\n"),
    (
        "vault merchant --lead 7 v.db shop1 60 0",
        "",
        2,
        "",
        "vault: bad words\nLEAD: 7 isn't a number of digits that a mask may show\n",
    ),
    (
        "vault withdraw --until 1 v.db till-1 shop1 view",
        "",
        2,
        "",
        "vault: bad words\nunexpected argument '--until' found\n",
    ),
)
# A caller by a bad name.
MISNAMED = (
    "vault trial --now 1000 --digits 0 Till-1 shop1 60",
    "",
    1,
    "refused 4\n",
    "vault: CALLER is no name\n",
)
# A word that is no text, as a process is given it: the byte 0xFF alone.
NO_TEXT = "\udcff"
# Words that are longer than the memory that a process may have for its data, in bytes.
LONG = ("a" * 120_000,) * 12
LIMIT = 1_000_000


def limit_memory():
    """Lets what this process becomes have so much memory for its data."""
    resource.setrlimit(resource.RLIMIT_DATA, (LIMIT, LIMIT))


def judged(tally, program):
    """No run needs a file."""
    Case(tally, program, "words that ask for no job are bad").ends(*BAD)
    Case(tally, program, "a bad name is refused on the output").ends(MISNAMED)
    case = Case(tally, program, "help is given with status 0")
    ran = case.run("vault --help")
    case.judge("vault --help", fault_of(ran, 0, ran.out or b"some text", ""))
    case = Case(tally, program, "words that are no text are bad")
    case.judge("a byte", fault_of(run(program, NO_TEXT), 2, "", "vault: bad words\n"))
    case = Case(tally, program, "words without memory stop with 20")
    ran = run(program, *LONG, preexec_fn=limit_memory)
    case.judge("long words", fault_of(ran, 4, "", "vault: stopped 20\n"))
