"""What help says, that it fits a screen, and the version. No job begins: the folder `none` isn't there."""

import itertools

from shared.runs import run, side_by_side
from shared.tally import unlike

# vault help
PROGRAM = """\
Keeps card numbers, and gives tokens for them

Usage: vault <COMMAND>

Commands:
  trial      Answers messages from standard input by a vault in memory
  merchant   Sets how long a merchant's tokens live, and what its masks show
  merchants  Sets the merchants that a list has
  grant      Gives a caller a right at a merchant
  withdraw   Takes a right at a merchant from a caller
  rights     Grants what a rights file lists
  pipe       Answers messages from standard input by the vault in FILE
  batch      Answers a CSV batch on standard input with tokens
  serve      Answers messages of connections by the vault in FILE
  sweep      Purges the card numbers of a merchant's dead tokens
  list       Lists the merchants and the rights that FILE holds
  check      Checks that FILE holds a sound vault
  migrate    Moves FILE to the newest schema
  help       Print this message or the help of the given subcommand(s)

Options:
  -h, --help     Print help
  -V, --version  Print version
"""

# vault help merchant
MERCHANT = """\
Sets how long a merchant's tokens live, and what its masks show

Usage: vault merchant [OPTIONS] <FILE> <NAME> <SINGLE> <MULTI>

Arguments:
  <FILE>    The vault's file; it is made if it isn't there
  <NAME>    The merchant
  <SINGLE>  How many seconds a single-use token lives; 0 offers none
  <MULTI>   How many seconds a multi-use token lives; 0 offers none

Options:
      --now <T>   The moment, in seconds since 1970, in place of the clock's
      --lead <L>  Most digits at the left of a mask, 6 or 8; 6, if left out
  -h, --help      Print help

No token lives longer than 3155760000 seconds, 100 years. A mask shows a card
number's last four digits, and at the left up to 6 of those before the last
ten, or with --lead 8 up to 8 of those before the last eight.
"""

# vault help merchants
MERCHANTS = """\
Sets the merchants that a list has

Usage: vault merchants [OPTIONS] <FILE> <LIST>

Arguments:
  <FILE>  The vault's file; it is made if it isn't there
  <LIST>  The list of merchants, in TOML

Options:
      --now <T>  The moment, in seconds since 1970, in place of the clock's
      --dry-run  Says what would change, and changes nothing
  -h, --help     Print help

A list of merchants has a table for each: how many seconds its single-use and
its multi-use tokens live, where 0 offers none; perhaps how many digits masks
show at the left, 6 or 8; and perhaps who purges dead tokens under `serve`:

  [shop1]
  single = 86400
  multi = 31536000
  lead = 8
  sweep = "back"

Merchants that it doesn't have stay as they are.
"""

# vault help grant
GRANT = """\
Gives a caller a right at a merchant

Usage: vault grant [OPTIONS] <FILE> <CALLER> <MERCHANT> <RIGHT>

Arguments:
  <FILE>      The vault's file; it is made if it isn't there
  <CALLER>    The caller
  <MERCHANT>  The merchant at which the right holds
  <RIGHT>     tokenize, detokenize, view, revoke, purge or audit

Options:
      --now <T>    The moment, in seconds since 1970, in place of the clock's
      --until <T>  The right's end, in seconds since 1970; none, if left out
  -h, --help       Print help

The caller has the right up to its end, and not at it. A right that is there
already gets the new end, or none, in place of its own.
"""

# vault help rights
RIGHTS = """\
Grants what a rights file lists

Usage: vault rights [OPTIONS] <FILE> <RIGHTS>

Arguments:
  <FILE>    The vault's file; it is made if it isn't there
  <RIGHTS>  The rights file, in TOML

Options:
      --now <T>  The moment, in seconds since 1970, in place of the clock's
      --exact    Withdraws the rights that it doesn't list
      --dry-run  Says what would change, and changes nothing
  -h, --help     Print help

A rights file has a table for each caller, and in it for each merchant the
rights that the caller gets there. An item is a right's word, which gives it
for good, or a table with its word and its end, in seconds since 1970:

  [till-1]
  shop1 = ["tokenize", { right = "view", until = 1893456000 }]

The words are tokenize, detokenize, view, revoke, purge and audit. Of a right
that is listed twice the latest end counts, and to have none is the latest.
"""

# vault help batch
BATCH = """\
Answers a CSV batch on standard input with tokens

Usage: vault batch [OPTIONS] <FILE> <CALLER> <MERCHANT>

Arguments:
  <FILE>      The vault's file; it is made if it isn't there
  <CALLER>    The caller who asks for the tokens
  <MERCHANT>  The merchant for which the tokens are

Options:
      --now <T>     The moment, in seconds since 1970, in place of the clock's
      --digits <D>  1 to 300 digits, repeated up to 300, in place of drawn ones
  -h, --help        Print help

The first line is `request,number,use`, and each row after it is a request
number, a card number, and single or multi. The answer's first line is
`request,answer,detail`. A row is answered by its request number, the token
and the moment at which it expires, in seconds since 1970; or by its request
number, `refused` and the number of the refusal.
"""

# vault help serve
SERVE = """\
Answers messages of connections by the vault in FILE

Usage: vault serve [OPTIONS] <FILE>

Arguments:
  <FILE>  The vault's file; it is made if it isn't there

Options:
      --connections <N>   Ends after N connections, 1 to 1000000; else never
      --port <P>          The port, 0 to 65535; 0, any free one, if left out
      --rights <RIGHTS>   Makes the rights those of this file, and follows it
      --merchants <LIST>  Sets the merchants of this list, and follows it
  -h, --help              Print help

It listens on 127.0.0.1 alone. The line `listening P` on standard output says
that it does, and P is its port. Connections are served one after the other.
A message has to be whole 5 seconds after its connection was accepted, or after
the answer before it; an answer has to be taken within 5 seconds. A connection
lasts 60 seconds at most. One that is quiet between two messages ends where
another waits.

Lists that are followed are looked at twice a second, between two connections.
A new text that two looks saw is carried out, and a line says so. A bad one
changes nothing. No merchant is removed; a last line `# end` has to stay.
"""

# vault help sweep
SWEEP = """\
Purges the card numbers of a merchant's dead tokens

Usage: vault sweep [OPTIONS] <FILE> <CALLER> <MERCHANT>

Arguments:
  <FILE>      The vault's file; it is made if it isn't there
  <CALLER>    The caller who purges
  <MERCHANT>  The merchant whose tokens they are

Options:
      --now <T>  The moment, in seconds since 1970, in place of the clock's
  -h, --help     Print help

A token is dead once it is revoked or has expired. Its card number is purged
for good, and the token stays taken. All are purged at one moment, to the
first that is refused. The line `purged N` on standard output says how many
were purged. Without --now nothing is purged where the merchant's moment is
over a day ahead of the clock.
"""

# vault help list
LIST = """\
Lists the merchants and the rights that FILE holds

Usage: vault list [OPTIONS] <FILE>

Arguments:
  <FILE>  The vault's file, which has to be there

Options:
      --json  A JSON object a line
  -h, --help  Print help

A line for each merchant, in the order of their names: its lives in seconds,
how many digits its masks show at the left, the moment of its last change, and
how many tokens were made and numbers given and denied. Then a line for each
right, by caller, merchant and right. No card number and no token is shown.
"""


# Words that ask for help, and the text that they get.
TEXTS = (
    ("vault --help", PROGRAM),
    ("vault -h", PROGRAM),
    ("vault help", PROGRAM),
    ("vault merchant --help", MERCHANT),
    ("vault help merchant", MERCHANT),
    ("vault help merchants", MERCHANTS),
    ("vault grant -h", GRANT),
    ("vault help grant", GRANT),
    ("vault rights -h", RIGHTS),
    ("vault help rights", RIGHTS),
    ("vault batch none/v.db --help", BATCH),
    ("vault help batch", BATCH),
    ("vault serve --help", SERVE),
    ("vault serve none/v.db -h", SERVE),
    ("vault help serve", SERVE),
    ("vault sweep --help", SWEEP),
    ("vault help sweep", SWEEP),
    ("vault list -h", LIST),
    ("vault help list", LIST),
)

# All commands' helps.
HELPS = (
    "vault help",
    "vault help trial",
    "vault help merchant",
    "vault help merchants",
    "vault help grant",
    "vault help withdraw",
    "vault help rights",
    "vault help pipe",
    "vault help batch",
    "vault help serve",
    "vault help sweep",
    "vault help list",
    "vault help check",
    "vault help migrate",
)

# Words that ask for the version, and the line that they get.
ASK_VERSION = ("vault --version", "vault -V")
VERSION = "vault 0.4.0, schema 4\n"

# The most lines and columns of a help.
HEIGHT, WIDTH = 24, 80


def differing(found, wanted):
    """The first line in which bytes aren't the wanted text, or nothing."""
    lines = itertools.zip_longest(found.decode(errors="replace").splitlines(True), wanted.splitlines(True))
    return next((unlike(*pair) for pair in lines if pair[0] != pair[1]), "")


def says(ran, wanted):
    """Why a run didn't print this text alone and end well, or nothing."""
    return unlike((ran.status, ran.err), (0, b"")) or differing(ran.out, wanted)


def fits(ran):
    """Why a run printed no help, or one that is too large, or nothing."""
    lines = ran.out.decode(errors="replace").splitlines()
    if (ran.status, ran.err) != (0, b"") or not any(it.startswith("Usage: vault") for it in lines):
        return f"no help: {ran}"
    height, width = len(lines), max(map(len, lines))
    return "" if height <= HEIGHT and width <= WIDTH else f"{height} lines of up to {width} columns"


def judged(tally, program):
    """Each text, each help's size, and the version."""

    def ran(line):
        return run(program, *line.split(" ")[1:])

    for (line, wanted), one in zip(TEXTS, side_by_side(ran, [it[0] for it in TEXTS]), strict=True):
        tally.judge(f"{line}: the help", says(one, wanted), "helps as they are written down")
    for line, one in zip(ASK_VERSION, side_by_side(ran, ASK_VERSION), strict=True):
        tally.judge(f"{line}: the version", says(one, VERSION), "versions")
    for line, one in zip(HELPS, side_by_side(ran, HELPS), strict=True):
        tally.judge(f"{line}: its size", fits(one), "helps of at most 24 lines of 80 columns")
