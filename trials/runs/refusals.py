"""Words that are taken, and words that are bad. The folder `none` isn't there, nor is `rights.toml`: a job
whose words are taken ends at once, and no service listens."""

import itertools
import subprocess

from runs.reasons import BAD_WORDS
from shared.runs import NO_RIGHTS, SECONDS, UNOPENED, Ran, run, side_by_side
from shared.tally import unlike

# How a job ends whose words are taken, by its subcommand; any other one can't open its file.
ENDS = {"trial": (0, b"", b""), "rights": (4, b"", b"vault: stopped 80\n" + NO_RIGHTS)}
NO_FILE = (3, b"", b"vault: file not opened 34\n" + UNOPENED)

# Lines, and values in place of their `?`, with whether they are taken.
TABLES = (
    (
        "lives are 0 to 3155760000",
        (
            "vault trial till-1 shop1 ?",
            "vault merchant none/v.db shop1 ? 60",
            "vault merchant none/v.db shop1 60 ?",
        ),
        (
            ("0", True),
            ("3155760000", True),
            ("3155760001", False),
            ("-1", False),
            ("1.5", False),
            ("", False),
        ),
    ),
    (
        "moments are 0 to 253402300799",
        (
            "vault trial --now ? till-1 shop1 60",
            "vault merchant --now ? none/v.db shop1 60 0",
            "vault grant --now ? none/v.db till-1 shop1 view",
            "vault grant --until ? none/v.db till-1 shop1 view",
            "vault withdraw --now ? none/v.db till-1 shop1 view",
            "vault rights --now ? none/v.db rights.toml",
            "vault pipe --now ? none/v.db",
            "vault batch --now ? none/v.db till-1 shop1",
            "vault sweep --now ? none/v.db back shop1",
        ),
        (
            ("0", True),
            ("253402300799", True),
            ("253402300800", False),
            ("18446744073709551616", False),
            ("-1", False),
            ("x", False),
            ("", False),
        ),
    ),
    (
        "leads are 6 and 8",
        ("vault merchant --lead ? none/v.db shop1 60 0",),
        (
            ("6", True),
            ("8", True),
            ("7", False),
            ("x", False),
            ("", False),
        ),
    ),
    (
        "connections are 1 to 1000000",
        ("vault serve --connections ? none/v.db",),
        (
            ("0", False),
            ("1", True),
            ("1000000", True),
            ("1000001", False),
            ("", False),
        ),
    ),
    (
        "ports end at 65535",
        ("vault serve --connections 1 --port ? none/v.db",),
        (
            ("0", True),
            ("65535", True),
            ("65536", False),
            ("http", False),
        ),
    ),
    (
        "digits are 1 to 300",
        (
            "vault trial --digits ? till-1 shop1 60",
            "vault pipe --digits ? none/v.db",
            "vault batch --digits ? none/v.db till-1 shop1",
        ),
        (
            ("0", True),
            ("7" * 300, True),
            ("7" * 301, False),
            ("12a", False),
            ("", False),
        ),
    ),
)

# Lines in which a word is missing.
MISSING = (
    "vault",
    "vault trial",
    "vault trial till-1 shop1",
    "vault trial --now 1000",
    "vault merchant none/v.db shop1 60",
    "vault merchant none/v.db shop1 60 0 --lead",
    "vault grant none/v.db till-1 shop1",
    "vault grant none/v.db till-1 shop1 view --until",
    "vault withdraw none/v.db till-1 view",
    "vault rights",
    "vault rights rights.toml",
    "vault rights none/v.db rights.toml --now",
    "vault pipe",
    "vault pipe none/v.db --digits",
    "vault batch",
    "vault batch till-1 shop1",
    "vault batch none/v.db till-1 shop1 --digits",
    "vault serve",
    "vault serve --connections 1",
    "vault serve none/v.db --rights",
    "vault serve none/v.db --merchants",
    "vault list --json",
    "vault sweep",
    "vault sweep back shop1",
    "vault sweep none/v.db back shop1 --now",
    "vault check",
    "vault migrate",
)

# Lines with a word too many, or one that isn't known.
TOO_MANY = (
    "vault trail",
    "vault check --version none/v.db",
    "vault help trail",
    "vault trial till-1 shop1 60 60",
    "vault merchant none/v.db shop1 60 0 0",
    "vault merchant none/v.db shop1 60 0 --digits 0",
    "vault merchant --until 1 none/v.db shop1 60 0",
    "vault grant none/v.db till-1 shop1 view audit",
    "vault grant --lead 6 none/v.db till-1 shop1 view",
    "vault withdraw --until 1 none/v.db till-1 shop1 view",
    "vault withdraw none/v.db till-1 shop1 view -x",
    "vault rights none/v.db rights.toml shop1",
    "vault rights none/v.db rights.toml --digits 0",
    "vault pipe none/v.db --now 1 --now 1",
    "vault pipe none/v.db w.db",
    "vault batch none/v.db till-1 shop1 60",
    "vault batch none/v.db till-1 shop1 --port 0",
    "vault serve --connections 1 --now 1 none/v.db",
    "vault sweep none/v.db back shop1 0000000000001111",
    "vault sweep --digits 0 none/v.db back shop1",
    "vault list none/v.db w.db",
    "vault list --now 1 none/v.db",
    "vault check --now 1 none/v.db",
    "vault migrate none/v.db 2",
)


def is_told(ran, line, is_good):
    """Why a run isn't that of words that are taken, or of bad ones, as it has to be; or nothing."""
    if is_good:
        return unlike(tuple(ran), ENDS.get(line.split(" ")[1], NO_FILE))
    has_line = ran.err.startswith(BAD_WORDS.encode())
    return "" if (ran.status, ran.out, has_line) == (2, b"", True) else f"not bad: {ran}"


def shown(value):
    """A value in a name."""
    return repr(value) if len(value) < 40 else f"{len(value)} digits"


def values_judged(tally, program):
    """Each value in each line of its table."""
    cases = [
        (name, line, *value)
        for name, lines, values in TABLES
        for line, value in itertools.product(lines, values)
    ]

    def ran(case):
        _, line, value, _ = case
        return run(program, *(value if word == "?" else word for word in line.split(" ")[1:]))

    for (name, line, value, is_good), one in zip(cases, side_by_side(ran, cases), strict=True):
        figure = "values that are taken" if is_good else "values that are bad"
        tally.judge(f"{name}: {line}, {shown(value)}", is_told(one, line, is_good), figure)


def nameless(program):
    """A run without words, also without the program's name; Linux since 5.18 gives it an empty one."""
    ended = subprocess.run([], executable=program, input=b"", capture_output=True, timeout=SECONDS)
    return Ran(ended.returncode, ended.stdout, ended.stderr)


def judged(tally, program):
    """Values of words, words that are missing, and words that are too many."""

    def ran(line):
        return run(program, *line.split(" ")[1:])

    values_judged(tally, program)
    tally.judge("no word, nor the program's name", is_told(nameless(program), "", False), "words missing")
    for figure, lines in (("words missing", MISSING), ("words too many or unknown", TOO_MANY)):
        for line, one in zip(lines, side_by_side(ran, lines), strict=True):
            tally.judge(f"{figure}: {line}", is_told(one, line, False), figure)
