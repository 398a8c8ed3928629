"""The tables of a vault's file as the programs make them, by the schema that first has them, from the texts of
the program's own source. A statement ends with its line.

schemas.py FIRST LAST prints those that came with these schemas and between them.
"""

import pathlib
import re
import sys

SOURCES = pathlib.Path(__file__).resolve().parents[2] / "crates" / "vault_tables" / "src"


def text_of(file, name):
    """The text of a constant of the program, on one line."""
    text = re.search(rf'^pub const {name}: &str =\s*"([^"]*)";$', (SOURCES / file).read_text(), re.MULTILINE)[1]
    return re.sub(r"\\\n\s*", "", text)


def texts_of(*constants):
    return "".join(text_of(*one) + ";\n" for one in constants)


FIRST = texts_of(
    ("versions.rt", "CREATE_VAULT"),
    ("merchants/old.rt", "CREATE_OLD_MERCHANTS"),
    ("counts.rt", "CREATE_COUNTS"),
    ("entries/old.rt", "CREATE_OLD_ENTRIES"),
    ("entries/old.rt", "CREATE_OLD_ENTRIES_NUMBER"),
    ("records.rt", "CREATE_RECORDS"),
    ("rights/old.rt", "CREATE_OLD_RIGHTS"),
)
CARDS = texts_of(
    ("cards.rt", "CREATE_CARDS"),
    ("entries.rt", "CREATE_ENTRIES"),
    ("entries.rt", "CREATE_ENTRIES_CARD"),
)
LEADS = texts_of(("merchants.rt", "CREATE_MERCHANTS"))
ENDS = texts_of(("rights.rt", "CREATE_RIGHTS"))
# What each step to a newer schema makes, from the first on.
STEPS = (FIRST, CARDS, LEADS, ENDS)
# A table of no vault.
FOREIGN = "CREATE TABLE notes (line TEXT)"


def tables(version):
    """The tables of a file of a schema, those that it replaced among them."""
    return "".join(STEPS[:version])


if __name__ == "__main__":
    first, last = map(int, sys.argv[1:])
    print("".join(STEPS[first - 1 : last]), end="")
