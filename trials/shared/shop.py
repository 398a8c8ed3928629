"""Shops in a vault's file: a merchant with its lives, and who may do what there."""

from model.vault import RIGHTS
from shared.runs import must

# Who asks for tokens, and who does all else.
TILL = {"till-1": ("tokenize",)}
BACK = {"back": tuple(RIGHTS)[1:]}


def moment(now):
    """The words of a fixed moment, or none."""
    return () if now is None else ("--now", now)


def granted(program, file, rights, merchant="shop1", now=None, until=None):
    """Gives callers their rights at a merchant, up to an end where there is one."""
    end = () if until is None else ("--until", until)
    for caller, words in rights.items():
        for right in words:
            must(program, "grant", *moment(now), *end, file, caller, merchant, right)


def made(program, file, single, multi, rights, merchant="shop1", now=None, lead=6):
    """Sets a merchant, and gives callers their rights there."""
    must(program, "merchant", *moment(now), "--lead", lead, file, merchant, single, multi)
    granted(program, file, rights, merchant, now)
