"""What may be set from outside: numbers in the environment, and the program by the first word."""

import os
import pathlib
import sys

HERE = pathlib.Path(__file__).resolve().parent
# The timings share modules with the trials.
sys.path.append(str(HERE.parent / "trials"))
BUILT = HERE.parent / "crates" / "vault_cli" / "out" / "vault_cli"


def number(name, otherwise):
    """A setting that is a number."""
    return int(os.environ.get(name) or otherwise)


def numbers(name, otherwise):
    """A setting that is some numbers, or none."""
    return [int(word) for word in os.environ.get(name, otherwise).split()]


def program():
    """The program that the first word names, or the built one."""
    return os.path.abspath(sys.argv[1] if len(sys.argv) > 1 else BUILT)
