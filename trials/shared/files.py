"""A vault's file and the log beside it: copied and removed together."""

import shutil


def log_of(file):
    """The log beside a file."""
    return file.with_name(file.name + "-wal")


def copied(file, to):
    """Copies a file, and its log where it has one, in place of what was there; answers the copy."""
    shutil.copy(file, to)
    log_of(to).unlink(missing_ok=True)
    if log_of(file).exists():
        shutil.copy(log_of(file), log_of(to))
    return to


def removed(file):
    """Removes a file with all that stands beside it."""
    for beside in file.parent.glob(file.name + "*"):
        beside.unlink()
