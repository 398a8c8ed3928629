"""Readers and writers that fail."""

from pathlib import Path

from runs.cases import ASKED, Case, fault_of, in_bytes, words_of
from shared.runs import run

# The words of a trial of the worked message.
TRIAL = "vault trial --now 1000 --digits 0 till-1 shop1 60"
# The header of a batch, and no row.
HEADER = "request,number,use\n"
# A folder, of which no read succeeds; a full disk, where neither a write nor a flush does; no output.
UNREADABLE, FULL, CLOSED = "< .", "> /dev/full", ">&-"
# Words with their input, and the line with which each run stops where its answers aren't taken.
UNFLUSHED = (
    (TRIAL, ASKED, "vault: stopped 62\n"),
    ("vault check FILE", HEADER, "vault: stopped 62\n"),
    ("vault merchant FILE shop1 60 0", HEADER, "vault: stopped 62\n"),
    ("vault batch FILE till-1 shop1", HEADER, "vault: stopped 42\n"),
)


def stops(case, line, stream, given, told):
    """A run over this stream ends with 4, says this on the errors, and nothing is seen on its output."""
    words = words_of(line, case.file)
    ran = run("sh", "-c", f'exec "$0" "$@" {stream}', case.program, *words, given=in_bytes(given))
    case.judge(f"{line} {stream}", fault_of(ran, 4, "", told))


def judged(tally, program):
    """Each stream is one that no run can use."""
    Path("streams").mkdir()
    file = "streams/vault.db"
    case = Case(tally, program, "a reader that fails stops with 61", file)
    stops(case, TRIAL, UNREADABLE, "", "vault: stopped 61\n")
    case = Case(tally, program, "a writer that fails stops with 62", file)
    for stream in (CLOSED, FULL):
        stops(case, TRIAL, stream, ASKED, "vault: stopped 62\n")
    case = Case(tally, program, "a flush that fails stops with 62 and a batch with 42", file)
    for line, given, told in UNFLUSHED:
        stops(case, line, FULL, given, told)
