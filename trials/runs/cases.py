"""A case: runs of the program by lines of words, and how each of them has to end."""

import os
from pathlib import Path
from typing import NamedTuple

from shared import runs
from shared.messages import token_asked
from shared.runs import Ran, run
from shared.tally import Tally, unlike

# The worked message: a request for a single-use token.
ASKED = token_asked(7)
# The body of its answer at the moment 1000, where all drawn digits are 0 or it repeats such a request.
TOKEN = '{"expires":1060,"token":"0000000000001111"}'
# Its answer.
ANSWERED = f"HTTP/1.1 200 OK\r\nContent-Type: application/json\r\nContent-Length: 43\r\n\r\n{TOKEN}"
# A shop with a life of 60, at which `till-1` may ask for tokens.
SHOP = """\
vault merchant --now 1000 FILE shop1 60 0
vault grant --now 1000 FILE till-1 shop1 tokenize"""
# What a check says on the errors of a file with a log, and what is said of a file that is no vault.
HAS_LOG = runs.HAS_LOG.decode()
NOT_OPENED = "vault: file not opened 34\nvault: FILE or its log can't be opened\n"
NO_DATABASE = "vault: file not opened 34\nvault: FILE is damaged, or is no database\n"
# How many characters a fault shows of each thing that differs.
MOST_SHOWN = 600


def in_bytes(text):
    """A text as the program reads or writes it; bytes stay as they are."""
    return text if isinstance(text, bytes) else text.encode()


def answer(status, body, *fields):
    """The text of an answer with this status line, these fields after the length, and this body."""
    top = (f"HTTP/1.1 {status}", "Content-Type: application/json", f"Content-Length: {len(body)}")
    return "\r\n".join((*top, *fields, "", body))


def words_of(line, file):
    """The words of a line behind `vault`, with one space between two: FILE stands for the case's file, and
    `shop_1` for a name with a space."""
    named = {"FILE": file, "shop_1": "shop 1"}
    return [named.get(word, word) for word in line.split(" ")][1:]


def fault_of(ran, status, out, err):
    """What a run has that isn't wanted: another status, output or errors."""
    wanted = Ran(status, in_bytes(out), in_bytes(err))
    pairs = zip(Ran._fields, ran, wanted)
    faults = [f"{field} {unlike(one, other)[:MOST_SHOWN]}" for field, one, other in pairs if one != other]
    return ran.broke or "; ".join(faults)


class Case(NamedTuple):
    """A case by its name, and the file that stands for FILE in its lines."""

    tally: Tally
    program: str
    name: str
    file: str = ""

    def judge(self, what, fault):
        """One row of the case: what it is, and its fault if it has one."""
        self.tally.judge(f"{self.name}, {what}", fault)

    def run(self, line, given=b""):
        """Runs the program by the words of a line, and gives it this input."""
        return run(self.program, *words_of(line, self.file), given=in_bytes(given))

    def ends(self, *rows):
        """Each run ends as its row says: its words, its input, its status, its output and its errors."""
        for place, (line, given, *wanted) in enumerate(rows, 1):
            self.judge(f"run {place}, {line}", fault_of(self.run(line, given), *wanted))

    def done(self, lines):
        """Each run of these lines says `done`."""
        self.ends(*((line, "", 0, "done\n", "") for line in lines.splitlines()))

    def said(self, lines):
        """Each run of these lines says what stands behind ` = `, and on the errors what stands behind ` ! `;
        one that says `refused` ends with 1, the others with 0."""
        self.ends(*map(row_of, lines.splitlines()))

    def makes_nothing(self):
        """There is no file, nor anything by its name."""
        self.judge(f"no {self.file}", "it is there" if os.path.lexists(self.file) else "")


def row_of(line):
    """The row of a line that says its output and its errors."""
    words, _, told = line.partition(" = ")
    said, _, noted = told.partition(" ! ")
    ended = (f"{text}\n" if text else "" for text in (said, noted))
    return words, "", int(said.startswith("refused ")), *ended


def begun(tally, program, name, folder):
    """A case over a file in a new folder of its own."""
    Path(folder).mkdir(parents=True)
    return Case(tally, program, name, f"{folder}/vault.db")


def tried(program, digits, given):
    """Runs `trial` with these digits."""
    words = ("trial", "--now", 1000, "--digits", digits, "till-1", "shop1", 60)
    return run(program, *words, given=in_bytes(given))
