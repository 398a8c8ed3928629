"""The sides that take turns, each over a copy of a file that the vault made; the program finds each copy
sound afterwards, with as many tokens as were asked for. And processes: what they say and what they take."""

import os
import pathlib
import re
import shutil
import subprocess
import sys
import tempfile
import time

import pipe
from model import cards  # which pipe lets Python find

HERE = pathlib.Path(__file__).resolve().parent
MOST_MESSAGES = 1000
# How long the answers aren't looked at, in seconds, and where they lie: in memory, if the machine has such a
# folder, since a file on the vault's own disk would have a part in its syncs.
LOOK = 0.002
MEMORY = "/dev/shm" if os.path.isdir("/dev/shm") else None


def told(*words):
    """What a process says on standard output; it must end well."""
    return subprocess.run([str(word) for word in words], stdout=subprocess.PIPE, check=True).stdout.decode()


def timed(words, asked, answers, status=0):
    """The seconds of a process that ends with this status, and its peak memory in MiB. Where the status tells
    a fault, what stands on standard error is among the answers.
    A small program between this one and it says the peak, since what a process took before it became the
    program counts too; it takes about a millisecond."""
    with tempfile.NamedTemporaryFile() as peak, open(asked) as given, open(answers, "w") as taken:
        watch = ["/usr/bin/time", "-q", "-f", "%M", "-o", peak.name]
        errors = taken if status else None
        start = time.perf_counter()
        words = [*watch, *(str(word) for word in words)]
        ran = subprocess.run(words, stdin=given, stdout=taken, stderr=errors)
        spent = time.perf_counter() - start
        assert ran.returncode == status, f"{words} ended with {ran.returncode}"
        return spent, int(peak.read()) / 1024


def assert_sound(program, path, entries):
    """The program finds a merchant in a file, so many tokens and a record of each."""
    assert told(program, "check", path) == f"sound 1 {entries} {entries}\n", f"not {entries} tokens"


def timed_check(program, path, entries, answers):
    """The seconds and the peak of `vault check`, which finds so many tokens."""
    found = timed((program, "check", path), os.devnull, answers)
    assert pathlib.Path(answers).read_text() == f"sound 1 {entries} {entries}\n", f"not {entries} tokens"
    return found


def timed_python_check(path, entries):
    """The seconds of PRAGMA integrity_check on an open file, and the peak of Python's process."""
    said = told(sys.executable, HERE / "same.py", "check", path)
    spent, peak = re.fullmatch(rf"{entries} entries in (\d+) microseconds, (\d+) KiB\n", said).groups()
    return int(spent) / 1000000, int(peak) / 1024


def growth(ran, file):
    """How many bytes a file has when it is first seen with some, and the seconds from then until it is last
    seen to grow, while a process runs that writes it. It is only looked at, so nothing waits for a reader."""
    first = size = 0
    start = last = time.perf_counter()
    runs = True
    while runs:
        runs = ran.poll() is None
        found = os.fstat(file.fileno()).st_size
        if found > size:
            size, last = found, time.perf_counter()
            if first == 0:
                first, start = size, last
        time.sleep(LOOK)
    return first, last - start


def parts(many):
    """How many messages each pipe has, none more than it may."""
    whole, rest = divmod(many, MOST_MESSAGES)
    return [MOST_MESSAGES] * whole + [rest] * (rest > 0)


class Sides:
    """The programs and the folder of one measure. Where there is no C peer, its path is empty; so is that of
    the vault alone, which makes the files where it is there."""

    def __init__(self, bench, vault, peer, folder):
        self.bench, self.vault, self.peer, self.folder = bench, vault, peer, folder

    def made(self, entries):
        """The file with so many entries, which is made once."""
        path = self.folder / f"made{entries}.db"
        if not path.exists():
            if self.bench:
                told(self.bench, path, "unknown", entries, 0)
            else:
                self.fill(path, entries)
        return path

    def fill(self, path, entries):
        """Makes a file with so many entries by the vault itself: one by a message, the others by a batch."""
        pipe.made_vault(self.vault, path)
        rows = "".join(f"{place},{cards.number_at(place)},single\n" for place in range(2, entries + 1))
        words = [self.vault, "batch", path, "till-1", "shop1"]
        given = f"request,number,use\n{rows}".encode()
        subprocess.run(words, input=given, stdout=subprocess.DEVNULL, check=True)
        assert_sound(self.vault, path, entries)

    def copy(self, entries):
        """A copy of that file, settled on the disk."""
        made, path = self.made(entries), self.folder / "timed.db"
        for old in self.folder.glob("timed.db*"):
            old.unlink()
        shutil.copy(made, path)
        if os.path.exists(f"{made}-wal"):
            shutil.copy(f"{made}-wal", f"{path}-wal")
        os.sync()
        return path

    def rate(self, words, path, entries, many):
        """The rate that the line of a side says, which must have made its tokens."""
        said = told(*words)
        spent = re.fullmatch(rf"{many} commands in (\d+) microseconds, \d+ a second\n", said)
        assert_sound(self.vault, path, entries + many)
        return many * 1000000 / max(1, int(spent[1]))

    def alone(self, entries, many):
        """The commands a second of the vault, with no message, or none."""
        if not self.bench:
            return None
        path = self.copy(entries)
        return self.rate((self.bench, path, "unknown", 0, many), path, entries, many)

    def python(self, entries, many):
        """The same statements by Python's sqlite3."""
        path = self.copy(entries)
        return self.rate((sys.executable, HERE / "same.py", path, many), path, entries, many)

    def peer_rate(self, entries, many):
        """The same statements by C over libsqlite3, or none."""
        if not self.peer:
            return None
        path = self.copy(entries)
        return self.rate((self.peer, path, many), path, entries, many)

    def messages(self, first, many):
        """A file of so many messages, from this request number on, settled on the disk."""
        asked = self.folder / "asked"
        pipe.write_messages(asked, first, many)
        os.sync()
        return asked

    def opening(self, path):
        """The seconds and the peak of a pipe of no message."""
        return timed((self.vault, "pipe", path), os.devnull, os.devnull)

    def answering(self, path, asked):
        """The seconds from a pipe's first answer to its last, and how many answers lie between."""
        words = [str(self.vault), "pipe", str(path)]
        with open(asked) as given, tempfile.TemporaryFile(dir=MEMORY) as taken:
            with subprocess.Popen(words, stdin=given, stdout=taken) as ran:
                first, spent = growth(ran, taken)
            assert ran.returncode == 0
            taken.seek(first)
            return spent, taken.read().count(b'"token":"')

    def whole_way(self, entries, many):
        """The messages a second between the first answer and the last of each pipe, or none where all were
        seen at once; and the seconds and the peak of the opening of the file as it was made."""
        path = self.copy(entries)
        opening = self.opening(path)
        first, spent, answered = entries + 1, 0, 0
        for messages in parts(many):
            seconds, answers = self.answering(path, self.messages(first, messages))
            spent, answered, first = spent + seconds, answered + answers, first + messages
        assert_sound(self.vault, path, entries + many)
        return answered / spent if spent > 0 else None, *opening

    def check(self, entries):
        """The seconds and the peak of `vault check`, and the seconds of the check alone."""
        found = timed_check(self.vault, self.copy(entries), entries, self.folder / "answers")
        said = told(self.bench, "check", self.copy(entries))
        alone = re.fullmatch(rf"{entries} entries in (\d+) microseconds\n", said)
        return *found, int(alone[1]) / 1000000

    def python_check(self, entries):
        """The seconds and the peak of the same by Python's sqlite3."""
        return timed_python_check(self.copy(entries), entries)
