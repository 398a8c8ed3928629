"""The front's log as it is read: its lines, what they say, and card numbers that went out by no line of it.

A module of exporter.py and who.py. `Ledger` compares what the vaults count with what the log has.
"""

import collections
import glob
import gzip
import hashlib
import json
import os
import sys
import threading
import time
import zlib

LONGEST = 65536  # bytes of a line that is read; no line of the log is as long
TEXTS = ("time", "caller", "merchant", "token", "asked")
UNREADABLE = (OSError, EOFError, zlib.error)
AGAIN = 1  # seconds before the log is read again
KEEP = 10  # seconds before the ledger is written again
DOUBT = 120  # seconds in which a request that may have brought a number back stands for one
STILL = 5  # seconds in which a count has to stand still, so that a time divides the log's lines
MARKS = 80  # of a merchant, two for each day
# Refusals that tell of somebody who guesses: another card number for a used request number, and a limit's.
REFUSED = (409, 429)
REFUSED_FOR = 3600  # seconds in which one counts
REFUSED_MOST = 10000  # of a caller by one of them


def opened(path):
    return (gzip.open if path.endswith(".gz") else open)(path, "rb")


def kept(path):
    """A log's files, the oldest first."""
    return sorted(glob.glob(f"{glob.escape(path)}-*")) + glob.glob(glob.escape(path))


def lines(file):
    """Each line of a file, without those that are too long, and whether it is whole."""
    while line := file.readline(LONGEST):
        size = len(line)
        while size % LONGEST == 0 and not line.endswith(b"\n") and (line := file.readline(LONGEST)):
            size += len(line)
        yield line if size < LONGEST else b"", size, line.endswith(b"\n")


def request(line):
    """What a line says, or None of one that isn't the log's. On a full disk a part of a line may stand before
    a whole one."""
    try:
        told = json.loads(line[max(0, line.rfind(b'{"time":')) :])
    except (ValueError, RecursionError):
        return None
    texts = isinstance(told, dict) and all(isinstance(told.get(it), str) for it in TEXTS)
    return told if texts and type(told.get("status")) is int else None


def went_out(told):
    """How a request for a card number ended: 1 if the number went out, 0 if not, None if it may have. Then
    the client hung up (nginx: 499; HAProxy: -1, or a 400 of its own), or the vault's answer was lost."""
    if told["status"] == 200:
        return 1
    hung_up = told["status"] == 400 and told.get("refused") == "front 400"
    return 0 if 400 <= told["status"] < 499 and not hung_up else None


class Log:
    """What is new in a log, also once it was turned. `place` names the file that was read last by a digest of
    its first line, and says how far it was read."""

    def __init__(self, path, place):
        self.path = path
        self.place = place or self.end()

    def end(self):
        """The end of the newest file that has a line."""
        for path in reversed(kept(self.path)):
            with opened(path) as file:
                if name := self.named(file):
                    return [name, file.seek(0, os.SEEK_END)]
        return ["", 0]

    @staticmethod
    def named(file):
        """A file's name, by its first line, or nothing if it has none."""
        first = file.readline(LONGEST)
        return hashlib.sha256(first).hexdigest() if first.endswith(b"\n") else ""

    def unread(self):
        """The files that have something new, the oldest first, and how far the first one was read."""
        name, offset = self.place
        for _ in range(2):  # a file may be turned between two looks
            paths = kept(self.path)
            for count, path in enumerate(reversed(paths), 1):
                with opened(path) as file:
                    if name and self.named(file) == name:
                        return paths[-count:], offset
        # nothing was read before, or the file is gone, and what is new stands in the newest one
        return paths[-1:] if name else paths, 0

    def new(self):
        """The lines that came since; a file that was turned is read to its end first."""
        paths, offset = self.unread()
        for path in paths:
            with opened(path) as file:
                name = self.named(file)
                if offset and name != self.place[0]:
                    return
                file.seek(offset)
                for line, size, whole in lines(file):
                    if whole:
                        offset += size
                        self.place = [name, offset]
                        yield line
            offset = 0


class Account:
    """What is known of one merchant. `given` is what its vault said last, `base` what it had given before the
    log was looked at, and `logged` how many numbers the log has since. `explained` are those that requests may
    have brought back whose answers were lost, `unlogged` those that no line tells of. `marks` are times, each
    with what had been given then."""

    KEPT = ("given", "base", "logged", "explained", "unlogged", "marks")

    def __init__(self, **told):
        self.given = self.base = None
        self.logged, self.explained, self.unlogged, self.marks = 0, 0, 0, []
        self.__dict__.update(told)
        self.doubts, self.waiting = collections.deque(), collections.deque()
        self.asked, self.since = 0, time.time()

    def line(self, told):
        """A request for a number that the log has."""
        out = went_out(told)
        if out is None:
            self.doubts.append(time.monotonic())
        else:
            self.logged += out

    def count(self, given, logged, asked):
        """What the vault has given, what the log had when it was asked, and when that was. A count that has
        fallen is a restored vault's: its account begins anew, but for what was unlogged."""
        if asked < self.asked:
            return
        self.asked = asked
        if self.given is None or given < self.given:
            self.base = given - logged - self.explained - self.unlogged
            self.waiting.clear()
            self.marks = []
        now = time.time()
        if given != self.given:
            self.given, self.since = given, now
        self.waiting.append((time.monotonic(), given))
        if now - self.since > STILL:
            self.mark(int(now) - 1, given)

    def mark(self, now, given):
        """Keeps two times of each day, the first one and the last one."""
        if len(self.marks) > 1 and self.marks[-2][0] // 86400 == now // 86400:
            self.marks.pop()
        self.marks.append([now, given])
        del self.marks[:-MARKS]

    def compare(self, read, settle):
        """Compares counts with the log as it was read, once each line of theirs stands there."""
        while self.waiting and self.waiting[0][0] + settle <= read:
            given = self.waiting.popleft()[1]
            while self.doubts and self.doubts[0] + DOUBT < read:
                self.doubts.popleft()
            excess = given - self.base - self.logged - self.explained - self.unlogged
            while excess > 0 and self.doubts:
                self.doubts.popleft()
                self.explained += 1
                excess -= 1
            self.unlogged += max(0, excess)
            # lines of numbers that were never given hide no number of later
            if excess < 0 and given == self.given and time.time() - self.since > DOUBT + settle:
                self.base += excess


class Refusals:
    """How often each caller was refused by 409 and by 429 in the last hour."""

    def __init__(self):
        self.times = collections.defaultdict(lambda: collections.deque(maxlen=REFUSED_MOST))

    def line(self, told):
        """A request that the log has."""
        if told["status"] in REFUSED:
            self.times[told["caller"], told["status"]].append(time.monotonic())

    def counts(self):
        """Each caller with a status, and how often it had that."""
        since = time.monotonic() - REFUSED_FOR
        for who, times in sorted(self.times.items()):
            while times and times[0] < since:
                times.popleft()
            yield who, len(times)


class Ledger:
    """The accounts of some merchants, by the log at PATH. They are kept in a file, if one is named, so that
    nothing is missed while nobody looks."""

    def __init__(self, path, merchants, file=None, settle=10):
        self.file, self.settle, self.lock, self.read, self.written = file, settle, threading.Lock(), 0, 0
        kept_before = loaded(file)
        found = kept_before.get("merchants", {})
        self.accounts = {it: Account(**found.get(it, {})) for it in merchants}
        self.log, self.fault, self.refusals = None, "", Refusals()
        self.path, self.place = path, kept_before.get("place")

    def look(self, merchant):
        """How many numbers of a merchant the log has, and when: to be asked for just before the vault is."""
        with self.lock:
            account = self.accounts[merchant]
            if time.monotonic() - self.read > AGAIN or account.base is None:
                self.follow()
            account.compare(self.read, self.settle)
            return account.logged, time.monotonic()

    def told(self, merchant, given, looked):
        """What the vault then said that it has given."""
        with self.lock:
            if not self.fault:
                self.accounts[merchant].count(given, *looked)

    def follow(self):
        """Reads what is new."""
        begun = time.monotonic()
        try:
            # a file that isn't there, or can't be read, is told
            with open(self.path, "rb"):
                self.log = self.log or Log(self.path, self.place)
            for line in self.log.new():
                self.take(line)
            fault, self.read = "", begun
        except UNREADABLE as error:
            fault = f"{self.path}: {error.strerror or error}" if isinstance(error, OSError) else f"{error}"
        if fault and fault != self.fault:
            print(fault, file=sys.stderr, flush=True)
        self.fault = fault
        self.write()

    def take(self, line):
        """A line that is new."""
        told = request(line)
        if not told:
            return
        self.refusals.line(told)
        if told["asked"] == "detokenize" and told["merchant"] in self.accounts:
            self.accounts[told["merchant"]].line(told)

    def write(self):
        """Writes the ledger now and then, in place of the one before."""
        if not self.file or self.fault or time.monotonic() - self.written < KEEP:
            return
        self.written = time.monotonic()
        accounts = {
            name: {it: getattr(account, it) for it in account.KEPT}
            for name, account in self.accounts.items()
            if account.base is not None
        }
        try:
            with open(f"{self.file}.part", "w") as part:
                json.dump({"place": self.log.place, "merchants": accounts}, part)
            os.replace(f"{self.file}.part", self.file)
        except OSError as error:
            print(f"{self.file}: {error.strerror}", file=sys.stderr, flush=True)


def loaded(path):
    """A ledger's content, or nothing of one that isn't there or can't be read."""
    if not path or not os.path.exists(path):
        return {}
    try:
        with open(path) as file:
            return dict(json.load(file))
    except (OSError, ValueError, TypeError) as error:
        print(f"{path} can't be read, and begins anew: {error}", file=sys.stderr, flush=True)
        return {}
