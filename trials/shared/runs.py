"""One run of the program: its words, its input, a time limit, and how it ended."""

import concurrent.futures
import contextlib
import os
import subprocess
import threading
import time
from typing import NamedTuple

# No run of a trial takes a tenth of this, also where the machine has much other work.
SECONDS = float(os.environ.get("SECONDS_EACH", "30"))
# What a check says beside its line.
HAS_LOG = b"vault: the file has a log, FILE-wal, and a copy needs both\n"
# What else is said beside the line of a run that is done.
NOTES = (
    HAS_LOG,
    b"vault: there was no vault in FILE, and an empty one is made\n",
    b"vault: there is no such merchant\n",
    b"vault: the clock is more than 31 days ahead of the merchant's last moment\n",
    b"vault: there was nothing to withdraw\n",
)
# What stands behind the line of a file that isn't opened, or of a list that can't be read.
NO_VAULT = b"vault: there is no vault in FILE\n"
OPEN_ELSEWHERE = b"vault: another program has FILE open\n"
DAMAGED = b"vault: FILE is damaged, or is no database\n"
NO_MEMORY = b"vault: memory was refused\n"
UNOPENED = b"vault: FILE or its log can't be opened\n"
NO_RIGHTS = b"vault: RIGHTS can't be read\n"
NO_LIST = b"vault: LIST can't be read\n"
CAUSES = (NO_VAULT, OPEN_ELSEWHERE, DAMAGED, NO_MEMORY, UNOPENED, NO_RIGHTS, NO_LIST)
WORKERS = int(os.environ.get("WORKERS", os.cpu_count() or 1))


class Ran(NamedTuple):
    """How a run ended: `status` is None where it hung, and below 0 where a signal ended it."""

    status: int | None
    out: bytes
    err: bytes

    @property
    def ending(self):
        """What it says of its ending, without a note on a run that is done and without a cause."""
        ending = self.err
        for behind in (*NOTES, *CAUSES):
            ending = ending.removesuffix(behind)
        return ending

    @property
    def told(self):
        """The line of its ending, without `vault: ` before it."""
        return self.ending.decode("ascii", "replace").strip().removeprefix("vault: ")

    @property
    def said(self):
        """The line that it says, without the words of a file that isn't opened."""
        return self.told.removeprefix("file not opened ") or self.out.decode("ascii", "replace").strip()

    def is_like(self, other):
        """Whether both ended alike, and wrote the same."""
        return (self.status, self.out, self.told) == (other.status, other.out, other.told)

    @property
    def broke(self):
        """What no run may do: it hung, or it crashed; else nothing."""
        if self.status is None:
            return f"no end within {SECONDS:.0f} s"
        if self.status < 0 or self.status > 4:
            return f"ended with status {self.status}: {self.told[-300:]}"
        return ""

    def __str__(self):
        return self.broke or f"status {self.status}, {self.told or self.out[-60:]!r}"


class Limit(threading.Timer):
    """Kills a process that isn't over in time, where a `with` isn't; `came` says whether it did."""

    def __init__(self, process, seconds=SECONDS):
        super().__init__(seconds, self.come)
        self.process, self.came = process, False
        self.start()

    def come(self):
        self.came = True
        self.process.kill()

    def __enter__(self):
        return self

    def __exit__(self, *_):
        self.cancel()


def run(program, *words, given=b"", limit=SECONDS, more=None, **how):
    """Runs the program with these words; `given` is its standard input, `more` goes to its environment, and
    `how` says more of how it is started."""
    environment = os.environ | (more or {})
    words = [program, *map(str, words)]
    try:
        ended = subprocess.run(
            words, input=given, capture_output=True, timeout=limit, env=environment, **how
        )
    except subprocess.TimeoutExpired as late:
        return Ran(None, late.stdout or b"", late.stderr or b"")
    return Ran(ended.returncode, ended.stdout, ended.stderr)


def must(program, *words, given=b""):
    """The same, of a run that a trial builds on: it has to end well."""
    ran = run(program, *words, given=given)
    if ran.status != 0:
        raise SystemExit(f"{words[0]}: {ran}\n0 passed, 1 failed")
    return ran


def until(holds, seconds=10):
    """Waits until something holds, at most so long; whether it does."""
    end = time.monotonic() + seconds
    while not holds():
        if time.monotonic() > end:
            return False
        time.sleep(0.05)
    return True


@contextlib.contextmanager
def at_once(work, items):
    """Does a work by each item's words, each on a thread of its own, beside a `with`, which waits for them."""
    threads = [threading.Thread(target=work, args=words) for words in items]
    for thread in threads:
        thread.start()
    try:
        yield threads
    finally:
        for thread in threads:
            thread.join()


def side_by_side(work, items):
    """What the work answers for each item, in their order, with as many at once as there are processors."""
    with concurrent.futures.ThreadPoolExecutor(WORKERS) as pool:
        yield from pool.map(work, items)
