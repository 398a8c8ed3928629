"""The whole trial: python3 -m sizes PROGRAM"""

import os
import sys
import time
from pathlib import Path

from model.cards import number_at
from shared.runs import must
from shared.service import Service
from shared.tally import Tally
from sizes.shop import NOW, made

FILE = "shop.db"
MANY, DEAD, ROWS = 120_000, 10_000, 4000

# How many bytes a token a check and a move may take, where each token has a card of its own.
CHECKED, MOVED = 300, 500
# How many bytes a token a service may keep once it listens, beside those that it has over a file with none.
KEPT = 50
UNIT = Path(__file__).parents[2] / "deploy/vault@.service"
# How long a log may be, with the heads of its pages: it is copied back at 24,576,000 bytes of pages. In a
# sweep that is the length of the file, which is greater here.
LOG = 26_000_000


def judge_peak(program, tally, words, line, most):
    """A job says this line, and takes no more than so many bytes a token."""
    said, peak = must(sys.executable, "-m", "sizes.peak", program, *words).out.decode().splitlines()
    taken = int(peak) * 1024 // MANY
    print(f"{words[0]}: {taken} bytes a token", flush=True)
    tally.judge(words[0], "" if said == line else said)
    tally.judge(f"memory of {words[0]}", "" if taken <= most else f"{taken} bytes a token, not {most}")


def logged(program, *words, given=b""):
    """The last line of a job, and the length of the log that it leaves."""
    line = must(program, *words, given=given).out.decode().splitlines()[-1]
    length = os.path.getsize(f"{FILE}-wal")
    print(f"{words[0]}: a log of {length} bytes", flush=True)
    return line, length


def logs(program, tally):
    """The log of a batch, and that of a sweep."""
    rows = "".join(f"{MANY + place},{number_at(MANY + place)},single\n" for place in range(1, ROWS + 1))
    given = f"request,number,use\n{rows}".encode()
    _, length = logged(program, "batch", "--now", NOW, FILE, "till-1", "shop1", given=given)
    tally.judge("the log of a batch", "" if length <= LOG else f"{length} bytes")
    file = os.path.getsize(FILE)
    line, length = logged(program, "sweep", "--now", NOW, FILE, "back", "shop1")
    tally.judge("sweep", "" if line == f"purged {DEAD}" else line)
    tally.judge("the log of a sweep", "" if LOG < file <= length else f"{length} bytes, {file} of the file")


def allocator():
    """The allocator that the unit loads, and what it tells it."""
    told = [line.removeprefix("Environment=").split("=", 1) for line in UNIT.read_text().splitlines()]
    wanted = ("LD_PRELOAD", "MALLOC_CONF")
    return {name: value for name, *values in told for value in values if name in wanted}


def kept(program, file):
    """How many bytes a service over a file keeps once it listens."""
    with Service(program, "--connections", 1, file, more=allocator()) as service:
        time.sleep(4)
        lines = Path(f"/proc/{service.process.pid}/status").read_text().splitlines()
    return next(int(line.split()[1]) * 1024 for line in lines if line.startswith("VmRSS:"))


def judge_kept(program, tally):
    """The memory that an opening takes goes back before a service listens."""
    must(program, "merchant", "none.db", "shop1", "60", "60")
    taken = (kept(program, FILE) - kept(program, "none.db")) // MANY
    print(f"serve: {taken} bytes a token", flush=True)
    tally.judge("memory of serve", "" if taken <= KEPT else f"{taken} bytes a token, not {KEPT}")


def main(program, has_allocator=""):
    tally = Tally()
    made(FILE, MANY, DEAD)
    judge_peak(program, tally, ("migrate", FILE), "schema 4", MOVED)
    judge_peak(program, tally, ("check", FILE), f"sound 1 {MANY} {MANY}", CHECKED)
    if has_allocator:
        judge_kept(program, tally)
    logs(program, tally)
    tally.end()


main(*sys.argv[1:])
