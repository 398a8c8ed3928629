"""small PROGRAM FOLDER: messages, rows and files over a file system of FOLDER that is soon full."""

import os
import pathlib
import random
import sys
import time

from disk.grounds import HEADER
from model.cards import completed, hidden
from model.known import Known
from model.rules import DONE
from model.vault import Command, sound
from shared import messages, rows
from shared.commands import line_answer, message, reply, row, whole_answers
from shared.runs import run
from shared.tally import Tally

NOW = 1_700_000_000
# More than a log grows by at once, and a few commands.
ROOM = 400_000


class Small:
    """A vault on a file system that a file of no use makes small; with that removed there is room."""

    def __init__(self, program, folder):
        self.program, self.folder = program, pathlib.Path(folder)
        self.path, self.filler = self.folder / "vault.db", self.folder / "filler"
        self.known, self.tally, self.request = Known(), Tally(), 0

    def fill(self):
        """Leaves no room."""
        with open(self.filler, "wb", buffering=0) as file:
            try:
                while file.write(bytes(4096)):
                    pass
            except OSError:
                pass

    def give(self, many):
        """Gives some room back."""
        os.truncate(self.filler, max(0, self.filler.stat().st_size - many))

    def furnish(self):
        """A merchant with rights, on a disk with room."""
        words = (("merchant", "shop1", 3600, 86400), ("grant", "till-1", "shop1", "tokenize"))
        for name, *rest in words:
            ran = run(self.program, name, "--now", NOW, self.path, *rest)
            self.tally.judge(f"{name} with room", "" if ran.status == 0 else str(ran), "with room")
        self.known.take(Command("merchant", "", "shop1", lives=(3600, 86400, 6)), [NOW], DONE)
        self.known.take(Command("grant", "till-1", "shop1", given="tokenize"), [NOW], DONE)

    def commands(self, many):
        """So many new requests."""
        self.request += many
        first = self.request - many + 1
        return [
            Command("tokenize", "till-1", "shop1", "", first + it, completed(f"51{first + it:013}"), 1)
            for it in range(many)
        ]

    def ask(self, kind, commands):
        """Asks by a pipe or a batch: how it ended, and the commands that have no answer."""
        if kind == "pipe":
            given = b"".join(map(message, commands))
            ran = run(self.program, "pipe", "--now", NOW, self.path, given=given)
            answers, rest = whole_answers(ran.out)
        else:
            given = (HEADER + "".join(map(row, commands))).encode()
            ran = run(self.program, "batch", "--now", NOW, self.path, "till-1", "shop1", given=given)
            *lines, rest = ran.out.split(b"\n")
            answers = [line_answer(line) for line in lines[1:]]
        faults = [self.known.take(command, [NOW], answer) for command, answer in zip(commands, answers)]
        self.judge(f"{kind}: {len(answers)} answers", "; ".join(it for it in faults if it), "answers")
        fault = f"{len(rest)} bytes of a cut answer" if rest else ""
        self.judge(f"{kind}: the end of its answers", fault, "answers")
        return ran, commands[len(answers):]

    def judge(self, name, fault, figure):
        self.tally.judge(name, hidden(fault), figure)

    def judge_full(self, kind, number, place):
        """Asks until the disk is full; what was answered is found then, and after there is room again."""
        ran, left = self.ask(kind, self.commands(900))
        stopped = (ran.status, ran.told) in ((4, f"stopped {number}"), (3, "file not opened 33"))
        stopped = stopped or (ran.status, ran.told) == (3, "file not opened 34")
        self.judge(f"{place}: {kind} is stopped", "" if stopped and left else str(ran), ran.told)
        found = rows.read(self.path)[1]
        carried = self.known.settle(left, [NOW], found, 1)
        fault = f"{self.known.differing(found)} differ" if carried is None else ""
        self.judge(f"{place}: rows of a full disk", fault, "rows")
        checked = run(self.program, "check", self.path)
        full = checked.status == 0 or checked.told in ("file not opened 33", "file not opened 34")
        self.judge(f"{place}: check on a full disk", "" if full else str(checked), f"full: {checked}"[:40])
        return left

    def judge_room(self, kind, left, place):
        """With room again the rest is answered."""
        self.give(ROOM)
        ran, left = self.ask(kind, left[:5])
        self.judge(f"{place}: {kind} with room", "" if ran.status == 0 and not left else str(ran), "goes on")
        checked, wanted = run(self.program, "check", self.path), sound(self.known.count)
        fault = "" if checked.out == wanted else f"{checked}, not {wanted}"
        self.judge(f"{place}: check with room", fault, "sound")

    def judge_again(self, place):
        """Requests that were answered have the same tokens."""
        keys = [key for key in self.known.rows.rows if key[0] == "record"]
        sample = random.Random(place).sample(keys, min(100, len(keys)))
        get = self.known.rows.get
        commands = []
        for key in sample:
            record = get(key)
            number = get(("entry", "shop1", record.token)).number
            commands.append(Command("tokenize", "till-1", "shop1", "", key[2], number, record.use))
        ran = run(self.program, "pipe", self.path, given=b"".join(map(message, commands)))
        answers = [reply(it) for it in messages.answers_in(ran.out)]
        faults = [self.known.take(it, [int(time.time())], answer) for it, answer in zip(commands, answers)]
        fault = "; ".join(it for it in faults if it)
        fault = fault or ("" if len(answers) == len(commands) else f"{len(answers)} answers")
        self.judge(f"{place}: {len(commands)} requests again", fault, "again")

    def judge_making(self):
        """A file that isn't there is made on a full disk: it isn't opened, and is made with room."""
        path = self.folder / "new.db"
        ran = run(self.program, "merchant", "--now", NOW, path, "shop1", 60, 60)
        fault = "" if ran.status in (3, 4) and not ran.out else str(ran)
        self.judge("a new file on a full disk", fault, ran.told)
        self.give(ROOM)
        ran = run(self.program, "merchant", "--now", NOW, path, "shop1", 60, 60)
        self.judge("a new file with room", "" if ran.status == 0 else str(ran), "with room")
        names = sorted(it.name for it in self.folder.iterdir() if it.name.startswith("new.db"))
        left = set(names) - {"new.db", "new.db-wal"}
        self.judge("no other file", f"files are left: {sorted(left)}" if left else "", "no other file")
        for name in names:
            (self.folder / name).unlink()


def main(program, folder):
    small = Small(program, folder)
    small.furnish()
    for place in range(6):
        kind, number = (("pipe", 63), ("batch", 43))[place % 2]
        small.fill()
        small.give((0, 20_000, 50_000, 90_000, 130_001, 77_777)[place])
        left = small.judge_full(kind, number, place)
        small.judge_room(kind, left, place)
        small.judge_again(place)
    small.fill()
    small.judge_making()
    small.tally.show("a small file system")
    small.tally.end()


if __name__ == "__main__":
    main(*sys.argv[1:])
