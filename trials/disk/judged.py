"""What is found after a job over a failing disk, and whether the job goes on once the disk is well."""

import sqlite3
import time

from disk.jobs import read_answers, run_job
from model.cards import hidden
from model.known import Known
from model.rules import DONE
from model.vault import sound
from shared import rows
from shared.runs import run

NOT_OPENED = ("file not opened 33", "file not opened 34")


class Case:
    """One run of a job over a failing disk: `faults` tells what was wrong."""

    def __init__(self, program, disk, job, path):
        self.program, self.disk, self.job, self.path = program, disk, job, path
        self.faults = []

    def begin(self):
        """Lays the file anew."""
        for suffix in ("", "-wal", "-new"):
            self.path.with_name(self.path.name + suffix).unlink(missing_ok=True)
        self.known = self.job.ground.copy(self.path) if self.job.ground else Known()
        self.version = rows.read(self.path)[0] if self.job.ground else 0

    def moments(self, begun):
        """The moments that a command may have."""
        if self.job.answers == "connections":
            return list(range(begun, int(time.time()) + 1))
        return [self.job.before[2]] if "--now" in self.job.before else [0]

    def take(self, ran, begun):
        """Takes the answers of a run: the commands that have none."""
        answers, moments = read_answers(self.job, ran.out), self.moments(begun)
        for command, answer in zip(self.job.commands, answers):
            fault = self.known.take(command, moments, answer or DONE)
            self.faults += [fault] if fault else []
        return self.job.commands[len(answers):]

    def run(self, fault, at):
        """Runs the job, whose calls fail from this place on: how it ended, in words."""
        self.begin()
        begun = int(time.time())
        ran = run_job(self.program, self.job, self.path, self.disk.environment(fault, at))
        _, failed = self.disk.counted()
        left = self.take(ran, begun)
        if (failed > 0) != (at > 0):
            self.faults.append(f"{failed} calls failed")
        self.judge_end(ran, left)
        self.judge_rows(ran, left, self.moments(begun))
        self.judge_again()
        return str(ran) if ran.status else "done"

    def judge_end(self, ran, left):
        """It is done, or tells where it stopped."""
        whole = not left and (self.job.commands or ran.out.decode() == self.job.answers)
        if ran.broke:
            self.faults.append(ran.broke)
        elif ran.status == 0:
            if not whole:
                self.faults.append(f"done with {len(left)} commands without an answer")
        elif ran.status == 3 and (ran.told not in NOT_OPENED or ran.out):
            self.faults.append(f"{ran}, {len(ran.out)} bytes of answers")
        elif ran.status == 4 and ran.told != f"stopped {self.job.number}":
            self.faults.append(f"{ran} in place of {self.job.number}")
        elif ran.status not in (3, 4):
            self.faults.append(str(ran))

    def judge_rows(self, ran, left, moments):
        """The file has what was answered, and one command more at most; nothing where it wasn't opened."""
        if not self.path.exists() and not self.job.ground:
            return
        try:
            version, found = rows.read(self.path)
        except (rows.Unsound, sqlite3.Error, ValueError, OSError) as fault:
            self.faults.append(f"rows: {fault}")
            return
        told = self.job.answers in ("messages", "connections", "lines")
        most = 0 if ran.status == 3 and self.job.ground else 1 if told else None
        carried = self.known.settle(left, moments, found, most)
        if carried is None:
            self.faults.append(f"rows: {self.known.differing(found)} differ, {len(left)} commands are left")
        if version < self.version:
            self.faults.append(f"schema {version} of {self.version}")

    def judge_again(self):
        """Once the disk is well, the file is sound, and the same job is done."""
        begun = int(time.time())
        if self.version in (0, 4):
            self.judge_sound()
        ran = run_job(self.program, self.job, self.path)
        if self.job.name == "sweep":
            return self.sweep_again(ran)
        left = self.take(ran, begun)
        if ran.status != 0 or left or (not self.job.commands and ran.out.decode() != self.job.answers):
            self.faults.append(f"again: {ran}, {len(left)} commands without an answer")
        self.judge_sound()

    def sweep_again(self, ran):
        """A sweep goes on with those that aren't purged."""
        get = self.known.get
        rest = [it for it in self.job.commands if get(("entry", "shop1", it.token)).number]
        if ran.out != f"purged {len(rest)}\n".encode():
            self.faults.append(f"again: {ran}, not {len(rest)}")
        for command in rest:
            self.known.take(command, self.moments(0), DONE)
        self.judge_sound()

    def judge_sound(self):
        """The check says so, with as many rows, and no other file is left. Where the file isn't there its
        second name may be, which the next job takes away: a check makes nothing."""
        checked, wanted = run(self.program, "check", self.path), sound(self.known.count)
        if checked.out != wanted:
            self.faults.append(f"check: {checked}, not {wanted}")
        names = {it.name for it in self.path.parent.iterdir()}
        known = {self.path.name, self.path.name + "-wal"}
        if not self.path.exists():
            known.add(self.path.name + "-new")
        if not names <= known:
            self.faults.append(f"files are left: {sorted(names)}")

    def told(self):
        """What was wrong, without a card number."""
        return hidden("; ".join(self.faults[:4]))
