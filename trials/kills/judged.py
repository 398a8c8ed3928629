"""What is found after a kill, and whether it is all that was answered."""

import sqlite3

from kills import files
from kills.shop import clock
from model.cards import hidden
from model.vault import Command, sound
from shared import messages, rows
from shared.commands import message, reply
from shared.runs import run as run_whole

SAMPLE = 40


class Judge:
    """Counts the checks of each kill."""

    def __init__(self, tally, seed):
        self.tally, self.seed = tally, seed
        self.name = ""

    def check(self, fault, figure):
        self.tally.judge(self.name, hidden(fault) if fault else "", figure)

    def judge(self, number, shop, run):
        """All checks after one kill; whether the shop may go on."""
        self.name = f"seed {self.seed}, kill {number}, {run.kind}, {run.aim}"
        before = self.tally.failed
        for fault in run.faults:
            self.check(fault, None)
        self.tally.passed += run.answers
        self.tally.figures["answers that came are as the rules say"] += run.answers
        if run.kind != "made":
            self.judge_rows(shop, run)
        elif not run.faults:
            self.check("", run.figure)
        return self.tally.failed == before

    def judge_rows(self, shop, run):
        """The rows of the file are those of what was answered, and of a part of what is undecided."""
        try:
            version, found = rows.read(shop.path)
        except (rows.Unsound, sqlite3.Error, ValueError, OSError) as fault:
            self.check(f"rows: {fault}", None)
            return
        carried = shop.known.settle(run.undecided, run.moments, found, run.most)
        figure = f"rows after a kill, {run.kind}: {self.share(run, carried)}"
        if run.kind == "migrate":
            figure = f"rows after a kill, migrate: schema {version}"
            self.check("" if version >= run.least else f"schema {version} of {run.least}", "schema of a move")
        self.check(f"rows: {shop.known.differing(found)} differ" if carried is None else "", figure)
        if version < 4:
            self.check("; ".join(files.move_on(shop, version)), "moved on")
        self.judge_sound(shop)
        self.judge_again(shop, run)

    def share(self, run, carried):
        """How much was undecided, and how much of that was carried out."""
        if not run.undecided:
            return "none undecided"
        if run.most is None and len(run.undecided) > 4:
            return "a part carried out" if carried else "nothing carried out"
        return f"{carried} of {'one' if run.most == 1 else len(run.undecided)} undecided carried out"

    def judge_sound(self, shop):
        """The check finds the file sound, with as many rows."""
        checked, wanted = run_whole(shop.program, "check", shop.path), sound(shop.known.count)
        fault = "" if checked.out == wanted else f"check: {checked}, not {wanted}"
        self.check(fault, "check says sound")

    def judge_again(self, shop, run):
        """What was undecided is asked again, requests that were answered have their tokens, and tokens are in
        their states."""
        again = getattr(run, "again", None)
        if again:
            self.check("; ".join(again()[:3]), f"{run.kind} again")
        commands = [it for it in run.undecided[:5] if it.right not in ("merchant", "grant", "withdraw")]
        keys = shop.keys("record")
        sample = keys[-SAMPLE // 2:] + shop.random.sample(keys, min(len(keys), SAMPLE // 2))
        commands += [shop.again(key) for key in sample]
        tokens = [key[1:] for key in shop.keys("entry")]
        for right in ("view", "detokenize"):
            sample = shop.random.sample(tokens, min(len(tokens), 4))
            commands += [Command(right, "back", *key) for key in sample]
        commands += [Command("audit", "back", key[1]) for key in shop.keys("merchant")]
        self.ask(shop, commands)

    def ask(self, shop, commands):
        """Asks in a pipe that isn't killed; each answer is as the rules say."""
        begun = clock()
        text = b"".join(map(message, commands))
        ran = run_whole(shop.program, "pipe", shop.path, given=text)
        try:
            answers = [reply(answer) for answer in messages.answers_in(ran.out)]
        except messages.NoAnswer as fault:
            answers = []
            self.check(f"asked again: {fault}", None)
        if ran.status != 0 or len(answers) != len(commands):
            self.check(f"asked again: {len(answers)} of {len(commands)} answers, {ran.told}", None)
        for command, answer in zip(commands, answers):
            fault = shop.known.take(command, range(begun, clock() + 1), answer)
            self.check(fault and f"asked again: {fault}", f"asked again: {command.right}")
