"""One run of a job with one request refused, and what is wrong with it."""

import os

from memory import jobs
from shared import messages
from shared.files import copied, removed
from shared.runs import HAS_LOG, run


class Trial:
    """A job with the library that refuses, its plain run, and how many requests that has."""

    def __init__(self, program, library, folder, job):
        self.program, self.library, self.folder, self.job = program, library, folder, job
        self.plain, self.many, file = self.refuse(0)
        self.wanted = job.parts(self.plain.out)
        removed(file)

    def refuse(self, at):
        """Runs the job with its `at`-th request refused: how it ended, how many requests there were or None
        where one was refused and the program ended without a word, and its file."""
        file = self.folder / f"{self.job.name}{at}.db"
        if self.job.base:
            copied(self.folder / self.job.base, file)
        reader, writer = os.pipe()
        more = {"LD_PRELOAD": str(self.library), "REFUSE_AT": str(at), "REFUSE_TOLD": str(writer)}
        line, given = self.job.line(file), self.job.given
        ran = run(self.program, *line, given=given, more=more, pass_fds=(writer,))
        os.close(writer)
        with open(reader, "rb") as told:
            return ran, told.read().decode(), file

    def outcome(self, at):
        """What came of refusing a request: a line for a figure, and what is wrong with it."""
        ran, told, file = self.refuse(at)
        try:
            if not told.startswith("!"):
                return "none was refused", "" if ran == self.plain else f"none was refused, but {ran}"
            return self.judge(ran, file)
        finally:
            removed(file)

    def judge(self, ran, file):
        """A run to which a request was refused."""
        if ran.broke:
            return "broke", ran.broke
        if ran.is_like(self.plain):
            said = "as with all memory"
        elif ran.told in self.job.may_say() and ran.ending == f"vault: {ran.told}\n".encode():
            said = jobs.code(ran.told)
        elif ran.told in self.job.apart:
            said = f"{jobs.code(ran.told)}, apart"
        else:
            return "another ending", f"{ran}, and the plain run: {self.plain}"
        opened = ran.told not in jobs.OPENING and self.job.name != "migrate"
        wrong = self.beginning(ran) or self.job.absent and self.unfounded(ran, file)
        return said, wrong or opened and self.unsound(file) or self.again(file)

    def unfounded(self, ran, file):
        """What a job made, or told of, where no file was and no log."""
        if found := sorted(it.name for it in file.parent.glob(f"{file.name}*")):
            return f"it made {found}"
        return f"it tells of a log: {ran}" if HAS_LOG in ran.err else ""

    def beginning(self, ran):
        """What went out is whole answers or lines, and a beginning of those that are due."""
        try:
            came = self.job.parts(ran.out)
        except messages.NoAnswer as other:
            return f"{ran.told}: {other}"
        if came != self.wanted[: len(came)]:
            return f"{ran.told}: no beginning of the plain output: {ran.out[-80:]!r}"
        if not ran.is_like(self.plain) and ran.status != (3 if "not opened" in ran.told else 4):
            return f"{ran.told} with the status {ran.status}"
        if "not opened" in ran.told and came:
            return f"{ran.told}, but {len(came)} parts went out"
        return ""

    def unsound(self, file):
        """What `check` says against the file that was left."""
        if not self.job.has_file:
            return ""
        checked = run(self.program, "check", file)
        return "" if checked.status == 0 else f"the file then: {checked}"

    def again(self, file):
        """With memory the same call over the file that was left is answered as the plain one."""
        if not self.job.has_file:
            return ""
        ran = run(self.program, *self.job.line(file), given=self.job.given)
        if not ran.is_like(self.plain):
            return f"again with all memory: {ran}, and not {self.plain}"
        return self.unsound(file) if self.job.name == "migrate" else ""
