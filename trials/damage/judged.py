"""What is right of `check` over a damaged file: it ends with status 0 or 3, and where it says `sound`, the
rows are those from before, or the reading is told that lets it say so."""

import re

from damage import rows, rules
from shared.files import log_of
from shared.runs import run

REFUSED = re.compile(r"file not opened (30 -?[0-9]+|31 (?:[1-9]|1[0-5])|33|34)")
SOUND = re.compile(rb"sound ([0-9]+) ([0-9]+) ([0-9]+)\n")


class Whole:
    """The file before it is damaged: its rows, the rows that it had earlier, and what it answers."""

    def __init__(self, program, file, asked, earlier=()):
        self.program = program
        self.file = file
        self.asked = asked
        self.rows = rows.read(file)
        self.earlier = list(earlier)
        self.answers = self.answered(file)

    def answered(self, file):
        """What a pipe over a file answers to the same messages, or how else it ended."""
        ran = run(self.program, "pipe", "--now", 1020, "--digits", "7", file, given=self.asked)
        return ran.out if ran.status == 0 else ran

    def judge(self, file):
        """What is wrong of `check` over a damaged copy, and else the reading that allows it."""
        text = file.read_bytes()
        ran = run(self.program, "check", file)
        if ran.broke or ran.status not in (0, 3):
            return str(ran), ""
        if not text and ran.out == b"sound 0 0 0\n":
            return "", "sound: an empty file is an empty vault"
        return self.refused(file, ran, text) if ran.status else self.sound(file, ran)

    def refused(self, file, ran, text):
        """It isn't opened: it stays as it was, and the rule that is told is the one that is broken."""
        found = REFUSED.fullmatch(ran.told)
        if not found or ran.out:
            return f"another refusal: {ran}", ""
        if file.read_bytes() != text:
            return f"{found[1]}, but the file was written", ""
        if not found[1].startswith("31 "):
            return "", f"refused by {found[1].split()[0]}"
        read = rows.read(file)
        least = read and rules.least_broken(read)
        if read and least != int(found[1][3:]):
            return f"{found[1]}, but the trial's own rules say {least}", ""
        return "", "refused by 31, as the rows say" if read else "refused by 31, and sqlite3 can't read it"

    def sound(self, file, ran):
        """It is opened: the sizes that it says are those of its rows."""
        told = SOUND.fullmatch(ran.out)
        read = rows.read(file)
        if not told or ran.told or read is None:
            return f"{ran}, but {'another line' if read else 'sqlite3 cannot read it'}", ""
        sizes = tuple(len(read[table]) for table in ("merchants3", "entries2", "records"))
        if sizes != tuple(map(int, told.groups())):
            return f"{ran}, but the rows are {sizes}", ""
        if read == self.rows:
            return self.same(file)
        if read in self.earlier:
            return "", "sound: the vault as it was earlier"
        return self.other(file, read)

    def same(self, file):
        """The rows are those from before: so are the answers, which find them by their indexes."""
        answers = self.answered(file)
        if answers != self.answers:
            told = "other answers" if isinstance(answers, bytes) else answers
            return f"sound with the same rows, but then {told}", ""
        odd = rows.complaint(file)
        return "", f"sound: rows and answers as they were{odd and f', though sqlite3 says {odd}'}"

    def other(self, file, read):
        """The rows are others: only values that no index has may differ, and all rules are kept."""
        places = rows.differing(self.rows, read)
        keys = sorted(place for place in places if rows.is_key(place))
        if keys:
            return f"sound, though it differs in {', '.join(keys)}", ""
        if least := rules.least_broken(read):
            return f"sound, though rule {least} is broken", ""
        return "", f"sound: another value that keeps the rules in {', '.join(sorted(places))}"


def placed(folder, place, text, log=b""):
    """A file of these bytes, with a log where there is one."""
    file = folder / f"damaged{place}.db"
    file.write_bytes(text)
    if log:
        log_of(file).write_bytes(log)
    return file
