"""The whole trial: python3 -m followed PROGRAM"""

import functools
import os
import sys
import time

from followed.lists import END, MERCHANTS, RIGHTS, TILLS, WAYS, filled, merchants, renamed, rights, short
from followed.lists import sweepers, written
from followed.load import Load
from followed.service import LATEST, ONE_LOOK, TWO_LOOKS, Followed, followed, words
from shared.runs import run
from shared.tally import Tally, unlike

FILE = "vault.db"
KILLS = 6
# 250 changes in turns of at most 100, and within how many seconds they are in force
TURNS, LATER = (100, 100, 50), 10.0
# how many seconds behind a request the short life of its token has ended
SHORT = 2.5
# good lists, to which each part comes back: a caller comes and goes
GOOD = {MERCHANTS: merchants(), RIGHTS: rights("guest")}
# lists that are refused before their last line: of merchants by a number, and of rights by another one
REFUSED = (
    ("no TOML", "[\n", 70, "[\n", 70),
    ("no name", '["shop 1"]\nsingle = 60\nmulti = 0\n', 72, '[till-1]\n"shop 1" = ["tokenize"]\n', 72),
    ("another shape", "[shop1]\nsingle = 60\n", 73, "[till-1]\nshop1 = 7\n", 73),
    ("out of range", merchants(single=3155760001, end=""), 76, '[a]\nb = [{right="view", until=-1}]\n', 75),
    ("no such word", "[shop1]\nsingle = 60\nmulti = 0\nlead = 7\n", 76, '[till-1]\nshop1 = ["all"]\n', 71),
)
# texts of merchants and of rights that aren't whole
UNFINISHED = (
    ("without the last line", merchants(single=60, end=""), rights(end="")),
    ("cut in the middle of a line", merchants()[:20], TILLS[:-5]),
    ("cut behind a line", merchants(single=60, end="") + "[shop2]\n", TILLS[: TILLS.rindex("[")]),
    ("empty", "", ""),
)
# texts whose last line ends otherwise, or that ask for nothing new
NOTHING_NEW = (
    ("no merchant", END, rights("guest")),
    ("lines that end by CR LF", merchants().replace("\n", "\r\n"), rights("guest").replace("\n", "\r\n")),
    ("a last line without an end", merchants()[:-1], rights("guest")[:-1]),
    ("good again", merchants(), rights("guest")),
)


def too_long(path):
    """A file of more than 16 MiB."""
    written(path, "")
    os.truncate(path, (16 << 20) + 1)


# what lies in the place of a file, and isn't read
UNREAD = (
    ("nothing", lambda path: None),
    ("a link to nothing", lambda path: os.symlink("nothing", path)),
    ("a file that is too long", too_long),
    ("a pipe", os.mkfifo),
    ("a folder", os.mkdir),
)


def has_guest(service):
    """Whether the caller that comes and goes has its right."""
    return service.status("guest") == 200


def lacks_guest(service):
    """Whether it is refused for want of it."""
    return service.status("guest") == 403


class Trial:
    """A service under load, and the changes of its lists."""

    def __init__(self, program, tally):
        self.program, self.tally = program, tally
        self.slowest = 0.0
        self.held = [None]

    def start(self):
        """The service, anew at its port."""
        port = self.held[0].port if self.held[0] else 0
        self.held[0] = followed(self.program, FILE, port)

    @property
    def service(self):
        return self.held[0]

    def in_force(self, name, holds, *said, latest=LATEST):
        """What a good list changes holds within that time. These lines are said, and no other before."""
        after = self.service.comes(holds, latest)
        self.tally.judge(f"{name}: in force within {latest:.0f} s", "" if after else "not in force")
        if latest == LATEST:
            self.slowest = max(self.slowest, after or 0.0)
        self.says(name, *said, latest=latest)

    def says(self, name, *said, latest=LATEST):
        """The next lines are these."""
        self.tally.judge(f"{name}: said", unlike([self.service.said(latest) for _ in said], list(said)))

    def says_both(self, name, *said):
        """The next lines are these in either order."""
        found = sorted(str(self.service.said()) for _ in said)
        self.tally.judge(f"{name}: said", unlike(found, list(said)))

    def silent(self, name):
        """Nothing is said, and what is in force stays."""
        self.tally.judge(f"{name}: nothing more is said", unlike(self.service.said(TWO_LOOKS), None))
        stays = has_guest(self.service) and self.service.has_life(86400)
        self.tally.judge(f"{name}: what is in force stays", "" if stays else "it doesn't")

    def refused_at_the_start(self):
        """Lists by which no service starts."""
        for name, shops, callers, wanted in (
            ("no merchant", "", rights(), b"refused 70\n"),
            ("no right", merchants(), "", b"refused 70\n"),
            ("an unknown merchant", merchants(), rights("guest", merchant="nobody"), b"refused 7\n"),
            ("a life out of range", merchants(single=3155760001), rights(), b"refused 76\n"),
        ):
            written(MERCHANTS, shops)
            written(RIGHTS, callers)
            ran = run(self.program, "serve", *words(FILE))
            self.tally.judge(f"a start with {name}", unlike((ran.status, ran.out), (1, wanted)))
        for name, put in UNREAD:
            written(MERCHANTS, merchants())
            os.remove(RIGHTS)
            put(RIGHTS)
            ran = run(self.program, "serve", *words(FILE))
            self.tally.judge(f"a start with {name}", unlike((ran.status, ran.out), (4, b"")))
            if os.path.isdir(RIGHTS):
                os.rmdir(RIGHTS)
            elif os.path.lexists(RIGHTS):
                os.remove(RIGHTS)
            written(RIGHTS, rights())

    def ways(self):
        """A caller comes and goes, and a life changes, by each way of changing a file. Half of a file that is
        filled up slowly is seen by two looks: first it is said that it isn't whole."""
        for place, way in enumerate(WAYS):
            name, is_cut = way.__name__, way is filled
            of_rights, of_merchants = ([f"{it} unfinished"] * is_cut for it in ("rights", "merchants"))
            way(RIGHTS, rights("guest"))
            self.in_force(f"{name}, a right more", has_guest, *of_rights, "rights granted 1 withdrawn 0")
            lives = functools.partial(Followed.has_life, seconds=3600 * (place + 1))
            way(MERCHANTS, merchants(single=3600 * (place + 1)))
            self.in_force(f"{name}, another life", lives, *of_merchants, "merchants set 1")
            way(RIGHTS, rights())
            self.in_force(f"{name}, a right fewer", lacks_guest, *of_rights, "rights granted 0 withdrawn 1")

    def kills(self):
        """The service is killed as both lists change: at the next start both are in force."""
        for turn in range(KILLS):
            before, shop = f"kill-{turn - 1}", f"kill-{turn}"
            renamed(RIGHTS, rights(*(f"{shop}-{it}" for it in range(120)), merchant=shop))
            renamed(MERCHANTS, merchants(shop))
            time.sleep(0.25 * turn)
            self.service.kill()
            self.start()
            given = [self.service.status(f"{shop}-{it}", shop) for it in (0, 119)]
            self.tally.judge(f"killed {turn}: the rights are in force", unlike(given, [200, 200]))
            withdrawn = self.service.status(f"{before}-119", before)
            self.tally.judge(f"killed {turn}: and no others", unlike(withdrawn, 403 if turn else 404))
        renamed(RIGHTS, GOOD[RIGHTS])
        lines = ("rights granted 1 withdrawn 99", "rights granted 0 withdrawn 21")
        self.in_force("behind the kills", has_guest, *lines, latest=LATER)

    def not_taken(self):
        """Texts that aren't taken: each is refused once, or is said once not to be whole."""
        for name, shops, first, callers, second in REFUSED:
            written(MERCHANTS, shops + END)
            written(RIGHTS, callers + END)
            self.says_both(name, f"merchants refused {first}", f"rights refused {second}")
        for name, shops, callers in UNFINISHED:
            written(MERCHANTS, shops)
            written(RIGHTS, callers)
            self.says_both(name, "merchants unfinished", "rights unfinished")
            self.silent(name)
        for name, shops, callers in NOTHING_NEW:
            written(MERCHANTS, shops)
            written(RIGHTS, callers)
            self.silent(name)

    def unread(self):
        """Where neither file can be read this is said once of each."""
        for name, put in UNREAD:
            for path in GOOD:
                os.rename(path, f"{path}.away")
                put(path)
            self.says_both(name, "merchants unread", "rights unread")
            if put is os.mkdir:
                self.silent(name)
            for path in GOOD:
                if os.path.isdir(path):
                    os.rmdir(path)
                os.rename(f"{path}.away", path)
            time.sleep(ONE_LOOK)

    def rights_first(self):
        """Rights at a merchant that isn't known are refused once, and taken when the merchant is set."""
        name, lines = "rights before their merchant", ("merchants set 1", "rights granted 1 withdrawn 1")
        written(RIGHTS, rights("guest", merchant="late"))
        self.says(f"{name}, refused", "rights refused 7")
        self.silent(f"{name}, refused")
        written(MERCHANTS, merchants("late"))
        self.in_force(name, lambda it: it.status("guest", "late") == 200, *lines)
        self.tally.judge(f"{name}, and at no other", unlike(self.service.status("guest"), 403))
        # the rights may be seen before the merchant, and are refused first then
        name = "rights beside their merchant"
        written(RIGHTS, rights("guest", merchant="later"))
        written(MERCHANTS, merchants("late", "later"))
        self.in_force(name, lambda it: it.status("guest", "later") == 200)
        first = self.service.said()
        said = self.service.said() if first == "rights refused 7" else first, self.service.said()
        self.tally.judge(f"{name}: said", unlike(said, lines))
        written(RIGHTS, GOOD[RIGHTS])
        self.in_force("the guest is back", has_guest, lines[1])

    def many(self):
        """More changes than one turn carries out: each takes as long as the disk does."""
        some = [f"many-{it}" for it in range(250)]
        last = some[-1]
        renamed(MERCHANTS, merchants(*some))
        lines = [f"merchants set {it}" for it in TURNS]
        self.in_force("250 merchants", lambda it: it.status("guest", last) == 403, *lines, latest=LATER)
        renamed(RIGHTS, rights("guest", *some))
        lines = [f"rights granted {it} withdrawn 0" for it in TURNS]
        self.in_force("250 rights more", lambda it: it.status(last) == 200, *lines, latest=LATER)
        renamed(RIGHTS, GOOD[RIGHTS])
        lines = [f"rights granted 0 withdrawn {it}" for it in TURNS]
        self.in_force("250 rights fewer", lambda it: it.status(last) == 403, *lines, latest=LATER)
        self.silent("at last")

    def dead_tokens(self):
        """250 tokens of the shop with short lives, which have ended."""
        made = {self.service.status("sweeper", "short") for _ in range(250)}
        self.tally.judge("250 tokens with a short life", unlike(made, {200}))
        time.sleep(SHORT)

    def swept(self):
        """Dead tokens are purged by the caller that the list names, a hundred between two connections."""
        written(MERCHANTS, short())
        self.says("a shop with short lives", "merchants set 1")
        written(RIGHTS, sweepers())
        self.says("a caller who may purge", "rights granted 2 withdrawn 1")
        self.dead_tokens()
        written(MERCHANTS, short('sweep = "guest"'))
        self.says("a sweep by a caller who may not", "sweep of short refused 8")
        written(MERCHANTS, short('sweep = "sweeper"'))
        self.says("a sweep", *(f"sweep of short purged {it}" for it in TURNS), latest=LATER)
        written(MERCHANTS, short('sweep = "Sweeper"'))
        self.says("a sweep by no name", "merchants refused 73")

    def swept_again(self):
        """A sweep that a kill ends is gone on with by the next start."""
        written(MERCHANTS, short())
        time.sleep(TWO_LOOKS)
        self.dead_tokens()
        written(MERCHANTS, short('sweep = "sweeper"'))
        begun = self.service.said(LATER)
        self.service.kill()
        self.start()
        rest = list(iter(lambda: self.service.said(TWO_LOOKS), None))
        swept = [it.removeprefix("sweep of short purged ") for it in (begun, *rest)]
        # the kill may have come before the line of what was done
        whole = all(it.isdecimal() for it in swept) and 50 <= sum(map(int, swept)) <= 250
        self.tally.judge("a sweep that was killed goes on", "" if whole else f"said {swept}")


def main(program):
    tally = Tally()
    trial = Trial(program, tally)
    trial.refused_at_the_start()
    written(MERCHANTS, merchants())
    written(RIGHTS, rights())
    trial.start()
    try:
        with Load(trial.held) as load:
            trial.ways()
            trial.kills()
            trial.not_taken()
            trial.unread()
            trial.rights_first()
            trial.many()
            trial.swept()
            trial.swept_again()
        tally.judge("each request under load is answered a token", "; ".join(load.faults[:3]))
        tally.judge("and again the same one", unlike(load.lost(), []))
    finally:
        trial.service.kill()
    left = run(program, "sweep", FILE, "sweeper", "short").out
    tally.judge("no dead token has its number", unlike(left, b"purged 0\n"))
    checked = run(program, "check", FILE)
    tally.judge("the file is sound", unlike(checked.status, 0))
    answered = f"{len(load.answered)} requests under load, {load.again} asked again over {KILLS} kills"
    print(answered, flush=True)
    print(f"longest answer {load.longest:.2f} s, slowest change {trial.slowest:.2f} s", flush=True)
    tally.end()


if __name__ == "__main__":
    main(sys.argv[1])
