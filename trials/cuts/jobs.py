"""Cases of jobs that say one line at their end: words, rights, sweeps, moves, a file that is made."""

from cuts.asked import over, started
from kills import jobs as killed
from kills.asked import Run
from kills.shop import clock
from model.rules import DONE
from model.vault import RIGHTS, Command
from shared.commands import row
from shared.runs import run as run_whole

LATER = 90_000


def job(story, disk, words, line, commands, now, more):
    """A job that carries out commands, and says its line then."""
    asked = disk.now
    with started([story.shop.program, *words], more) as process:
        said = process.stdout.readline()
        came = disk.now if said else None
        over(story, process, (0,))
    if said != line:
        story.faults.append(f"{story.kind}: said {said!r}, not {line!r}")
    story.tell(commands, [DONE] * len(commands) if said else [], [now], asked, came)


def made(story, disk, path, _, more):
    """The first command of a file that isn't there."""
    command = Command("merchant", "", "shop1", lives=(60, 60, 6))
    words = ("merchant", "--now", 1000, path, "shop1", 60, 60)
    job(story, disk, words, b"done\n", [command], 1000, more)


def words(story, disk, path, many, more):
    """Merchants are set, rights are given and taken away, a word at a time."""
    for turn in range(many):
        now, name, given = story.shop.moment(), f"c{turn % 3}", list(RIGHTS)[turn % 5]
        ends = None if turn % 2 else clock() + 900
        kind = ("merchant", "grant", "withdraw")[turn % 3]
        if kind == "merchant":
            command = Command(kind, "", f"new{turn}", lives=(7, 900, 8))
            rest = ("--lead", 8, path, f"new{turn}", 7, 900)
        elif kind == "grant":
            command = Command(kind, name, "shop1", given=given, ends=ends)
            rest = (*(("--until", ends) if ends else ()), path, name, "shop1", given)
        else:
            command, rest = Command(kind, "back", "shop2", given=given), (path, "back", "shop2", given)
        job(story, disk, (kind, "--now", now, *rest), b"done\n", [command], now, more)


def changes(shop, wanted):
    """What makes the rights exactly those that are wanted: what is given, and what is withdrawn then."""
    names = {number: name for name, number in RIGHTS.items()}
    held = {key: shop.known.get(key)[0] for key in shop.keys("right")}
    keys = {("right", it.caller, it.merchant, RIGHTS[it.given]): it for it in wanted}
    given = [keys[key] for key in sorted(keys) if key not in held or held[key] != keys[key].ends]
    gone = [Command("withdraw", *key[1:3], given=names[key[3]]) for key in sorted(held) if key not in keys]
    return given, gone


def exact(story, disk, path, many, more):
    """The rights are made exactly those of a list."""
    shop, now = story.shop, story.shop.moment()
    held = [Command("grant", *key[1:3], given=list(RIGHTS)[key[3] - 1]) for key in shop.keys("right")[::2]]
    wanted = held + killed.grants(shop, many)
    listed = disk.disk.with_name("rights.toml")
    listed.write_text(killed.toml(wanted))
    given, gone = changes(shop, wanted)
    line = f"granted {len(given)} withdrawn {len(gone)}\n".encode()
    story.one = False
    job(story, disk, ("rights", "--exact", "--now", now, path, listed), line, given + gone, now, more)


def dying(shop, many):
    """Tokens that a sweep takes later."""
    commands, now = killed.rows_of(shop, many, "shop2"), clock() + shop.ahead
    given = (killed.HEADER + "".join(map(row, commands))).encode()
    ran = run_whole(shop.program, "batch", "--now", now, shop.path, "till-1", "shop2", given=given)
    filled = Run("batch")
    left = killed.take_lines(shop, filled, commands, ran.out, [now])
    return filled.faults + ([f"{len(left)} rows without a line"] if left else [])


def sweep(story, disk, path, _, more):
    """A sweep of tokens that expired; one that was cut off goes on."""
    now = clock() + story.shop.ahead + LATER
    purges = [Command("purge", "back", "shop2", token) for token in story.shop.dead("shop2", now)]
    story.one = False
    story.again = lambda shop: killed.sweep_again(shop, "shop2", now)
    line = f"purged {len(purges)}\n".encode()
    job(story, disk, ("sweep", "--now", now, path, "back", "shop2"), line, purges, now, more)


def migrate(story, disk, path, _, more):
    """A file of an older schema moves to the newest one."""
    job(story, disk, ("migrate", path), b"schema 4\n", [], 0, more)
