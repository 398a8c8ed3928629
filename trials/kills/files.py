"""Files that are killed while they move to the newest schema, and while they are made."""

from kills.jobs import killed_job
from shared.files import removed
from shared.runs import run as run_whole


def migrate(shop, aims):
    """The shop's file is written anew in an older schema, and moves; killed, it moves again later."""
    version = shop.random.choice((1, 1, 2, 3))
    shop.lower(version)
    run = killed_job(shop, aims, "migrate", ("migrate", shop.path), b"schema 4\n")
    run.least = 4 if run.ended else version
    return run


def move_on(shop, version):
    """A file that was killed on its way is refused by its version, and moves on: what is wrong with that."""
    faults = []
    checked = run_whole(shop.program, "check", shop.path)
    if (checked.status, checked.told) != (3, f"file not opened 30 {version}"):
        faults.append(f"schema {version}: check says {checked}")
    moved = run_whole(shop.program, "migrate", shop.path)
    if (moved.status, moved.out) != (0, b"schema 4\n"):
        faults.append(f"schema {version}: migrate says {moved}")
    return faults


def made(shop, aims):
    """A file that isn't there is made by a merchant's setting: it is there afterwards, empty or with it."""
    path = shop.path.with_name("made.db")
    words = ("merchant", "--now", 1000, path, "shop1", 60, 60)
    run = killed_job(shop, aims, "made", words, b"done\n")
    there = "file" if path.exists() else "no file"
    left = path.with_name("made.db-new").exists()
    run.figure = f"made: {there}{', made.db-new is left' if left else ''}"
    run.faults += judge_made(shop.program, path, run.ended)
    removed(path)
    return run


def judge_made(program, path, ended):
    """What is wrong with a file that was killed while it was made."""
    checked = run_whole(program, "check", path)
    wanted = (b"sound 1 0 0\n",) if ended else (b"sound 0 0 0\n", b"sound 1 0 0\n")
    faults = []
    if checked.status != 0 or checked.out not in wanted:
        faults.append(f"check says {checked}")
    # a check makes nothing, so a second name that the kill left goes with the next job that makes the file
    moved = run_whole(program, "migrate", path)
    if (moved.status, moved.out) != (0, b"schema 4\n"):
        faults.append(f"migrate says {moved}")
    names = sorted(it.name for it in path.parent.iterdir() if it.name.startswith(path.name))
    if not set(names) <= {path.name, path.name + "-wal"}:
        faults.append(f"files are left: {names}")
    return faults
