"""Files at paths, in steps: what is done with the file of a name, and what that tells. What opens, checks
and moves a file is the program; what changes one besides is Python."""

import os
import pathlib
import sqlite3
import subprocess

from shared.schemas import tables
from shared.runs import run
from shared.tally import unlike

# Bytes that are no database, and longer than a page.
NO_DATABASE = b"x" * 5000
# What a name stands for that can't be written in a step.
NAMES = {"nothing": "", "memory": ":memory:"}
# Two merchants of a file of schema 1: tokens of both uses, live, expired, revoked and purged, and numbers of
# 16 and 13 digits.
OLDER = """INSERT INTO vault VALUES (1, 1);
INSERT INTO merchants VALUES ('shop1', 60, 100, 1100), ('shop2', 3155760000, 0, 0);
INSERT INTO counts VALUES ('shop1', 1, 4), ('shop1', 2, 2), ('shop1', 3, 1), ('shop2', 1, 1);
INSERT INTO entries VALUES ('shop1', '0000000000001111', '4111111111111111', 1, 1000, 1060, NULL),
('shop1', '1111111111111111', '4111111111111111', 2, 1050, 1150, NULL),
('shop1', '2222222222221111', '4111111111111111', 2, 1000, 1100, 1020),
('shop1', '4444444444441111', NULL, 1, 0, 1, NULL),
('shop2', '0000000002222', '4222222222222', 1, 0, 3155760000, 0);
INSERT INTO records VALUES ('till-1', 1, 'shop1', '0000000000001111', 1),
('till-1', 2, 'shop1', '1111111111111111', 2), ('till-1', 3, 'shop1', '2222222222221111', 2),
('till-2', 9223372036854775807, 'shop1', '4444444444441111', 1),
('till-2', 1, 'shop2', '0000000002222', 1);
INSERT INTO rights VALUES ('till-1', 'shop1', 1), ('back', 'shop2', 6)"""

CASES = {
    "another program's file is refused": """\
run a: CREATE TABLE notes (line TEXT) = changed
check a = 33
migrate a = 33
open a = 33
run a: DROP TABLE notes = changed
check a = sound 0 0 0""",
    "a new file is its owner's alone, and a check makes none": """\
open a = opened
check a = sound 0 0 0
check b = sound 0 0 0
there b = no
there b-new = no
there b-wal = no
migrate b = schema 4
mode a = 600
mode a-wal = 600
mode b = 600
mode b-wal = 600""",
    "a new file has pages of 512 bytes": """\
open a = opened
pages a = 512
there a-new = no
check a = sound 0 0 0""",
    "a file keeps the pages that it has": """\
empty a = done
open a = opened
pages a = 4096
open a = opened
pages a = 4096""",
    "a file that is there keeps its mode": """\
empty a = done
640 a = done
open a = opened
mode a = 640
mode a-wal = 640""",
    "a vault is found again": """\
set a = done
check a = sound 1 0 0
set a = done
check a = sound 1 0 0""",
    "a file of schema 1 moves, and keeps its mode": """\
older a = done
640 a = done
check a = 30 1
open a = 30 1
check a = 30 1
open a = 30 1
migrate a = schema 4
mode a = 640
check a = sound 2 5 5
open a = opened
migrate a = schema 4
mode a = 640
check a = sound 2 5 5
open a = opened""",
    "a damaged file of schema 1 doesn't move": """\
older a = done
run a: UPDATE counts SET total = 3 WHERE kind = 1 AND merchant = 'shop1' = changed
migrate a = 31 10
migrate a = 31 10
run a: UPDATE counts SET total = 4 WHERE kind = 1 AND merchant = 'shop1' = changed
check a = 30 1
migrate a = schema 4""",
    "a file that isn't there is made in the newest schema": """\
migrate a = schema 4
mode a = 600
check a = sound 0 0 0""",
    "what is no database is refused, and nothing is written": """\
text text = done
link link = done
folder folder = done
refused nothing = 34 34 34
refused memory = 34 34 34
refused file:a = 34 34 34
refused folder = 34 34 34
refused text = 34 34 34
refused link = 34 34 34
refused none/a = 34 34 34
kept text = yes
there link = link
there memory = no
there file:a = no
there a = no
there nowhere = no
there none = no""",
    "an open file is refused until it is closed": """\
busy a = 34 34 34
open a = opened""",
}
# Statements over a new file, and how it is refused then by all three.
DAMAGES = (
    ("UPDATE vault SET version = 9", "30 9"),
    ("DROP TABLE rights", "30 0"),
    ("DELETE FROM vault", "31 1"),
    ("INSERT INTO rights4 VALUES ('till-1', 'shop2', 6, NULL)", "31 12"),
    ("INSERT INTO merchants3 VALUES ('shop2', 60, 0, 1000, 7)", "31 14"),
)


def opened(program, name):
    return run(program, "pipe", name).said or "opened"


def checked(program, name):
    return run(program, "check", name).said


def moved(program, name):
    return run(program, "migrate", name).said


def set_up(program, name):
    return run(program, "merchant", "--now", 1000, name, "shop1", 60, 0).said


def refused(program, name):
    """What all three say."""
    return f"{opened(program, name)} {checked(program, name)} {moved(program, name)}"


def busy(program, name):
    """The same while another process has the file open, which answered before."""
    words = [program, "pipe", name]
    with subprocess.Popen(words, stdin=subprocess.PIPE, stdout=subprocess.PIPE) as holder:
        holder.stdin.write(b"GET / HTTP/1.1\r\n\r\n")
        holder.stdin.flush()
        holder.stdout.read(1)
        told = refused(program, name)
        holder.communicate()
    return told


def changed(name, sql):
    """Runs statements over the database of a name."""
    conn = sqlite3.connect(name, isolation_level=None)
    try:
        conn.executescript(sql)
        return "changed"
    finally:
        conn.close()


def made(name, text):
    pathlib.Path(name).write_bytes(text)
    return "done"


def done(deed, *words):
    deed(*words)
    return "done"


def there(name):
    path = pathlib.Path(name)
    return "link" if path.is_symlink() else "yes" if name and path.exists() else "no"


# What each step does, with the program and a name.
STEPS = {
    "open": opened, "check": checked, "migrate": moved, "set": set_up, "refused": refused, "busy": busy,
    "older": lambda _, name: changed(name, tables(1) + OLDER).replace("changed", "done"),
    "empty": lambda _, name: made(name, b""),
    "text": lambda _, name: made(name, NO_DATABASE),
    "kept": lambda _, name: "yes" if pathlib.Path(name).read_bytes() == NO_DATABASE else "no",
    "link": lambda _, name: done(os.symlink, "nowhere", name),
    "folder": lambda _, name: done(os.mkdir, name),
    "640": lambda _, name: done(os.chmod, name, 0o640),
    "mode": lambda _, name: f"{os.stat(name).st_mode & 0o777:o}",
    "pages": lambda _, name: str(int.from_bytes(pathlib.Path(name).read_bytes()[16:18], "big")),
    "there": lambda _, name: there(name),
}


def told(program, step):
    """What a step tells; behind `: ` stand statements of SQL."""
    deed, _, name = step.partition(" ")
    if deed == "run":
        return changed(*name.split(": ", 1))
    return STEPS[deed](program, NAMES.get(name, name))


def judge(tally, program, name, steps):
    """One case, in a folder of its own: each step tells what stands behind its last ` = `."""
    folder = f"paths {len(os.listdir())}"
    os.mkdir(folder)
    os.chdir(folder)
    for line in steps.splitlines():
        step, wanted = line.rsplit(" = ", 1)
        tally.judge(f"{name}: {step}", unlike(told(program, step), wanted), "steps over files at paths")
    os.chdir("..")


def judged(tally, program):
    """All cases."""
    for name, steps in CASES.items():
        judge(tally, program, name, steps)
    for sql, line in DAMAGES:
        steps = f"open a = opened\nrun a: {sql} = changed\nrefused a = {line} {line} {line}"
        judge(tally, program, "a changed file", steps)
