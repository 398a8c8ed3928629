"""Cases of a service beside which something goes on: its lists change, or it is copied and brought back."""

import os
import signal
from pathlib import Path

from cuts.asked import side_by_side
from followed.lists import END, MERCHANTS, RIGHTS, renamed
from followed.service import followed as following
from kills.jobs import toml
from kills.shop import clock
from model import vault
from model.rules import DONE
from model.vault import Command
from shared.runs import run, until
from shared.service import Service

DEPLOY = Path(__file__).parents[2] / "deploy"
LIVES, TURNS, PATIENCE = (60, 0, 6), 3, 15.0
COPY = "vault-20260101T000000Z.db"


def listed(story, disk, service, lock, name, text, line, commands):
    """A list gets another text; the service says what it changed by it."""
    begun, asked = clock(), disk.now
    renamed(name, text + END)
    said = service.said(PATIENCE)
    came, moments = disk.now, range(begun, clock() + 1)
    with lock:
        if said != line:
            story.faults.append(f"{name}: said {said!r}, not {line!r}")
        story.tell(commands, [DONE] * len(commands) if said else [], moments, asked, came if said else None)


def merchant_list(names):
    """A list of merchants."""
    return "".join(f"[{name}]\nsingle = {LIVES[0]}\nmulti = {LIVES[1]}\n" for name in names)


def turn_lists(story, disk, service, lock, held, turn):
    """One more merchant, whose callers get rights, and those of the merchant before lose some."""
    name, before = f"list{turn}", f"list{turn - 1}"
    line, new = "merchants set 1", Command("merchant", "", name, lives=LIVES)
    listed(story, disk, service, lock, MERCHANTS, merchant_list([name]), line, [new])
    given = [Command("grant", f"c{it}", name, given="tokenize") for it in range(3)]
    gone = [Command("withdraw", f"c{it}", before, given="tokenize") for it in range(3) if turn]
    line = f"rights granted {len(given)} withdrawn {len(gone)}"
    listed(story, disk, service, lock, RIGHTS, toml(held + given), line, given + gone)


def followed(story, disk, path, many, _):
    """Both lists of a service change while a client asks."""
    names = {number: name for name, number in vault.RIGHTS.items()}
    held = [Command("grant", *key[1:3], given=names[key[3]]) for key in story.shop.keys("right")]
    renamed(MERCHANTS, merchant_list([]) + END)
    renamed(RIGHTS, toml(held) + END)
    with following(story.shop.program, path) as service:
        with side_by_side(story, disk, service.connect, ("shop1",), many) as lock:
            for turn in range(TURNS):
                turn_lists(story, disk, service, lock, held, turn)


def deployed(story, name, *words):
    """Runs a script of deploy/: what it said."""
    environment = os.environ | {"VAULT": story.shop.program}
    ran = run("sh", DEPLOY / name, *words, more=environment)
    if ran.status != 0:
        story.faults.append(f"{name}: {ran}")
    return ran.out.decode()


def is_stopped(process):
    """Whether each thread of it is stopped."""
    states = [it.read_text() for it in Path(f"/proc/{process.pid}/task").glob("*/status")]
    return all("State:\tT" in it for it in states)


def copied(story, disk, path, many, more):
    """A service is stopped while it is copied, as `backup-now` does it, and the copy is brought back."""
    folder, back, marks = path.parents[1] / "copies", path.with_name("restored.db"), {}
    folder.mkdir()
    part = folder / f"{COPY}.part"
    with Service(story.shop.program, "--connections", 10**6, path, more=more) as service:
        with side_by_side(story, disk, service.connect, ("shop1", "shop2"), many // 2):
            service.process.send_signal(signal.SIGSTOP)
            until(lambda: is_stopped(service.process))
            deployed(story, "backup.sh", "--bytes", path, part)
            service.process.send_signal(signal.SIGCONT)
            deployed(story, "backup.sh", "--taken", "--keep", 14, part, folder)
            marks["copied"] = disk.now
            deployed(story, "restore.sh", folder / COPY, back)
            marks["restored"] = disk.now
    story.again = lambda shop: judge_copy(story, shop, marks)


def judge_copy(story, shop, marks):
    """What is wrong with a copy and with what was brought back: each is there once that was said, and whole
    where it is there."""
    copy, back = shop.path.parents[1] / "copies" / COPY, shop.path.with_name("restored.db")
    sound, faults = copy.with_name(f"{COPY}.sound"), []
    there = {"copied": sound.exists(), "restored": back.exists()}
    faults += [f"not {mark}" for mark, at in marks.items() if at <= story.at and not there[mark]]
    environment = os.environ | {"VAULT": shop.program}
    if sound.exists():
        ran = run("sh", DEPLOY / "restore.sh", copy, shop.path.with_name("again.db"), more=environment)
        faults += [f"restore.sh: {ran}"] if ran.status != 0 else []
    if back.exists():
        told = run(shop.program, "check", back).out
        faults += [f"restored: {told!r}"] if told != sound.read_bytes() else []
    return faults
