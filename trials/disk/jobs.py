"""The jobs that are run over a failing disk: their words, their input, and what they ask for."""

from typing import NamedTuple

from disk.grounds import HEADER, NOW, Ground
from model.cards import completed
from model.vault import RIGHTS, Command, Rows, sound
from shared.commands import line_answer, message, row, whole_answers
from shared.runs import run
from shared.service import Service, sent

LONG = "batch with a long log"


class Job(NamedTuple):
    """A job on a file: the words before and behind FILE, its input, the commands that it carries out, the
    number of a store that fails in it, and how its answers come: `messages`, `connections`, `lines`, or the
    one line that it says."""

    name: str
    ground: Ground | None
    before: tuple
    behind: tuple
    given: bytes
    commands: tuple
    number: int
    answers: str

    def words(self, path):
        return (*self.before, path, *self.behind)


def read_answers(job, out):
    """The answers that a job gave, in order; None for each command of a job that says one line."""
    if job.answers in ("messages", "connections"):
        return whole_answers(out)[0]
    if job.answers == "lines":
        return [line_answer(line) for line in out.split(b"\n")[1:-1]]
    return [None] * len(job.commands) if out.decode() == job.answers else []


def run_job(program, job, path, more=None):
    """Runs a job to its end."""
    if job.answers != "connections":
        return run(program, *job.words(path), given=job.given, more=more)
    _, *words = job.words(path)
    with Service(program, *words, more=more) as service:
        text = converse(service.port, job.commands) if service.port else b""
        return service.ended()._replace(out=text)


def converse(port, commands):
    """Asks each command by a connection of its own: all that comes back."""
    text = b""
    for command in commands:
        try:
            text += sent(port, message(command))
        except OSError:
            break
    return text


def mixed(ground):
    """Commands of messages that change something, and some that don't."""
    tokens = sorted(key[2] for key in ground.found if key[0] == "entry")
    new = [
        Command("tokenize", "till-1", "shop1", "", 100 + it, completed(f"41111111111{it:04}"), 1 + it % 2)
        for it in range(3)
    ]
    back = [
        Command(right, "back", "shop1", token)
        for right, token in (
            ("detokenize", tokens[0]), ("revoke", tokens[1]), ("purge", tokens[1]), ("view", tokens[2]),
            ("detokenize", tokens[1]),
        )
    ]
    other = Command("detokenize", "till-1", "shop1", tokens[0])
    return (*new[:2], *back, other, new[2], Command("audit", "back", "shop1"))


def asked_rows(first, many):
    """Commands of a batch of new requests."""
    return tuple(
        Command("tokenize", "till-1", "shop1", "", first + it, completed(f"4222222{it:06}"), 1 + it % 2)
        for it in range(many)
    )


def batch(name, ground, commands):
    """A batch of these rows."""
    given = (HEADER + "".join(map(row, commands))).encode()
    before, behind = ("batch", "--now", NOW + 1), ("till-1", "shop1")
    return Job(name, ground, before, behind, given, commands, 43, "lines")


def single(name, ground, before, behind, command):
    """A job of one command that says `done`."""
    return Job(name, ground, before, behind, b"", (command,), 21, "done\n")


def sweep(ground):
    """A sweep of all tokens, once they have expired."""
    tokens = sorted(key[2] for key, entry in ground.found.items() if key[0] == "entry" and entry.number)
    purges = tuple(Command("purge", "back", "shop1", token) for token in tokens)
    before, behind = ("sweep", "--now", NOW + 90000), ("back", "shop1")
    return Job("sweep", ground, before, behind, b"", purges, 21, f"purged {len(purges)}\n")


def rights(ground, folder):
    """A rights file of all rights of two callers."""
    path = folder / "rights.toml"
    items = ", ".join(f'"{right}"' for right in RIGHTS)
    path.write_text(f"[c1]\nshop1 = [{items}]\n[c2]\nshop1 = [{items}]\n")
    grants = [Command("grant", caller, "shop1", given=it) for caller in ("c1", "c2") for it in RIGHTS]
    before = ("rights", "--now", NOW + 1)
    return Job("rights", ground, before, (path,), b"", tuple(grants), 21, f"granted {len(grants)}\n")


def moves(grounds):
    """Moves of files of older schemas, and the check of one that needn't move."""
    for version, ground in grounds.items():
        yield Job(f"migrate from {version}", ground, ("migrate",), (), b"", (), 0, "schema 4\n")


def all_jobs(small, long, older, folder):
    """All jobs, those of the small file first."""
    commands = mixed(small)
    given = b"".join(map(message, commands))
    lives = Command("merchant", "", "shop1", lives=(60, 60, 8))
    set_it = ("merchant", "--now", NOW + 1, "--lead", 8)
    grant = Command("grant", "c1", "shop1", given="audit", ends=NOW + 60)
    withdraw = Command("withdraw", "back", "shop1", given="detokenize")
    serve = ("serve", "--connections", len(commands))
    yield single("made", None, set_it, ("shop1", 60, 60), lives)
    yield single("merchant", small, set_it, ("shop1", 60, 60), lives)
    until = ("grant", "--now", NOW, "--until", NOW + 60)
    yield single("grant", small, until, ("c1", "shop1", "audit"), grant)
    yield single("withdraw", small, ("withdraw", "--now", NOW), ("back", "shop1", "detokenize"), withdraw)
    yield Job("check", small, ("check",), (), b"", (), 0, sound(Rows(small.found).count).decode())
    yield Job("pipe", small, ("pipe", "--now", NOW + 1), (), given, commands, 63, "messages")
    yield Job("serve", small, serve, (), b"", commands, 63, "connections")
    yield batch("batch", small, asked_rows(100, 12))
    yield sweep(small)
    yield rights(small, folder)
    yield from moves(older)
    yield batch(LONG, long, asked_rows(90000, 60))
