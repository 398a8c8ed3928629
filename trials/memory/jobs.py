"""The jobs: their words, their input, the files that they begin with, and how they may end for want of
memory."""

import re
import sqlite3
from dataclasses import dataclass, field

from shared import messages, schemas
from shared.runs import must
from shared.shop import granted

NOW = ("--now", 1000)
FIXED = (*NOW, "--digits", 7)
AT_TOKEN = "/v1/merchants/shop1/tokens/7777777777771111"

# What a job on a file may say where memory is refused before the file is open.
OPENING = ("file not opened 32", "file not opened 33", "file not opened 34", "stopped 20")

# The rows of the file that jobs begin with, in tables of schema 1.
ROWS = (
    "INSERT INTO vault VALUES (1, 1)",
    "INSERT INTO merchants VALUES ('shop1', 60, 0, 1000)",
    "INSERT INTO counts VALUES ('shop1', 1, 3)",
    "INSERT INTO entries VALUES ('shop1', '0000000000001111', '4111111111111111', 1, 1000, 1060, NULL),"
    " ('shop1', '1111111111111111', '4111111111111111', 1, 1000, 1060, NULL),"
    " ('shop1', '2222222222221111', NULL, 1, 1000, 1060, 1000)",
    "INSERT INTO records VALUES ('till-1', 7, 'shop1', '0000000000001111', 1),"
    " ('till-1', 8, 'shop1', '1111111111111111', 1)",
    "INSERT INTO rights VALUES ('till-1', 'shop1', 1), ('back', 'shop1', 5)",
)
RIGHTS = """[till-1]
shop1 = ["tokenize"]
[back]
shop1 = ["detokenize", "view", "revoke", { right = "audit", until = 1893456000 }]
"""


def answers_of(out):
    """The answers of an output, each in its bytes."""
    found = []
    while out:
        _, rest = messages.first_answer(out)
        found.append(out[: len(out) - len(rest)])
        out = rest
    return found


def lines_of(out):
    """The lines of an output, the last of which has an end too."""
    found = out.splitlines(keepends=True)
    if found and not found[-1].endswith(b"\n"):
        raise messages.NoAnswer("a line without its end")
    return found


@dataclass
class Job:
    """A job: `words` come before the file and `after` behind it; `base` names the file that it begins with,
    where it has one. Where the file is absent it isn't there, and the job may make none."""

    name: str
    words: tuple
    after: tuple = ()
    given: bytes = b""
    base: str = ""
    absent: bool = False
    wants: tuple = ()
    apart: tuple = ()
    parts: object = lines_of
    seen: list = field(default_factory=list)

    @property
    def has_file(self):
        """Whether its words name a file."""
        return bool(self.base) or self.absent

    def line(self, file):
        """All words, with the path of its file."""
        return [*self.words, *((file,) if self.has_file else ()), *self.after]

    def may_say(self):
        """The lines that it may end with for want of memory."""
        return (*self.wants, *(OPENING if self.has_file else ("stopped 20",)))


def worked():
    """Messages that are answered the same when they are sent again: two are new tokens."""
    return messages.token_asked(21) + messages.asked("GET", AT_TOKEN, "till-1")


def stream():
    """More messages, with refusals among them and a fault at their end."""
    wrong = (messages.order("4111111111111112"), messages.order(use="often"), b"[]")
    bodies = (messages.order(), *wrong)
    found = [messages.token_asked(30 + place, body) for place, body in enumerate(bodies)]
    found += [
        messages.asked("POST", f"{AT_TOKEN}/number", "till-1"),
        messages.asked("HEAD", AT_TOKEN, "till-1"),
        messages.asked("GET", "/v1/merchants/shop1/tokens/1", "till-1"),
        messages.head("GET", "/", "A b"),
    ]
    return b"".join(found)


def rows():
    """The rows of a batch."""
    numbers = ("4111111111111111", '"4222 2222 2222 2"', "378282246310005")
    body = "".join(f"{40 + place},{number},single\n" for place, number in enumerate(numbers))
    return f"request,number,use\n{body}50,4111111111111111,often\n".encode()


def make_bases(program, folder):
    """The files that jobs begin with: one of schema 1, and that file moved and with a merchant's rights."""
    old = folder / "old.db"
    conn = sqlite3.connect(old, isolation_level=None)
    conn.executescript(schemas.tables(1))
    for statement in ROWS:
        conn.execute(statement)
    conn.close()
    (folder / "moved.db").write_bytes(old.read_bytes())
    must(program, "migrate", folder / "moved.db")
    granted(program, folder / "moved.db", {"till-1": ("view", "detokenize")}, now=1000)
    (folder / "rights.toml").write_text(RIGHTS)


def all_jobs(folder):
    """Every job of the trial."""
    over_messages = {"parts": answers_of, "apart": ("stopped 60",)}
    trial = ("trial", *FIXED, "till-1", "shop1", 60)
    in_file = {"base": "moved.db", "wants": ("stopped 64", "stopped 63"), **over_messages}
    command = ("stopped 20", "stopped 21")
    return (
        Job("trial", trial, given=worked(), wants=("stopped 64",), **over_messages),
        Job("pipe", ("pipe", *FIXED), given=worked(), **in_file),
        Job("stream", trial, given=stream(), wants=("stopped 64",), **over_messages),
        Job("batch", ("batch", *FIXED), ("till-1", "shop1"), rows(), "moved.db",
            wants=("stopped 45", "stopped 43"), apart=("stopped 46",)),
        Job("open", ("grant", *NOW), ("back", "shop1", "view"), b"", "moved.db", wants=command),
        Job("check", ("check",), base="moved.db"),
        Job("absent", ("check",), absent=True),
        Job("unlisted", ("list",), absent=True),
        Job("migrate", ("migrate",), base="old.db"),
        Job("rights", ("rights", *NOW), (folder / "rights.toml",), b"", "moved.db",
            wants=(*command, "stopped 74")),
    )


def code(line):
    """A line without a word before its numbers, for a figure."""
    return re.sub("^(file not opened|stopped) ", "", line)
