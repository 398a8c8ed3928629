"""Lists of merchants whose reading is worked out by hand: what `merchants` sets by each, or the refusal of
its first fault; and by whom a service that reads one purges dead tokens."""

import re
import time
from pathlib import Path

from runs import cases
from shared import messages, shop
from shared.runs import Limit, must
from shared.service import Service
from shared.tally import unlike

# Lists, and the merchants that they set in the order of their names: each with its lives and its lead.
READ = (
    ("", ()),
    ("[shop1]\nsingle = 60\nmulti = 0\n# end\n", (("shop1", 60, 0, 6),)),
    (
        "[b]\nsingle = 1\nmulti = 2\nlead = 8\n[a]\nlead = 6\nmulti = 3155760000\nsingle = 0\n",
        (("a", 0, 3155760000, 6), ("b", 1, 2, 8)),
    ),
    ("shop1 = {single = 1, multi = 2}", (("shop1", 1, 2, 6),)),
)
# Lists that say who sweeps, the same of each, and the sweeper of each merchant that has one.
SWEPT = (
    ("[shop1]\nsingle = 1\nmulti = 2\nsweep = 'back'\n", (("shop1", 1, 2, 6),), {"shop1": "back"}),
    (
        "[b]\nsingle = 1\nmulti = 2\nsweep = 'b-1'\n[a]\nsingle = 1\nmulti = 2\n",
        (("a", 1, 2, 6), ("b", 1, 2, 6)),
        {"b": "b-1"},
    ),
)
# Lists with faults, and the number of the first one. Of two faulty merchants the first by name tells.
FAULTS = (
    ("[shop1", 70),
    ("[Shop]\nsingle = 1\nmulti = 2\n", 72),
    ("shop1 = 5", 73),
    ("shop1 = ['tokenize']", 73),
    ("[shop1]\nsingle = 1\n", 73),
    ("[shop1]\nsingle = 1\nmulti = '2'\n", 73),
    ("[shop1]\nsingle = 1\nmulti = 2\nlives = 3\n", 73),
    ("[shop1]\nsingle = 1\nmulti = 2\nlead = 6.0\n", 73),
    ("[shop1]\nsingle = -1\nmulti = 2\n", 76),
    ("[shop1]\nsingle = 1\nmulti = 3155760001\n", 76),
    ("[shop1]\nsingle = 1\nmulti = 2\nlead = 7\n", 76),
    ("[shop1]\nsingle = 1\nmulti = 2\nsweep = 'Back'\n", 73),
    ("[shop1]\nsingle = 1\nmulti = 2\nsweep = ''\n", 73),
    ("[shop1]\nsingle = 1\nmulti = 2\nsweep = 5\n", 73),
    ("[shop1]\nsingle = -1\nmulti = 2\nsweep = 'Back'\n", 73),
    ("[b]\nsingle = 1\n[a]\nsingle = -1\nmulti = 0\n", 76),
    ("[b]\nsingle = -1\nmulti = 0\n[A]\nsingle = 1\n", 72),
)
# How a list of a vault shows a merchant that was set at 1000.
SHOWN = "merchant {} single {} multi {} lead {} moment 1000 made 0 given 0 denied 0\n"
# How many seconds ago tokens were made that are dead by now.
AGO = 100


def begun(tally, program, place, text):
    """A case in a folder of its own, and the path of its list."""
    folder = f"merchants/{place}"
    case = cases.begun(tally, program, f"a list of merchants {text!r}", folder)
    path = f"{folder}/merchants.toml"
    Path(path).write_text(text)
    return case, path


def sold(program, file, request, merchant, sweepers):
    """A merchant with a token that is dead by now, where these callers may purge."""
    (name, single, multi, lead), then = merchant, int(time.time()) - AGO
    rights = shop.TILL | {it: ("purge",) for it in sweepers}
    shop.made(program, file, single, multi, rights, name, then, lead)
    must(program, "pipe", "--now", then, file, given=messages.token_asked(request, merchant=name))


def said(program, file, path):
    """The status and the lines of a service that reads a list, and ends behind a connection."""
    words = ("--connections", 1, "--merchants", path, file)
    with Service(program, *words) as service, Limit(service.process):
        first = service.process.stdout.readline()
        if service.port and first:
            service.connect().close()
        ended = service.ended()
    lines = (first + ended.out).decode()
    return ended.status, re.sub(r" at [0-9]+$", "", lines, flags=re.MULTILINE)


def judge_read(tally, program, place, text, merchants):
    """The merchants of a list are set, and no others."""
    case, path = begun(tally, program, place, text)
    shown = "".join(SHOWN.format(*it) for it in merchants)
    case.ends(
        (f"vault merchants --now 1000 FILE {path}", "", 0, f"merchants set {len(merchants)}\n", ""),
        ("vault list FILE", "", 0, shown, ""),
    )


def judge_swept(tally, program, place, text, merchants, sweepers):
    """Each merchant has a dead token that each sweeper may purge. It is purged where the list names one."""
    case, path = begun(tally, program, place, f"{text}# end\n")
    for request, merchant in enumerate(merchants, 1):
        sold(program, case.file, request, merchant, sweepers.values())
    lines = "".join(f"sweep of {name} purged 1\n" for name in sweepers)
    case.judge("swept by a service", unlike(said(program, case.file, path), (0, lines)))


def judged(tally, program):
    """Each list has a file of its own."""
    for place, (text, merchants) in enumerate((*READ, *(row[:2] for row in SWEPT))):
        judge_read(tally, program, f"read-{place}", text, merchants)
    for place, row in enumerate(SWEPT):
        judge_swept(tally, program, f"swept-{place}", *row)
    for place, (text, number) in enumerate(FAULTS):
        case, path = begun(tally, program, f"refused-{place}", text)
        case.said(f"vault merchants --now 1000 FILE {path} = refused {number}")
        case.makes_nothing()
