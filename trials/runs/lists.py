"""Lists of rights whose reading is worked out by hand: what `rights --dry-run` would give by each, in order,
or the refusal of its first fault."""

from pathlib import Path

from runs.connections import asked
from shared import messages, shop
from shared.runs import run
from shared.tally import unlike

FILE, LIST = "listed.db", Path("listed.toml")


def view(until=None):
    """The line of the right to view, up to an end where there is one."""
    return "grant till-1 shop1 view" + ("" if until is None else f" until {until}")


# A file in another order than its list, with a right that stands twice; and each right once, by caller,
# merchant and number.
ORDER = "[till-1]\nshop2 = ['audit']\nshop1 = ['view', 'tokenize', 'view']\n[back]\nshop1 = ['purge']\n"
LINES = "grant back shop1 purge|grant till-1 shop1 tokenize|grant till-1 shop1 view|grant till-1 shop2 audit"
# A right for good, which is listed with an end too, and one with an end.
ENDS = '[till-1]\nshop1 = ["view", {right = "view", until = 2000}, {right = "audit", until = 2000}]\n'
READ = (
    (ORDER, LINES),
    (ENDS, f"{view()}|grant till-1 shop1 audit until 2000"),
    # a document without callers, and callers without merchants and rights, name no right
    ("", ""), ("[till-1]\n", ""), ("[till-1]\nshop1 = []\n", ""),
)
# What the caller may once these two are given: both up to the end of the one, and then the other alone.
AUDIT = "GET /v1/merchants/shop1/audit"
MAY = (
    (1999, AUDIT, b'{"denied":0,"given":0,"made":0}'),
    (2000, AUDIT, b'{"refused":8}'),
    (2000, "GET /v1/merchants/shop1/tokens/0000000000001111", b'{"refused":13}'),
)
# Items that give `till-1` the right to view at `shop1`: the latest end stands.
LATEST = (
    ("{right = 'view', until = 0}", view(0)),
    ("{until = 253402300799, right = 'view'}", view(253402300799)),
    ("{right = 'view', until = 2000}, {right = 'view', until = 3000}", view(3000)),
    ("{right = 'view', until = 3000}, {right = 'view', until = 2000}", view(3000)),
    ("{right = 'view', until = 3000}, 'view'", view()),
    ("'view', {right = 'view', until = 3000}", view()),
)
# Files with faults, and the number of the first fault in the order.
FAULTS = (
    ('[till-1]\nshop1 = ["veiw"]\n[Back]\nshop1 = 3\n', 72),
    ('[till-1]\nshop1 = ["veiw"]\n', 71),
    ('[till-1]\nshop1 = [3, "veiw"]\n', 73),
    ('[till-1]\nshop2 = ["veiw"]\nshop1 = 3\n', 73),
    ("[till-1]\nshop_1 = 3\n", 72),
    ('[till-1]\nshop1 = "view"\n', 73),
    ("till-1 = 1\n", 73),
    ("Till = 1\n", 72),
    ("[", 70),
    # bytes that are no UTF-8 are no document
    (b"# \xff\n", 70),
)
# Items with faults, and the number of the first one.
ITEM_FAULTS = (
    ("{right = 'view', until = -1}", 75),
    ("{right = 'view', until = 253402300800}", 75),
    ("{right = 'view', until = -1}, 'veiw'", 75),
    ("{right = 'view', until = 2000}, {right = 'view', until = -1}", 75),
    ("{right = 'view', until = 'x'}", 73),
    ("{right = 'view', until = 2000.0}", 73),
    ("{right = 'view', until = 2000, from = 1000}", 73),
    ("{right = 'view'}", 73),
    ("{until = 2000}", 73),
    ("{right = 4, until = -1}", 73),
    ("{right = 'veiw', until = 'x'}", 73),
    ("{right = 'veiw', until = -1}", 71),
    ("'veiw', {right = 'view', until = -1}", 71),
)


def of_items(items):
    """A list with these items for `till-1` at `shop1`."""
    return f"[till-1]\nshop1 = [{items}]\n"


def told(program, text):
    """The status of `rights --dry-run` by a list, and its lines with a bar between two."""
    LIST.write_bytes(text if isinstance(text, bytes) else text.encode())
    ran = run(program, "rights", "--dry-run", "--now", 1000, FILE, LIST)
    return ran.status, "|".join(ran.out.decode().splitlines())


def judged(tally, program):
    """All lists; and the rights of one are given, and hold up to their ends."""
    for name in ("shop1", "shop2"):
        shop.made(program, FILE, 60, 0, {}, name, now=1000)
    for text, lines in (*READ, *((of_items(items), line) for items, line in LATEST)):
        tally.judge(f"a list {text!r}", unlike(told(program, text), (0, lines)), "lists that are read")
    faults = (*FAULTS, *((of_items(items), number) for items, number in ITEM_FAULTS))
    for text, number in faults:
        fault = unlike(told(program, text), (1, f"refused {number}"))
        tally.judge(f"a list {text!r}", fault, "lists with faults")
    LIST.write_text(ENDS)
    ran = run(program, "rights", "--now", 1000, FILE, LIST)
    fault = unlike((ran.status, ran.out), (0, b"granted 2\n"))
    tally.judge("a list's rights are given", fault, "lists that are read")
    for now, request, body in MAY:
        ran = run(program, "pipe", "--now", now, FILE, given=asked(request))
        found = messages.first_answer(ran.out)[0].body
        tally.judge(f"{request} at {now}", unlike(found, body), "lists that are read")
