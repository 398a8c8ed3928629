"""Names, request numbers, moments, and the words of uses and rights."""

from model.vault import RIGHTS
from runs import scripts
from runs.cases import begun, fault_of
from shared import rows
from shared.tally import unlike

# Names of callers and of merchants, and texts that are none.
NAMES = ("a", "0", "-", "till-1", "abcdefghijklmnop")
NAMELESS = ("", "abcdefghijklmnopq", "Till", "till_1", "till 1")
SHOP = "open till-1 shop1 60 100 1000 = done"
# Texts of request numbers, and what the line of each row says.
REQUESTS = (
    ("1", "1,0000000000001111,1100"),
    ("10", "10,0000000000001111,1100"),
    ("9223372036854775807", "9223372036854775807,0000000000001111,1100"),
    ("0", "0,refused,5"),
    ("01", "0,refused,5"),
    ("+1", "0,refused,5"),
    ("1a", "0,refused,5"),
    (" 1", "0,refused,5"),
    ("9999999999999999999", "0,refused,5"),
    ("10000000000000000000", "0,refused,5"),
)
# The last moment ends the year 9999. Of two moments the later one is the merchant's.
LAST = 253402300799
LATER = ((0, LAST), (LAST, 0))
# Requests for either use, whose numbers are those of their uses; and a word that is no use.
USES = """\
tokenize till-1 shop1 1 single 4111111111111111 0 1000 = 0000000000001111 1060
tokenize till-1 shop1 2 multi 4111111111111111 1 1000 = 1111111111111111 1100
tokenize till-1 shop1 3 Single 4111111111111111 2 1000 = refused 19"""


def judge_names(tally, program):
    """A name is 1 to 16 small letters, digits and hyphens."""
    case = begun(tally, program, "a name is kept", "names/kept")
    for name in NAMES:
        scripts.follow(case, [f"set {name} 60 0 1000 = done", f"grant {name} {name} view 1000 = done"])
    listed = scripts.said(program, "list", case.file).splitlines()
    wanted = [f"right {name} {name} view" for name in sorted(NAMES)]
    case.judge("listed", unlike([line for line in listed if line.startswith("right ")], wanted))
    case = begun(tally, program, "a text is no name", "names/none")
    for name in NAMELESS:
        granted = scripts.said(program, "grant", case.file, name, "shop1", "view")
        case.judge(f"{name!r} of a caller", unlike(granted, "refused 4"))
        was_set = scripts.said(program, "merchant", case.file, name, 60, 0)
        case.judge(f"{name!r} of a merchant", unlike(was_set, "refused 4"))
    case.makes_nothing()


def judge_requests(tally, program):
    """A request number has no sign and no leading zero."""
    case = begun(tally, program, "a request number has its line", "names/requests")
    scripts.follow(case, [SHOP])
    for text, line in REQUESTS:
        given = f"request,number,use\n{text},4111111111111111,multi\n"
        ran = case.run("vault batch --now 1000 --digits 0 FILE till-1 shop1", given)
        out = f"request,answer,detail\n{line}\n"
        case.judge(repr(text), fault_of(ran, int("refused" in line), out, ""))


def judge_moments(tally, program):
    """A merchant's moment is the later one of its own and the command's."""
    for first, second in LATER:
        case = begun(tally, program, "the later moment", f"names/{first}")
        scripts.follow(case, [f"set shop1 60 0 {now} = done" for now in (first, second)])
        found = rows.read(case.file)[1]["merchant", "shop1"].moment
        case.judge(f"of {first} and {second}", unlike(found, LAST))


def judge_words(tally, program):
    """Uses and rights have their words and numbers."""
    case = begun(tally, program, "a word has its number", "names/words")
    scripts.follow(case, [SHOP, *USES.splitlines()])
    found = rows.read(case.file)[1]
    uses = [(key[2], row.use) for key, row in sorted(found.items()) if key[0] == "record"]
    case.judge("of a use", unlike(uses, [(1, 1), (2, 2)]))
    lines = [f"grant back shop1 {right} 1000 = done" for right in RIGHTS]
    for number, line in enumerate(lines, 1):
        scripts.follow(case, [line])
        given = [key[3] for key in rows.read(case.file)[1] if key[:2] == ("right", "back")]
        case.judge(f"of the right {number}", unlike(max(given), number))
    scripts.follow(case, ["grant back shop1 grant 1000 = refused 71"])


def judged(tally, program):
    """Each kind has files of its own."""
    judge_names(tally, program)
    judge_requests(tally, program)
    judge_moments(tally, program)
    judge_words(tally, program)
