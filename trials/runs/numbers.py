"""Card numbers, tokens, candidates and masks, worked out by hand from the standard's formula."""

from pathlib import Path

from runs import scripts
from runs.answers import asking
from runs.cases import Case, begun, tried
from shared import messages
from shared.tally import unlike

# Texts of card numbers, and the number that each shows. It is given back for its token.
SHOWN = (
    # even places from the right count double
    ("79927398713", "79927398713"),
    # single spaces and hyphens may stand between digits
    ("4111 1111-1111 1111", "4111111111111111"),
    ("0000000000", "0000000000"),
    ("0-0 0-0 0-0 0-0 0-0", "0000000000"),
    ("6304000000000000000", "6304000000000000000"),
)
# Texts that show no card number, and what each is refused by.
REFUSED = (
    ("79927398710", 2),
    ("79927398714", 2),
    ("1000000000000000000", 2),
    ("1111111111111111", 2),
    # a text that shows no number is told before a wrong check digit
    ("-", 1),
    ("4111  1111 1111 1111", 1),
    ("4111 -1111 1111 1111", 1),
    ("4111111111111111-", 1),
    ("4111.1111.1111.1111", 1),
    ("000000000", 1),
    ("000000001", 1),
    ("00000000000000000000", 1),
    ("00000000000000000001", 1),
)
# Texts of tokens that nobody has: 10 to 19 bare digits that fail the check are a token, and others are none.
TOKENS = (
    ("0000000001", 13),
    ("1000000000000000000", 13),
    ("111111111111111x", 3),
    ("000000001", 3),
    ("00000000000000000001", 3),
)
# Digits that are drawn for the worked number, and the token that comes of them: the digits keep their order.
DRAWN = (
    ("9" * 300, "9999999999991111"),
    ("123" + "7" * 297, "1237777777771111"),
)
# Texts that are no digits.
UNDRAWN = ("0" * 301, ":" * 300, "0" * 299 + ":")
# Card numbers, and their masks by the leads of six and of eight. The last number differs from the worked one
# where both are hidden.
MASKS = (
    ("0000000000", "******0000", "00****0000"),
    ("79927398713", "7******8713", "799****8713"),
    ("4222222222222", "422******2222", "42222****2222"),
    ("6304000000000000000", "630400*********0000", "63040000*******0000"),
    ("4111111210111111", "411111******1111", "41111112****1111"),
)


def token_of(number):
    """The token of a number where all drawn digits are 1."""
    return "1" * (len(number) - 4) + number[-4:]


def token_asked(method, token, more=""):
    """A message about a token."""
    return messages.asked(method, f"/v1/merchants/shop1/tokens/{token}{more}", "till-1")


def told(ran):
    """The answers of a run in words."""
    return [scripts.told(answer.body) for answer in messages.answers_in(ran.out)]


def judge_numbers(tally, program):
    """Each text is asked of a trial of its own."""
    case = Case(tally, program, "a text shows its card number")
    for text, number in SHOWN:
        token = token_of(number)
        asked = asking(text).encode() + token_asked("POST", token, "/number")
        case.judge(repr(text), unlike(told(tried(program, "1", asked)), [f"{token} 1060", number]))
    case = Case(tally, program, "a text shows no card number")
    for text, number in REFUSED:
        case.judge(repr(text), unlike(told(tried(program, "1", asking(text))), [f"refused {number}"]))
    case = Case(tally, program, "a text is a token or none")
    for text, number in TOKENS:
        found = told(tried(program, "1", token_asked("GET", text)))
        case.judge(repr(text), unlike(found, [f"refused {number}"]))


def judge_drawings(tally, program):
    """Each drawing is that of a trial of its own."""
    asked = asking(messages.NUMBER)
    case = Case(tally, program, "drawn digits stand in a token")
    for digits, token in DRAWN:
        case.judge(f"{digits[:5]}..", unlike(told(tried(program, digits, asked)), [f"{token} 1060"]))
    case = Case(tally, program, "a text is no drawing")
    for digits in UNDRAWN:
        case.judge(f"{len(digits)} characters", unlike(tried(program, digits, asked)[:2], (2, b"")))


def judge_masks(tally, program, folder):
    """A shop has a token of each number, and shows it by both leads."""
    case = begun(tally, program, "a number has its mask", folder)
    asked = (f"tokenize till-1 shop1 {it} single {row[0]} 1 1000" for it, row in enumerate(MASKS, 1))
    tokens = [f"{question} = {token_of(row[0])} 1060" for question, row in zip(asked, MASKS)]
    scripts.follow(case, ["open till-1 shop1 60 0 1000 = done", *tokens])
    for place, lead in enumerate((6, 8), 1):
        shown = (f"view till-1 shop1 {token_of(row[0])} 1000 = {row[place]}" for row in MASKS)
        lines = [f"{line} single 1000 1060 live" for line in shown]
        scripts.follow(case, [f"set shop1 60 0 1000 {lead} = done", *lines])


def judged(tally, program):
    """Numbers in all that shows them."""
    judge_numbers(tally, program)
    judge_drawings(tally, program)
    judge_masks(tally, program, Path("numbers"))
