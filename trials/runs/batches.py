"""Batches on files, and the same rows as messages."""

from runs.cases import HAS_LOG, answer, begun, fault_of, tried
from shared.messages import order, token_asked

# One number, asked for by two requests.
TWO = "request,number,use\n1,4111111111111111,single\n2,4111111111111111,single\n"
# Their lines, where both have a token.
TWO_TOKENS = "request,answer,detail\n1,0000000000001111,1060\n2,1111111111111111,1065\n"
# A shop with lives of 60 and 100, at which `till-1` may ask for tokens.
SHOP = """\
vault merchant --now 1000 FILE shop1 60 100
vault grant --now 1000 FILE till-1 shop1 tokenize"""
# A batch that comes again is answered the tokens that stand.
AGAIN = (
    (
        "vault batch --now 1000 --digits 0 FILE till-1 shop1",
        TWO,
        1,
        "request,answer,detail\n1,0000000000001111,1060\n2,refused,12\n",
        "",
    ),
    ("vault batch --now 1005 --digits 1 FILE till-1 shop1", TWO, 0, TWO_TOKENS, ""),
    ("vault batch --now 1010 --digits 2 FILE till-1 shop1", TWO, 0, TWO_TOKENS, ""),
    ("vault check FILE", "", 0, "sound 1 2 2\n", HAS_LOG),
)
# What is no batch is stopped after the rows before it.
UNBATCHED = (
    ("vault batch --now 1000 --digits 0 FILE till-1 shop1", "", 4, "", "vault: stopped 40\n"),
    (
        "vault batch --now 1000 --digits 0 FILE till-1 shop1",
        "request;number;use\n",
        4,
        "",
        "vault: stopped 40\n",
    ),
    (
        "vault batch --now 1000 --digits 0 FILE till-1 shop1",
        "1,4111111111111111,single\n",
        4,
        "",
        "vault: stopped 40\n",
    ),
    (
        "vault batch --now 1000 --digits 0 FILE till-1 shop1",
        "request,number,use\n1,4111111111111111,single\n2,4111111111111111\n",
        4,
        "request,answer,detail\n1,0000000000001111,1060\n",
        "vault: stopped 44\n",
    ),
    (
        "vault batch --now 1005 --digits 1 FILE till-1 shop1",
        "request,number,use\n1,4111111111111111,single\n2,4111111111111111,single,\n",
        4,
        "request,answer,detail\n1,0000000000001111,1060\n",
        "vault: stopped 44\n",
    ),
    ("vault check FILE", "", 0, "sound 1 1 1\n", HAS_LOG),
)
# A batch by a name that is none is refused before the file.
MISNAMED = (
    ("vault batch FILE Till shop1", TWO, 1, "refused 4\n", "vault: CALLER is no name\n"),
    ("vault batch FILE till-1 shop_1", TWO, 1, "refused 4\n", "vault: MERCHANT is no name\n"),
)
# Worked rows.
MANY = """\
request,number,use
1,4111111111111111,single
2,4111 1111 1111 1112,single
x,4111111111111111,single
3,0000000000,single
1,4111111111111111,single
4,4222222222222,"often"
5,4222222222222,multi
"""
# Their lines, where all drawn digits are 0.
ANSWERED = """\
request,answer,detail
1,0000000000001111,1060
2,refused,2
0,refused,5
3,refused,12
1,0000000000001111,1060
4,refused,19
5,0000000002222,1100
"""
# The refusals of these rows with their status lines. A trial doesn't offer the use of the last row, which it
# refuses by 9.
STATUSES = {
    "2": "400 Bad Request",
    "5": "400 Bad Request",
    "9": "422 Unprocessable Entity",
    "12": "503 Service Unavailable",
    "19": "400 Bad Request",
}


def rows_of(text):
    """The rows of a text without its header, each as its three fields."""
    return [line.replace('"', "").split(",") for line in text.splitlines()[1:]]


def messages():
    """The worked rows as messages."""
    return b"".join(token_asked(request, order(number, use)) for request, number, use in rows_of(MANY))


def replies(last):
    """The answers to these messages that say what the lines say, but for the last one."""
    found = ""
    for _, said, detail in (*rows_of(ANSWERED)[:-1], last):
        if said == "refused":
            found += answer(STATUSES[detail], f'{{"refused":{detail}}}')
        else:
            found += answer("200 OK", f'{{"expires":{detail},"token":"{said}"}}')
    return found


def judge_many(tally, program):
    """The worked rows, as a batch and as messages on files, and as messages to a vault in memory. As a batch
    they can't be asked of one in memory."""
    name = "worked rows have their lines on a file, and the same answers as messages"
    case = begun(tally, program, name, "batches/many")
    case.done(SHOP)
    case.ends(("vault batch --now 1000 --digits 0 FILE till-1 shop1", MANY, 1, ANSWERED, ""))
    case = begun(tally, program, f"{name} on another", "batches/messages")
    case.done(SHOP)
    told = replies(rows_of(ANSWERED)[-1])
    case.ends(("vault pipe --now 1000 --digits 0 FILE", messages(), 0, told, ""))
    told = replies(("5", "refused", "9"))
    case.judge("and to a vault in memory", fault_of(tried(program, "0", messages()), 0, told, ""))


def judged(tally, program):
    """Each case has a file of its own."""
    name = "a batch that comes again is answered the tokens that stand"
    case = begun(tally, program, name, "batches/again")
    case.done(SHOP)
    case.ends(*AGAIN)
    name = "what is no batch is stopped after the rows before it"
    case = begun(tally, program, name, "batches/unbatched")
    case.done(SHOP)
    case.ends(*UNBATCHED)
    name = "a batch by a name that is none is refused"
    case = begun(tally, program, name, "batches/misnamed")
    case.ends(*MISNAMED)
    case.makes_nothing()
    judge_many(tally, program)
