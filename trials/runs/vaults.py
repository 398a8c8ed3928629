"""Lists of commands over a file, with tokens and moments worked out by hand."""

from model.cards import completed
from runs import scripts

OPENED = "open till-1 shop1 60 0 1000 = done"
FIRST = "tokenize till-1 shop1 7 single 4111111111111111 0 1000 = 0000000000001111 1060"
# A shop with a life for either use, and its first multi-use token.
OFFERED = "open till-1 shop1 60 100 1000 = done"
MULTI = "tokenize till-1 shop1 1 multi 4111111111111111 0 1000 = 0000000000001111 1100"
# A shop with three tokens, of which the third is revoked.
THREE = f"""\
{OPENED}
{FIRST}
tokenize till-1 shop1 8 single 4111111111111111 1 1010 = 1111111111111111 1070
tokenize till-1 shop1 9 single 4111111111111111 2 1020 = 2222222222221111 1080
revoke till-1 shop1 2222222222221111 1020 = done"""
CASES = {
    "a merchant is set, with several lives, and a caller is given each right": """\
set shop1 60 0 1000 = done
set shop1 60 100 1000 = done
set shop1 800 0 1000 = done
set shop1 0 100 1000 = done
set shop2 60 0 1000 = done
set shop2 0 50 1000 = done
grant till-1 shop1 tokenize 1000 = done
grant till-1 shop1 detokenize 1000 = done
grant till-1 shop1 view 1000 = done
grant till-1 shop1 revoke 1000 = done
grant till-1 shop1 purge 1000 = done
grant till-1 shop1 audit 1000 = done
grant till-1 shop2 tokenize 1000 = done
grant till-1 shop2 detokenize 1000 = done
grant till-1 shop2 view 1000 = done
grant till-1 shop2 revoke 1000 = done
grant till-1 shop2 purge 1000 = done
grant till-1 shop2 audit 1000 = done
made shop1 = 0
made shop2 = 0""",
    # the last two candidates pass the check
    "a taken candidate is not drawn again, and a repeat answers the first token": f"""\
{OPENED}
{FIRST}
tokenize till-1 shop1 8 single 4111111111111111 0 1000 = refused 12
tokenize till-1 shop1 7 single 4111111111111111 5 1000 = 0000000000001111 1060
tokenize till-1 shop1 9 single 0000000000 0 1000 = refused 12
tokenize till-1 shop1 10 single 6304000000000000000 0 1000 = refused 12
audit till-1 shop1 1000 = 1 0 0
made shop1 = 1""",
    "a request number that was used otherwise is refused": f"""\
{OFFERED}
{FIRST}
tokenize till-1 shop1 7 single 4222222222222 0 1000 = refused 10
tokenize till-1 shop2 7 single 4111111111111111 0 1000 = refused 10
tokenize till-1 shop1 7 multi 4111111111111111 0 1000 = refused 10
audit till-1 shop1 1000 = 1 0 0
made shop1 = 1""",
    "a live multi-use token is given again": f"""\
{OFFERED}
{MULTI}
tokenize till-1 shop1 2 multi 4111111111111111 1 1010 = 0000000000001111 1100
tokenize till-1 shop1 1 multi 4111111111111111 0 1000 = 0000000000001111 1100
made shop1 = 1""",
    "an expired multi-use token is drawn anew": f"""\
{OFFERED}
{MULTI}
tokenize till-1 shop1 2 multi 4111111111111111 1 1099 = 0000000000001111 1100
tokenize till-1 shop1 3 multi 4111111111111111 1 1100 = 1111111111111111 1200
made shop1 = 2""",
    "a revoked multi-use token is drawn anew, and again once the new one has expired": f"""\
{OFFERED}
{MULTI}
tokenize till-1 shop1 2 multi 4111111111111111 1 1010 = 0000000000001111 1100
audit till-1 shop1 1000 = 1 0 0
audit till-1 shop1 1010 = 1 0 0
revoke till-1 shop1 0000000000001111 1020 = done
tokenize till-1 shop1 3 multi 4111111111111111 1 1030 = 1111111111111111 1130
audit till-1 shop1 1000 = 2 0 0
audit till-1 shop1 1030 = 2 0 0
made shop1 = 2
tokenize till-1 shop1 4 multi 4111111111111111 2 1129 = 1111111111111111 1130
tokenize till-1 shop1 5 multi 4111111111111111 2 1130 = 2222222222221111 1230
revoke till-1 shop1 0000000000001111 1200 = done
view till-1 shop1 0000000000001111 1200 = 411111******1111 multi 1000 1100 revoked""",
    "a moment never falls with the clock": f"""\
{OPENED}
tokenize till-1 shop1 7 single 4111111111111111 0 2000 = 0000000000001111 2060
tokenize till-1 shop1 8 single 4111111111111111 1 1500 = 1111111111111111 2060
made shop1 = 2""",
    "an unknown merchant and a use that is not offered are refused": f"""\
{OPENED}
tokenize till-1 shop2 7 single 4111111111111111 0 1000 = refused 7
tokenize till-1 shop1 7 multi 4111111111111111 0 1000 = refused 9
made shop1 = 0""",
    "a number is given until the last second, and each answer is counted": f"""\
{OPENED}
{FIRST}
detokenize till-1 shop1 0000000000001111 1059 = 4111111111111111
audit till-1 shop1 1000 = 1 1 0
audit till-1 shop1 1059 = 1 1 0
detokenize till-1 shop1 0000000000001111 1060 = refused 16
audit till-1 shop1 1000 = 1 1 1
audit till-1 shop1 1060 = 1 1 1
made shop1 = 1""",
    "a token that expired does not live again when the clock falls": """\
open till-1 shop1 800 0 1000 = done
tokenize till-1 shop1 7 single 4111111111111111 0 1000 = 0000000000001111 1800
set shop1 800 0 2000 = done
detokenize till-1 shop1 0000000000001111 1500 = refused 16
made shop1 = 1""",
    "a denial is counted where the merchant is known": f"""\
{OPENED}
open till-1 shop2 60 0 1000 = done
{FIRST}
tokenize till-1 shop2 8 single 4111111111111111 1 1000 = 1111111111111111 1060
detokenize guest shop1 0000000000001111 1000 = refused 8
audit till-1 shop1 1000 = 1 0 1
detokenize till-1 shop1 1111111111111111 1000 = refused 13
audit till-1 shop1 1000 = 1 0 2
detokenize till-1 nobody 0000000000001111 1000 = refused 7
audit till-1 shop1 1000 = 1 0 2
made shop2 = 1
tokenize till-1 shop2 9 single 4111111111111111 0 1000 = 0000000000001111 1060
audit till-1 shop2 1000 = 2 0 0""",
    "another merchant may have the same token": f"""\
{OPENED}
open till-1 shop2 60 0 1000 = done
{FIRST}
tokenize till-1 shop2 8 single 4111111111111111 0 1000 = 0000000000001111 1060
made shop2 = 1""",
    "a token is shown with its number masked once it is revoked, twice": f"""\
{OPENED}
{FIRST}
revoke till-1 shop1 0000000000001111 1020 = done
revoke till-1 shop1 0000000000001111 1030 = done
view till-1 shop1 0000000000001111 1060 = 411111******1111 single 1000 1060 revoked
detokenize till-1 shop1 0000000000001111 1030 = refused 15
made shop1 = 1""",
    "a right that is withdrawn ends new requests and no repeat": f"""\
{OPENED}
{FIRST}
withdraw till-1 shop1 tokenize 1001 = done
tokenize till-1 shop1 7 single 4111111111111111 0 1000 = 0000000000001111 1060
tokenize till-1 shop1 8 single 4111111111111111 1 1000 = refused 8
audit till-1 shop1 1000 = 1 0 0
made shop1 = 1""",
    # the last two numbers are of another ending and of another length
    "a purged token is answered again to its length and last four digits": f"""\
{OPENED}
{FIRST}
purge till-1 shop1 0000000000001111 1059 = refused 17
revoke till-1 shop1 0000000000001111 1059 = done
purge till-1 shop1 0000000000001111 1059 = done
detokenize till-1 shop1 0000000000001111 1059 = refused 14
tokenize till-1 shop1 7 single 4111111111111111 0 1000 = 0000000000001111 1060
tokenize till-1 shop1 7 single 0000000000041111 0 1000 = 0000000000001111 1060
tokenize till-1 shop1 7 single 4222222222222 0 1000 = refused 10
tokenize till-1 shop1 7 single 0000000000000000 0 1000 = refused 10
tokenize till-1 shop1 7 single 00000000000041111 0 1000 = refused 10
purge till-1 shop1 0000000000001111 1059 = done
made shop1 = 1""",
    "tokens that expired or were revoked are swept until they are purged": f"""\
{THREE}
dead till-1 shop1 1059 = 1 2222222222221111
dead till-1 shop1 1065 = 2 0000000000001111 2222222222221111
dead till-1 shop2 1065 = 0
purge till-1 shop1 0000000000001111 1065 = done
dead till-1 shop1 1065 = 1 2222222222221111
purge till-1 shop1 2222222222221111 1065 = done
dead till-1 shop1 1065 = 0
detokenize till-1 shop1 1111111111111111 1065 = 4111111111111111
audit till-1 shop1 1000 = 3 1 0
dead till-1 shop1 1070 = 1 1111111111111111
purge guest shop1 1111111111111111 1070 = refused 8
dead till-1 shop1 1070 = 1 1111111111111111
made shop1 = 3""",
    "a token that expired is swept also when the clock falls": f"""\
{THREE}
purge till-1 shop1 2222222222221111 1065 = done
dead till-1 shop1 1000 = 1 0000000000001111
made shop1 = 3""",
}
# The last four digits of sixty card numbers that begin with twelve ones; the first, second and third number
# of each three.
EACH = [completed(f"{'1' * 12}{place:03}")[-4:] for place in range(60)]
THIRDS = EACH[::3], EACH[1::3], EACH[2::3]
# Requests of all numbers in turn: the merchant, what the request numbers begin with, the digit that is drawn
# and the moment; the digit of the token that is given, and its end.
OWN = (
    ("shop1", 1, 0, 1000, 0, 1100),
    ("shop2", 3, 2, 1010, 2, 1060),
    ("shop1", 4, 3, 1099, 0, 1100),
    ("shop2", 5, 4, 1059, 2, 1060),
    ("shop1", 6, 5, 1100, 5, 1200),
    ("shop1", 7, 6, 1150, 5, 1200),
)


def numbered(lasts, merchant, begins, drawn, now, given, expires):
    """Requests for multi-use tokens of the numbers with these last four digits."""
    asked = f"tokenize till-1 {merchant} {begins}{{0}} multi {'1' * 12}{{0}} {drawn} {now}"
    return [f"{asked} = {str(given) * 12}{{0}} {expires}".format(last) for last in lasts]


def own():
    """Each of many numbers has its own token."""
    yield "open till-1 shop1 0 100 1000 = done"
    yield "open till-1 shop2 0 50 1000 = done"
    for request in OWN:
        yield from numbered(EACH, *request)
    yield "made shop1 = 120"
    yield "made shop2 = 60"


def gone():
    """Of many numbers the second third is revoked, and the third one purged."""
    yield "open till-1 shop1 0 100 1000 = done"
    yield from numbered(EACH, "shop1", 1, 0, 1000, 0, 1100)
    _, second, third = THIRDS
    yield from (f"revoke till-1 shop1 {'0' * 12}{last} 1050 = done" for last in second + third)
    yield from (f"purge till-1 shop1 {'0' * 12}{last} 1050 = done" for last in third)


def gone_at_once():
    """Those that were revoked or purged are not found, and new tokens are drawn."""
    first, *others = THIRDS
    yield from gone()
    yield from numbered(first, "shop1", 2, 3, 1050, 0, 1100)
    for lasts in others:
        yield from numbered(lasts, "shop1", 2, 3, 1050, 3, 1150)


def gone_in_time():
    """Nor are those that expired."""
    yield from gone()
    yield from numbered(EACH, "shop1", 2, 3, 1100, 3, 1200)


# Scripts of many lines by what they show.
LONG = {
    "each of many numbers has its own token": own,
    "a token that was revoked or purged is not found": gone_at_once,
    "a token that expired is not found": gone_in_time,
}


def judged(tally, program):
    """Each script has a file of its own."""
    every = CASES | {name: "\n".join(lines()) for name, lines in LONG.items()}
    scripts.judge_each(tally, program, "vaults", every)
