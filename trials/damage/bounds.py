"""Small files, each with one row at a bound of a rule or past it, and the least rule that `check` says each
breaks. Digits, sums and moments are worked out by hand. No key stands twice, since no file may have that.

Below a base, each line has edits as shared/laid.py makes them, and the rule behind ` = `."""

from shared import laid
from shared.runs import run, side_by_side
from shared.tally import unlike

# A file with one merchant, one card number and one token, of a request of a caller with one right.
SOUND = """version 1,4; merchant shop1,60,0,1000; count shop1,1,1; card 1,shop1,4111111111111111,1; \
entry shop1,0000000000001111,1,1,1000,1060,-; record till-1,7,shop1,0000000000001111,1; \
right till-1,shop1,1"""

CASES = {
    "A sound file breaks no rule": """\
no rows
version 1,4 = none
sound = none""",
    "There is one version row, and its id is 1": """\
sound
clear versions = 1
clear versions; version 2,4 = 1
version 2,4 = 1""",
    "A merchant's name is 1 to 16 small letters, digits and hyphens": """\
version 1,4
merchant a,60,0,1000 = none
merchant shop-0123456789z,60,0,1000 = none
merchant shop-0123456789zz,60,0,1000 = 2
merchant ,60,0,1000 = 2
merchant Shop,60,0,1000 = 2
merchant shop_1,60,0,1000 = 2""",
    "There are at most 10000 merchants": """\
version 1,4
merchants 10000 = none
merchants 10001 = 2""",
    "Lives and moments are within their bounds": """\
version 1,4
merchant shop1,0,0,0 = none
merchant shop1,3155760000,3155760000,253402300799 = none
merchant shop1,3155760001,0,0 = 3
merchant shop1,0,3155760001,0 = 3
merchant shop1,0,0,253402300800 = 3
merchant shop1,-1,0,0 = 3
merchant shop1,0,-1,0 = 3
merchant shop1,0,0,-1 = 3""",
    "A merchant's masks show at most 6 or 8 digits at the left": """\
version 1,4
merchant shop1,60,0,1000,6 = none
merchant shop1,60,0,1000,8 = none
merchant shop1,60,0,1000,7 = 14
merchant shop1,60,0,1000,0 = 14
merchant shop1,60,0,1000,-6 = 14
merchant shop1,60,0,1000; merchant shop2,60,0,1000,7 = 14
merchant shop1,-1,0,1000,7 = 3""",
    "A count is of a merchant, of a kind from 1 to 3, and within its bounds": """\
sound
count shop1,2,1 = none
count shop1,3,4611686018427387903 = none
count shop1,3,4611686018427387904 = 4
count shop1,2,0 = 4
count shop1,0,1 = 4
count shop1,4,1 = 4
count shop2,2,1 = 4""",
    "A merchant's count is the number of its entries": """\
sound; clear counts
count shop1,1,2 = 10

sound; clear cards; card 1,shop1,4111111111111111,2; entry shop1,1000000000001111,1,1,1000,1060,-
clear counts; count shop1,1,2 = none
clear counts = 10""",
    "An entry's token is 10 to 19 digits that fail the check, at a merchant that is there": """\
sound; clear cards; clear entries; clear records
entry shop1,0000000001,-,1,1000,1060,1000 = none
entry shop1,0000000000000000001,-,1,1000,1060,1000 = none
entry shop1,000000001,-,1,1000,1060,1000 = 5
entry shop1,00000000000000000001,-,1,1000,1060,1000 = 5
entry shop1,4111111111111111,-,1,1000,1060,1000 = 5
entry shop1,000000000a,-,1,1000,1060,1000 = 5
entry shop2,0000000001,-,1,1000,1060,1000 = 5""",
    "An entry's number passes the check and fits its token": """\
sound; clear cards
card 1,shop1,4111111111111111,1 = none
card 1,shop1,4111111111111112,1 = 6
card 1,shop1,5500005555555559,1 = 6
card 1,shop1,400000000001111,1 = 6
card 1,shop1,4111 1111 1111 1111,1 = 6
card 1,shop1,,1 = 6""",
    "An entry's usage is 1 or 2, as its record says too": """\
sound; clear entries; clear records
entry shop1,0000000000001111,1,1,1000,1060,-; record till-1,7,shop1,0000000000001111,1 = none
entry shop1,0000000000001111,1,2,1000,1060,-; record till-1,7,shop1,0000000000001111,2 = none
entry shop1,0000000000001111,1,0,1000,1060,-; record till-1,7,shop1,0000000000001111,0 = 7
entry shop1,0000000000001111,1,3,1000,1060,-; record till-1,7,shop1,0000000000001111,3 = 7""",
    "An entry expires after its birth and within the longest life": """\
sound; clear entries
entry shop1,0000000000001111,1,1,0,60,- = none
entry shop1,0000000000001111,1,1,-1,60,- = 7
entry shop1,0000000000001111,1,1,1000,1001,- = none
entry shop1,0000000000001111,1,1,1000,1000,- = 7
entry shop1,0000000000001111,1,1,1001,1060,- = 7
entry shop1,0000000000001111,1,1,1000,3155761000,- = none
entry shop1,0000000000001111,1,1,1000,3155761001,- = 7
entry shop1,0000000000001111,1,1,-9223372036854775808,9223372036854775807,- = 7
entry shop1,0000000000001111,1,1,0,9223372036854775807,- = 7""",
    "An entry is revoked from its birth to the moment": """\
sound; clear entries
entry shop1,0000000000001111,1,1,900,1060,900 = none
entry shop1,0000000000001111,1,1,900,1060,1000 = none
entry shop1,0000000000001111,1,1,900,1060,899 = 7
entry shop1,0000000000001111,1,1,900,1060,1001 = 7""",
    "A purged entry is revoked or has expired": """\
sound; clear cards; clear entries; clear records
entry shop1,0000000000001111,-,1,1000,1060,1000 = none

sound; clear cards; clear entries
entry shop1,0000000000001111,-,1,900,1000,- = none
entry shop1,0000000000001111,-,1,900,1001,- = 8""",
    "One number of two card rows is one number; two numbers are two": """\
version 1,4; merchant shop1,60,0,1000; merchant shop2,60,0,1000; \
count shop1,1,2; entry shop1,0000000000001111,1,2,1000,1060,-; right till-1,shop1,1; \
card 1,shop1,4111111111111111,1; entry shop1,1000000000001111,2,2,1000,1060,-
card 2,shop1,4222222222261111,1 = none""",
    "An expired entry is not live": """\
version 1,4; merchant shop1,60,0,1000; merchant shop2,60,0,1000; \
count shop1,1,2; entry shop1,0000000000001111,1,2,1000,1060,-; right till-1,shop1,1; \
card 1,shop1,4111111111111111,2
entry shop1,1000000000001111,1,2,900,1000,- = none
entry shop1,1000000000001111,1,2,900,1001,- = 9""",
    "The same number is live at two merchants": """\
version 1,4; merchant shop1,60,0,1000; merchant shop2,60,0,1000; \
entry shop1,0000000000001111,1,2,1000,1060,-; right till-1,shop1,1; card 1,shop1,4111111111111111,1
entry shop2,1000000000001111,2,2,1000,1060,-; card 2,shop2,4111111111111111,1; \
count shop1,1,1; count shop2,1,1 = none""",
    "A record is of a caller, and of a request from 1 on": """\
sound
record till-1,1,shop1,0000000000001111,1 = none
record till-1,9223372036854775807,shop1,0000000000001111,1 = none
record till-1,0,shop1,0000000000001111,1 = 11
record Till,1,shop1,0000000000001111,1 = 11
record ,1,shop1,0000000000001111,1 = 11""",
    "A record is of an entry, and has its usage": """\
sound; clear records
record till-1,7,shop1,0000000000001111,2 = 11
record till-1,7,shop1,1000000000001111,1 = 11
record till-1,7,shop2,0000000000001111,1 = 11""",
    "A right is of a caller at a merchant, and from 1 to 6": """\
sound
right till-1,shop1,2 = none
right till-1,shop1,6 = none
right till-1,shop1,0 = 12
right till-1,shop1,7 = 12
right till-1,shop2,1 = 12
right till 1,shop1,1 = 12""",
    "The end of a right is a moment, or there is none": """\
sound
right till-1,shop1,2,- = none
right till-1,shop1,2,0 = none
right till-1,shop1,2,253402300799 = none
right till-1,shop1,2,-1 = 15
right till-1,shop1,2,253402300800 = 15
right till-1,shop1,7,-1 = 12""",
    "The least of two broken rules is told": """\
sound
clear records; record till-1,7,shop1,0000000000001111,2; clear counts; count shop1,1,2 = 10""",
    "A card's uses are the entries that point at it, one or two": """\
sound; clear cards
card 1,shop1,4111111111111111,1 = none
card 1,shop1,4111111111111111,2 = 13
card 1,shop1,4111111111111111,0 = 13
card 1,shop1,4111111111111111,-1 = 13
card 1,shop1,4111111111111111,-9223372036854775808 = 13
card 1,shop1,4111111111111111,9223372036854775807 = 13

sound; clear cards; entry shop1,1000000000001111,1,1,1000,1060,-; clear counts; count shop1,1,2
card 1,shop1,4111111111111111,1 = 13
card 1,shop1,4111111111111111,2 = none
card 1,shop1,4111111111111111,3 = 13""",
    "An entry points at each card row": """\
sound
card 2,shop1,4222222222261111,0 = 13
card 2,shop1,4222222222261111,1 = 13""",
    "An entry's card is there": """\
sound
clear cards = 13

sound; clear cards
card 1,shop1,4111111111111111,1 = none
card 0,shop1,4111111111111111,1 = 13
card 2,shop1,4111111111111111,1 = 13
card -1,shop1,4111111111111111,1 = 13""",
    "A card row is of its entry's merchant": """\
no rows
sound; clear cards; card 1,shop2,4111111111111111,1 = 13

sound; clear cards; card 1,shop2,4111111111111111,1
merchant shop2,60,0,1000 = 13""",
    "A card row may have any id": """\
sound; clear cards; clear entries
card -9223372036854775808,shop1,4111111111111111,1; \
entry shop1,0000000000001111,-9223372036854775808,1,1000,1060,- = none
card -1,shop1,4111111111111111,1; entry shop1,0000000000001111,-1,1,1000,1060,- = none
card 0,shop1,4111111111111111,1; entry shop1,0000000000001111,0,1,1000,1060,- = none
card 9223372036854775807,shop1,4111111111111111,1; \
entry shop1,0000000000001111,9223372036854775807,1,1000,1060,- = none""",
    "Two card rows are counted apart": """\
sound; clear cards; entry shop1,1000000000001111,2,1,1000,1060,-; \
clear counts; count shop1,1,2
card 1,shop1,4111111111111111,1; card 2,shop1,4222222222261111,1 = none
card 1,shop1,4111111111111111,2; card 2,shop1,4222222222261111,0 = 13
card 1,shop1,4111111111111111,0; card 2,shop1,4222222222261111,2 = 13""",
}


def least(program, file, base, edits):
    """The least rule that a file breaks by these edits of a base, as a check says."""
    every = edits if base == "no rows" else f"{base}; {edits}"
    laid.make(file, every.replace("sound", SOUND))
    told = run(program, "check", file).said
    return "none" if told.startswith("sound ") else told.removeprefix("31 ")


def lines():
    """Each case with its base, its edits and its rule."""
    for name, text in CASES.items():
        for part in text.split("\n\n"):
            base, *rows = part.splitlines()
            for row in rows:
                yield name, base, *row.split(" = ")


def try_all(program, folder, tally):
    """Makes each file, and checks it."""

    def tried(numbered):
        place, (_, base, edits, _) = numbered
        return least(program, folder / f"bounds{place}.db", base, edits)

    every = list(lines())
    for (name, base, edits, rule), found in zip(every, side_by_side(tried, enumerate(every))):
        tally.judge(f"{name}: {base}: {edits}", unlike(found, rule), "files at the bounds of rules")
