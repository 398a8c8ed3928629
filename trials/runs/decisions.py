"""What commands are answered and change, by rows that SQL lays out in a file, also at the limits of counts.

Below a question stand the rows that differ after it, each by its key: a merchant has its lives, its lead, its
moment, and how many numbers were given and denied. No row means that nothing changed. A use, and a right
behind its merchant, stand there as their numbers."""

from pathlib import Path

from runs import scripts
from shared import laid, rows
from shared.runs import side_by_side
from shared.tally import unlike

VERSION = "version 1,4"
RIGHTS = "; ".join(f"right till-1,shop1,{right}" for right in range(1, 7))
# A vault with one shop, where `till-1` has all rights.
SHOP = f"{VERSION}; merchant shop1,60,0,1000; {RIGHTS}"
LATER = SHOP.replace("1000", "1060")
# A token of the shop: live, revoked at its birth, or purged then or by its end.
ENTRY = "count shop1,1,1; card 1,shop1,4111111111111111,1; entry shop1,0000000000001111,1,1,1000,1060"
LIVE, REVOKED = f"{SHOP}; {ENTRY},-", f"{SHOP}; {ENTRY},1000"
NUMBERLESS = "count shop1,1,1; entry shop1,0000000000001111,-,1,1000,1060"
PURGED, EXPIRED = f"{SHOP}; {NUMBERLESS},1000", f"{LATER}; {NUMBERLESS},-"
RECORD = "record till-1,7,shop1,0000000000001111,1"
# A merchant's counts of given and of denied numbers where they end.
GIVEN, DENIED = "count shop1,2,4611686018427387903", "count shop1,3,4611686018427387903"
# A shop for multi-use tokens with one token, which is single-use or multi-use.
SHARED = f"{VERSION}; merchant shop1,0,100,1000; {RIGHTS}; count shop1,1,1; card 1,shop1,1111111111110077,1"
SINGLE = f"{SHARED}; entry shop1,0000000000000077,1,1,1000,1100,-"
MULTI = f"{SHARED}; entry shop1,0000000000000077,1,2,1000,1100,-"
# All merchants but one.
MANY = "; ".join(f"merchant {number:05},60,0,1000" for number in range(1, 10000))


def without(layout, text):
    """A layout without the edits that hold a text."""
    return "; ".join(edit for edit in layout.split("; ") if text not in edit)


TAKEN = f"{without(SHOP, 'right').replace('60', '0')}; {NUMBERLESS},1000"
CASES = {
    "a new request gets a token, an entry and a record": (
        (SHOP, """\
tokenize till-1 shop1 7 single 4111111111111111 0 1000 = 0000000000001111 1060
entry shop1 0000000000001111 = 4111111111111111 1 1000 1060 -
record till-1 7 = shop1 0000000000001111 1"""),
    ),
    # no candidate is left for this number
    "the first refusal of a request for a token is answered": (
        (VERSION, "tokenize till-1 shop1 7 single 4111111111111111 0 1000 = refused 7"),
        (TAKEN, """\
tokenize till-1 shop1 7 single 4111111111111111 0 1000 = refused 8
grant till-1 shop1 tokenize 1000 = done
right till-1 shop1 1 = -
tokenize till-1 shop1 7 single 4111111111111111 0 1000 = refused 9
set shop1 60 0 1000 = done
merchant shop1 = 60 0 6 1000 0 0
tokenize till-1 shop1 7 single 4111111111111111 0 1000 = refused 12"""),
    ),
    "a repeat is answered its first token and changes nothing": (
        (f"{without(LIVE, 'right')}; {RECORD}", """\
tokenize till-1 shop1 7 single 4111111111111111 0 1000 = 0000000000001111 1060"""),
        (f"{without(EXPIRED, 'right')}; {RECORD}", """\
tokenize till-1 shop1 7 single 4111111111111111 0 1000 = 0000000000001111 1060
tokenize till-1 shop1 7 single 0000000000041111 0 1000 = 0000000000001111 1060"""),
    ),
    "a request number that stands for another request is refused": (
        (f"{without(LIVE, 'right')}; {RECORD}", """\
tokenize till-1 shop1 7 single 4222222222222 0 1000 = refused 10
tokenize till-1 shop1 7 single 0000000000041111 0 1000 = refused 10
tokenize till-1 shop2 7 single 4111111111111111 0 1000 = refused 10
tokenize till-1 shop1 7 multi 4111111111111111 0 1000 = refused 10"""),
        (f"{without(EXPIRED, 'right')}; {RECORD}", """\
tokenize till-1 shop1 7 single 4222222222222 0 1000 = refused 10"""),
    ),
    "a live multi-use token is given again without an entry": (
        (LIVE.replace("60,0,", "60,100,").replace("1,1,1000,1060", "1,2,1000,1100"), """\
tokenize till-1 shop1 7 multi 4111111111111111 1 1000 = 0000000000001111 1100
record till-1 7 = shop1 0000000000001111 2"""),
    ),
    "a clock that falls leaves the moment of the merchant": (
        (without(SHOP, "shop1,3").replace("1000", "2000"), """\
tokenize till-1 shop1 7 single 4111111111111111 0 1000 = 0000000000001111 2060
entry shop1 0000000000001111 = 4111111111111111 1 2000 2060 -
record till-1 7 = shop1 0000000000001111 1
grant till-1 shop1 view 1500 = done
right till-1 shop1 3 = -"""),
    ),
    "a set gives a merchant its lead, which no other command changes": (
        (without(SHOP, "shop1,3").replace("1000", "1000,8"), """\
tokenize till-1 shop1 7 single 4111111111111111 0 1000 = 0000000000001111 1060
entry shop1 0000000000001111 = 4111111111111111 1 1000 1060 -
record till-1 7 = shop1 0000000000001111 1
set shop1 60 0 1000 = done
merchant shop1 = 60 0 6 1000 0 0
set shop1 60 0 1000 8 = done
merchant shop1 = 60 0 8 1000 0 0
grant till-1 shop1 view 1500 1600 = done
merchant shop1 = 60 0 8 1500 0 0
right till-1 shop1 3 = 1600
grant till-1 shop1 view 1500 1499 = done
right till-1 shop1 3 = 1499
grant till-1 shop1 view 1500 = done
right till-1 shop1 3 = -
withdraw till-1 shop1 view 1500 = done
right till-1 shop1 3 = gone"""),
    ),
    "a vault has room for 10000 merchants": (
        (f"{VERSION}; {MANY}", """\
set shop1 60 0 1000 = done
merchant shop1 = 60 0 6 1000 0 0
set shop1 60 0 1000 = done"""),
        (f"{VERSION}; merchants 10000", "set shop1 60 0 1000 = refused 18"),
        (f"{SHOP}; {MANY}", """\
set last 60 0 1000 = refused 18
set shop1 50 0 1000 = done
merchant shop1 = 50 0 6 1000 0 0
check = sound 10000 0 0"""),
    ),
    "a count at its limit stops what it counts": (
        (f"{LIVE}; {GIVEN}", """\
detokenize till-1 shop1 0000000000001111 1000 = refused 11"""),
        (f"{LIVE}; {GIVEN[:-1]}2; {DENIED}", """\
detokenize till-1 shop1 0000000000001111 1060 = refused 11
detokenize till-1 shop1 0000000000001111 1000 = 4111111111111111
merchant shop1 = 60 0 6 1000 4611686018427387903 4611686018427387903"""),
        (f"{LIVE}; {GIVEN}; {DENIED[:-1]}2", """\
detokenize till-1 shop1 0000000000001111 1060 = refused 16
merchant shop1 = 60 0 6 1060 4611686018427387903 4611686018427387903"""),
    ),
    "the first reason of a denial is counted": (
        (LIVE, """\
detokenize till-1 shop1 0000000000001111 1070 = refused 16
merchant shop1 = 60 0 6 1070 0 1"""),
        (REVOKED, """\
detokenize till-1 shop1 0000000000001111 1070 = refused 15
merchant shop1 = 60 0 6 1070 0 1"""),
        (PURGED, """\
detokenize till-1 shop1 0000000000001111 1070 = refused 14
merchant shop1 = 60 0 6 1070 0 1"""),
        (SHOP, """\
detokenize till-1 shop1 0000000000001111 1070 = refused 13
merchant shop1 = 60 0 6 1070 0 1"""),
        (without(SHOP, "right"), """\
detokenize till-1 shop1 0000000000001111 1070 = refused 8
merchant shop1 = 60 0 6 1070 0 1"""),
        (VERSION, "detokenize till-1 shop1 0000000000001111 1070 = refused 7"),
    ),
    "a purged number is neither shown nor revoked": (
        (PURGED, """\
view till-1 shop1 0000000000001111 1000 = refused 14
revoke till-1 shop1 0000000000001111 1000 = refused 14"""),
    ),
    "a token stays revoked at the first moment": (
        (LIVE, """\
revoke till-1 shop1 0000000000001111 1030 = done
merchant shop1 = 60 0 6 1030 0 0
entry shop1 0000000000001111 = 4111111111111111 1 1000 1060 1030"""),
        (REVOKED, """\
revoke till-1 shop1 0000000000001111 1030 = done
merchant shop1 = 60 0 6 1030 0 0"""),
    ),
    "a token is purged once it is revoked, and stays taken": (
        (f"{LIVE}; {RECORD}", """\
purge till-1 shop1 0000000000001111 1059 = refused 17
revoke till-1 shop1 0000000000001111 1059 = done
merchant shop1 = 60 0 6 1059 0 0
entry shop1 0000000000001111 = 4111111111111111 1 1000 1060 1059
purge till-1 shop1 0000000000001111 1059 = done
entry shop1 0000000000001111 = - 1 1000 1060 1059
detokenize till-1 shop1 0000000000001111 1059 = refused 14
merchant shop1 = 60 0 6 1059 0 1
purge till-1 shop1 0000000000001111 1061 = done
merchant shop1 = 60 0 6 1061 0 1
tokenize till-1 shop1 7 single 4111111111111111 0 1000 = 0000000000001111 1060
tokenize till-1 shop1 7 single 0000000000041111 0 1000 = 0000000000001111 1060
tokenize till-1 shop1 7 single 4222222222222 0 1000 = refused 10"""),
    ),
    "a token is purged once it has expired": (
        (LIVE, """\
purge till-1 shop1 0000000000001111 1065 = done
merchant shop1 = 60 0 6 1065 0 0
entry shop1 0000000000001111 = - 1 1000 1060 -"""),
        (f"{SHOP.replace('1000', '1020')}; {ENTRY.replace('1000,1060', '1020,1080')},1020", """\
purge till-1 shop1 0000000000001111 1065 = done
merchant shop1 = 60 0 6 1065 0 0
entry shop1 0000000000001111 = - 1 1020 1080 1020"""),
        (f"{SHOP.replace('1000', '1010')}; {ENTRY.replace('1000,1060', '1010,1070')},-", """\
purge till-1 shop1 0000000000001111 1065 = refused 17
detokenize till-1 shop1 0000000000001111 1065 = 4111111111111111
merchant shop1 = 60 0 6 1065 1 0"""),
    ),
    "the first refusal of a purge is answered and not counted": (
        (VERSION, "purge till-1 shop1 0000000000001111 1059 = refused 7"),
        (without(LIVE, "right"), "purge till-1 shop1 0000000000001111 1059 = refused 8"),
        (SHOP, "purge till-1 shop1 0000000000001111 1059 = refused 13"),
    ),
    "an entry has one state at a moment": (
        (LIVE, """\
view till-1 shop1 0000000000001111 1059 = 411111******1111 single 1000 1060 live
view till-1 shop1 0000000000001111 1060 = 411111******1111 single 1000 1060 expired"""),
        (REVOKED, """\
view till-1 shop1 0000000000001111 1059 = 411111******1111 single 1000 1060 revoked
view till-1 shop1 0000000000001111 1060 = 411111******1111 single 1000 1060 revoked"""),
        (PURGED, "view till-1 shop1 0000000000001111 1059 = refused 14"),
    ),
    "a number's own multi-use token is found": (
        (SINGLE, """\
tokenize till-1 shop1 1 multi 1111111111110077 3 1050 = 3333333333330077 1150
merchant shop1 = 0 100 6 1050 0 0
entry shop1 3333333333330077 = 1111111111110077 2 1050 1150 -
record till-1 1 = shop1 3333333333330077 2
tokenize till-1 shop1 2 multi 1111111111110085 3 1050 = 3333333333330085 1150
entry shop1 3333333333330085 = 1111111111110085 2 1050 1150 -
record till-1 2 = shop1 3333333333330085 2"""),
        (MULTI, """\
tokenize till-1 shop1 1 multi 1111111111110077 3 1050 = 0000000000000077 1100
merchant shop1 = 0 100 6 1050 0 0
record till-1 1 = shop1 0000000000000077 2
tokenize till-1 shop1 2 multi 1111111111110085 3 1050 = 3333333333330085 1150
entry shop1 3333333333330085 = 1111111111110085 2 1050 1150 -
record till-1 2 = shop1 3333333333330085 2"""),
    ),
}
KINDS = ("merchant", "entry", "record", "right")


def questions(text):
    """The questions of a text, each with its answer and the rows below it."""
    found = []
    for line in text.splitlines():
        if line.startswith(KINDS):
            found[-1][2].append(line)
        else:
            found.append((*line.split(" = "), []))
    return found


def words(row):
    """A row or its key in words."""
    return "gone" if row is None else " ".join("-" if it is None else str(it) for it in row)


def differing(before, after):
    """The rows that aren't those from before, in words."""
    keys = (key for key in before.keys() | after.keys() if before.get(key) != after.get(key))
    return sorted(f"{words(key)} = {words(after.get(key))}" for key in keys)


def faults(program, file, layout, text):
    """The questions to a layout, which follow one another, each with its fault if it has one."""
    laid.make(file, layout)
    after = rows.read(file)[1]
    found = []
    for question, *wanted, changes in questions(text):
        before, told = after, list(scripts.answers(program, file, [question]))
        after = rows.read(file)[1]
        told.append(differing(before, after))
        found.append((question, unlike(told, [*wanted, sorted(changes)])))
    return found


def judged(tally, program):
    """Each layout has a file of its own."""
    Path("decisions").mkdir()
    every = [(name, *part) for name, parts in CASES.items() for part in parts]

    def tried(numbered):
        place, (_, layout, text) = numbered
        return faults(program, f"decisions/{place}.db", layout, text)

    for (name, *_), found in zip(every, side_by_side(tried, enumerate(every))):
        for question, fault in found:
            tally.judge(f"{name}: {question}", fault)
