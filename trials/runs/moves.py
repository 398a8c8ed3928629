"""Files of schemas 1 to 3 as older programs left them: refused until they move, and then with their rows."""

import functools
import sqlite3

from runs import scripts
from shared import schemas

# The rows of two merchants in schema 1: a number under two tokens of the one and a token of the other, and a
# purged entry.
ROWS = """\
INSERT INTO vault VALUES (1, 1);
INSERT INTO merchants VALUES ('shop1', 60, 0, 1000), ('shop2', 60, 0, 1000);
INSERT INTO counts VALUES ('shop1', 1, 3), ('shop1', 2, 5), ('shop1', 3, 2), ('shop2', 1, 1);
INSERT INTO entries VALUES ('shop1', '0000000000001111', '4111111111111111', 1, 1000, 1060, NULL),
('shop1', '1111111111111111', '4111111111111111', 1, 1000, 1060, NULL),
('shop1', '2222222222221111', NULL, 1, 1000, 1060, 1000),
('shop2', '1111111111111111', '4111111111111111', 1, 1000, 1060, NULL);
INSERT INTO records VALUES ('till-1', 1, 'shop1', '0000000000001111', 1),
('till-1', 2, 'shop1', '1111111111111111', 1), ('till-1', 3, 'shop1', '2222222222221111', 1),
('till-1', 4, 'shop2', '1111111111111111', 1);
INSERT INTO rights VALUES ('till-1', 'shop1', 3), ('till-1', 'shop1', 5);"""
# The same in the tables of schema 2, and in those of schema 3.
CARDS = """\
INSERT INTO cards2 VALUES (1, 'shop1', '4111111111111111', 2), (2, 'shop2', '4111111111111111', 1);
INSERT INTO entries2 VALUES ('shop1', '0000000000001111', 1, 1, 1000, 1060, NULL),
('shop1', '1111111111111111', 1, 1, 1000, 1060, NULL),
('shop1', '2222222222221111', NULL, 1, 1000, 1060, 1000),
('shop2', '1111111111111111', 2, 1, 1000, 1060, NULL);
DELETE FROM entries;
UPDATE vault SET version = 2 WHERE id = 1;"""
LEADS = """\
INSERT INTO merchants3 SELECT name, single_life, multi_life, moment, 6 FROM merchants;
DELETE FROM merchants;
UPDATE vault SET version = 3 WHERE id = 1;"""
# Cases by the schema that their files have.
CASES = {
    1: {
        "each number stands once a merchant after the move": """\
check = 30 1
pipe = 30 1
migrate = schema 4
check = sound 2 4 4
number SELECT uses FROM cards2 WHERE merchant = 'shop1' = 2
number SELECT uses FROM cards2 WHERE merchant = 'shop2' = 1
number SELECT count(*) FROM entries = 0
number SELECT count(*) FROM entries2 WHERE card IS NULL = 1
number SELECT count(*) FROM merchants = 0
number SELECT count(*) FROM merchants3 WHERE lead_digits = 6 = 2
number SELECT count(*) FROM rights = 0
number SELECT count(*) FROM rights4 WHERE ends IS NULL = 2
migrate = schema 4
check = sound 2 4 4
number SELECT total FROM counts WHERE merchant = 'shop1' AND kind = 2 = 5
number SELECT total FROM counts WHERE merchant = 'shop1' AND kind = 3 = 2
view till-1 shop1 0000000000001111 1000 = 411111******1111 single 1000 1060 live
tokenize till-1 shop1 1 single 4111111111111111 5 1001 = 0000000000001111 1060
purge till-1 shop1 0000000000001111 1060 = done
number SELECT uses FROM cards2 WHERE merchant = 'shop1' = 1
purge till-1 shop1 1111111111111111 1060 = done
number SELECT uses FROM cards2 WHERE merchant = 'shop1' = none
check = sound 2 4 4""",
        "a damaged file of schema 1 stays as it is": """\
run UPDATE entries SET birth = 1001 WHERE token = '0000000000001111' = changed
migrate = 31 7
run UPDATE vault SET version = 7 = changed
migrate = 30 7
number SELECT count(*) FROM entries = 4""",
    },
    2: {
        "a file of schema 2 moves": """\
check = 30 2
migrate = schema 4
check = sound 2 4 4
number SELECT count(*) FROM merchants3 WHERE lead_digits = 6 = 2""",
    },
    3: {
        "a file of schema 3 moves with its leads": """\
check = 30 3
run UPDATE merchants3 SET lead_digits = 7 WHERE name = 'shop2' = changed
migrate = 31 14
run UPDATE merchants3 SET lead_digits = 8 WHERE name = 'shop2' = changed
migrate = schema 4
check = sound 2 4 4
number SELECT lead_digits FROM merchants3 WHERE name = 'shop2' = 8
number SELECT count(*) FROM rights4 WHERE ends IS NULL = 2""",
    },
}


def make(version, file):
    """Makes a file of a schema as its program left it: schema by schema."""
    conn = sqlite3.connect(file, isolation_level=None)
    try:
        for tables, rows in zip(schemas.STEPS[:version], (ROWS, CARDS, LEADS)):
            conn.executescript(tables + rows)
    finally:
        conn.close()


def judged(tally, program):
    """Each case has a file of its own."""
    for version, cases in CASES.items():
        scripts.judge_each(tally, program, f"moves-{version}", cases, functools.partial(make, version))
