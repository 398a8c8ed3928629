"""The table of changed files: SQL over a vault, each rule broken once or more, and what `check` says."""

from damage import base, rows, rules
from shared.files import copied
from shared.runs import run, side_by_side
from shared.schemas import FOREIGN, tables

FIRST = "'0000000000001111'"
# The columns of rights without an end, and what makes the table of counts.
WITHOUT_END = tables(1).split("CREATE TABLE rights (")[1].split(") STRICT")[0]
COUNTS = next(it for it in tables(1).splitlines() if "TABLE counts" in it).removesuffix(";")

# What `check` has to say, and a change that it is said of.
CHANGES = (
    ("31 1", "INSERT INTO vault VALUES (2, 4)"),
    ("31 1", "DELETE FROM vault"),
    ("31 1", "UPDATE vault SET id = 2"),
    ("31 1", "INSERT INTO merchants VALUES ('shop1', 60, 100, 1000)"),
    ("31 1", f"INSERT INTO entries VALUES ('shop1', {FIRST}, NULL, 1, 1000, 1060, NULL)"),
    ("31 1", "INSERT INTO rights VALUES ('till-1', 'shop1', 1)"),
    ("31 2", "UPDATE merchants3 SET name = 'Shop1'"),
    ("31 2", "INSERT INTO merchants3 VALUES ('', 0, 0, 0, 6)"),
    ("31 2", "INSERT INTO merchants3 VALUES ('abcdefghijklmnopq', 0, 0, 0, 6)"),
    ("31 2", "WITH RECURSIVE n(i) AS (SELECT 0 UNION ALL SELECT i + 1 FROM n WHERE i < 9999)"
             " INSERT INTO merchants3 SELECT 'm' || i, 0, 0, 0, 6 FROM n"),
    ("31 3", "UPDATE merchants3 SET single_life = 3155760001"),
    ("31 3", "UPDATE merchants3 SET multi_life = -1"),
    ("31 3", "UPDATE merchants3 SET moment = 253402300800"),
    ("31 3", "INSERT INTO merchants3 VALUES ('shop2', 0, 0, -1, 6)"),
    ("31 4", "UPDATE counts SET kind = 4"),
    ("31 4", "DELETE FROM merchants3"),
    ("31 4", "INSERT INTO counts VALUES ('shop1', 2, 0)"),
    ("31 4", "INSERT INTO counts VALUES ('shop1', 3, 4611686018427387904)"),
    ("31 4", "INSERT INTO counts VALUES ('shop2', 2, 1)"),
    ("31 5", f"UPDATE entries2 SET token = '4111111111111111' WHERE token = {FIRST}"),
    ("31 5", f"UPDATE entries2 SET token = '000000000' WHERE token = {FIRST}"),
    ("31 5", f"UPDATE entries2 SET merchant = 'shop2' WHERE token = {FIRST}"),
    ("31 6", f"UPDATE entries2 SET token = '00000000000001111' WHERE token = {FIRST}"),
    ("31 6", f"UPDATE entries2 SET token = '0000000000001112' WHERE token = {FIRST}"),
    ("31 6", "UPDATE cards2 SET number = '4111111111111112'"),
    ("31 6", "UPDATE cards2 SET number = '4222222222222'"),
    ("31 7", f"UPDATE entries2 SET birth = 1001 WHERE token = {FIRST}"),
    ("31 7", f"UPDATE entries2 SET birth = -1 WHERE token = {FIRST}"),
    ("31 7", f"UPDATE entries2 SET expires = 1000 WHERE token = {FIRST}"),
    ("31 7", f"UPDATE entries2 SET expires = 3155761001 WHERE token = {FIRST}"),
    ("31 7", f"UPDATE entries2 SET revoked = 999 WHERE token = {FIRST}"),
    ("31 7", f"UPDATE entries2 SET revoked = 1001 WHERE token = {FIRST}"),
    ("31 7", f"UPDATE entries2 SET usage = 3 WHERE token = {FIRST}"),
    ("31 8", f"UPDATE entries2 SET card = NULL WHERE token = {FIRST}"),
    ("31 9", f"UPDATE entries2 SET usage = 2 WHERE token = {FIRST}"),
    ("31 10", "UPDATE counts SET total = 3"),
    ("31 10", "UPDATE counts SET kind = 2"),
    ("31 10", "DELETE FROM counts"),
    ("31 10", "UPDATE counts SET total = 3; UPDATE records SET usage = 2 WHERE request = 7"),
    ("31 10", f"DELETE FROM entries2 WHERE token = {FIRST}"),
    ("31 11", "UPDATE records SET usage = 2 WHERE request = 7"),
    ("31 11", "UPDATE records SET caller = 'Till-1' WHERE request = 7"),
    ("31 11", "UPDATE records SET request = 0 WHERE request = 7"),
    ("31 11", "UPDATE records SET merchant = 'shop2' WHERE request = 7"),
    ("31 11", "UPDATE records SET token = '0000000000000000' WHERE request = 7"),
    ("31 12", "UPDATE rights4 SET what = 7"),
    ("31 12", "UPDATE rights4 SET what = 0"),
    ("31 12", "UPDATE rights4 SET caller = 'till_1'"),
    ("31 12", "UPDATE rights4 SET merchant = 'shop2'"),
    ("31 13", "UPDATE cards2 SET uses = 3"),
    ("31 13", "INSERT INTO cards2 VALUES (9, 'shop1', '4222222222222', 0)"),
    ("31 13", "INSERT INTO cards2 VALUES (9, 'shop2', '4222222222222', 1)"),
    ("31 13", f"UPDATE entries2 SET card = 9 WHERE token = {FIRST}"),
    ("31 13", f"UPDATE entries2 SET card = card + 1 WHERE token = {FIRST}"),
    ("31 13", "DELETE FROM cards2"),
    ("31 13", "UPDATE cards2 SET merchant = 'shop2'"),
    ("31 14", "UPDATE merchants3 SET lead_digits = 7"),
    ("31 14", "UPDATE merchants3 SET lead_digits = 0"),
    ("31 14", "INSERT INTO merchants3 VALUES ('shop2', 60, 0, 1000, 7)"),
    ("31 14", "UPDATE merchants3 SET lead_digits = 7; UPDATE rights4 SET ends = -1"),
    ("31 15", "UPDATE rights4 SET ends = -1"),
    ("31 15", "UPDATE rights4 SET ends = 253402300800"),
    ("sound 1 2 2", "UPDATE rights4 SET ends = 0"),
    ("sound 1 2 2", "UPDATE rights4 SET ends = 253402300799"),
    ("sound 1 2 2", "UPDATE merchants3 SET lead_digits = 8, multi_life = 0, single_life = 3155760000"),
    ("sound 1 2 2", f"UPDATE entries2 SET revoked = 1000 WHERE token = {FIRST}"),
    ("sound 1 2 2", "INSERT INTO counts VALUES ('shop1', 2, 4611686018427387903)"),
    ("sound 1 2 1", "DELETE FROM records WHERE request = 7"),
    ("sound 1 2 2", "DELETE FROM rights4"),
    ("30 3", "UPDATE vault SET version = 3"),
    ("30 5", "UPDATE vault SET version = 5"),
    ("30 -1", "UPDATE vault SET version = -1"),
    ("30 1", f"UPDATE vault SET version = 1; {FOREIGN}"),
    ("30 1", "UPDATE vault SET version = 1; DROP INDEX entries_number; DROP TABLE merchants"),
    ("30 5", "UPDATE vault SET version = 5; DROP TABLE records"),
    ("30 0", "DELETE FROM vault; DROP TABLE rights"),
    ("30 0", FOREIGN),
    ("30 0", "CREATE INDEX by_token ON records (token)"),
    ("30 0", "DROP INDEX entries2_card"),
    ("33", f"DROP TABLE rights; CREATE TABLE RIGHTS ({WITHOUT_END}) STRICT"),
    ("33", f"DROP TABLE rights4; CREATE TABLE rights4 ({WITHOUT_END}) STRICT"),
    # the table stands behind the others then
    ("33", f"DROP TABLE counts; {COUNTS}"),
    ("33", "VACUUM"),
)


def fault_of(program, file, wanted):
    """What is wrong with what `check` says of a changed file, and with whether it opens."""
    ran = run(program, "check", file)
    if ran.broke or ran.said != wanted:
        return f"wanted {wanted}, but came {ran}"
    opened = run(program, "pipe", file)
    if opened.said != ("" if wanted.startswith("sound") else wanted):
        return f"a check says {wanted}, but opened it is {opened}"
    ruled = rules.least_broken(found) if (found := rows.read(file)) else None
    if wanted.startswith("31 ") and ruled != int(wanted[3:]):
        return f"the trial's own rules say {ruled}, and the program {wanted}"
    return ""


def try_all(program, folder, tally):
    """Tries each change over a copy of one file."""
    made = folder / "made.db"
    base.make_small(program, made)
    tally.judge("the file before", fault_of(program, made, "sound 1 2 2"), "sound before it is changed")

    def tried(numbered):
        place, (wanted, change) = numbered
        file = folder / f"changed{place}.db"
        copied(made, file)
        rows.change(file, *change.split("; "))
        return fault_of(program, file, wanted)

    for (wanted, change), fault in zip(CHANGES, side_by_side(tried, enumerate(CHANGES))):
        tally.judge(change, fault, f"{wanted.rsplit(' 1 ')[0]} as it should")
    other = folder / "other.db"
    rows.change(other, FOREIGN)
    tally.judge("another program's file", fault_of(program, other, "33"), "33 as it should")
