#!/bin/sh
# Copies the rows of a vault into a new file, in which the program makes the tables. It brings back a file whose
# tables stand in another order than the program makes them, which `check` refuses by 33: one that was vacuumed,
# or restored from a dump. One of schema 1, 2 or 3, which `check` and `migrate` refuse by 30 with its version,
# comes back in the newest schema, 4. rebuild.sh OLD NEW [PROGRAM], where PROGRAM is `vault` if left out
#
# OLD keeps its rows, and no other program may have it open. NEW may not be there yet. It ends as `check NEW` does.
set -eu
if [ $# -lt 2 ]; then
    echo "rebuild.sh OLD NEW [PROGRAM]" >&2
    exit 2
fi
old=$1 new=$2 program=${3:-vault}
if [ ! -f "$old" ] || [ -e "$new" ]; then
    echo "rebuild: OLD has to be a file, and NEW may not be there yet" >&2
    exit 1
fi
quoted=$(printf '%s' "$old" | sed "s/'/''/g")
version=$(sqlite3 "$old" 'SELECT version FROM vault WHERE id = 1')
case $version in
1) # each number becomes a card of its merchant
    entries="INSERT INTO main.cards2 SELECT NULL, merchant, number, count(*) FROM old.entries
WHERE number IS NOT NULL GROUP BY merchant, number;
INSERT INTO main.entries2 SELECT e.merchant, token, c.id, usage, birth, expires, revoked
FROM old.entries e LEFT JOIN main.cards2 c ON c.merchant = e.merchant AND c.number = e.number;" ;;
2 | 3 | 4)
    entries="INSERT INTO main.entries SELECT * FROM old.entries;
INSERT INTO main.cards2 SELECT * FROM old.cards2;
INSERT INTO main.entries2 SELECT * FROM old.entries2;" ;;
*)
    echo "rebuild: OLD has the version $version, and only 1 to 4 are known here" >&2
    exit 1 ;;
esac
case $version in
1 | 2) # each merchant has the lead of six digits
    merchants="INSERT INTO main.merchants3
SELECT name, single_life, multi_life, moment, 6 FROM old.merchants;" ;;
*)
    merchants="INSERT INTO main.merchants SELECT * FROM old.merchants;
INSERT INTO main.merchants3 SELECT * FROM old.merchants3;" ;;
esac
case $version in
4)
    rights="INSERT INTO main.rights SELECT * FROM old.rights;
INSERT INTO main.rights4 SELECT * FROM old.rights4;" ;;
*) # no right has an end
    rights="INSERT INTO main.rights4 SELECT caller, merchant, what, NULL FROM old.rights;" ;;
esac
"$program" pipe "$new" < /dev/null
sqlite3 -bail "$new" > /dev/null <<END
ATTACH '$quoted' AS old;
BEGIN;
DELETE FROM main.vault;
INSERT INTO main.vault SELECT id, CASE id WHEN 1 THEN 4 ELSE version END FROM old.vault;
$merchants
INSERT INTO main.counts SELECT * FROM old.counts;
$entries
INSERT INTO main.records SELECT * FROM old.records;
$rights
COMMIT;
END
"$program" check "$new"
