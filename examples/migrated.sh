#!/bin/sh
# Files of schemas 1 to 3, as programs before made them: they are refused until they move to the newest
# schema, and move whole or not at all. sh examples/migrated.sh [PROGRAM]
set -eu
. "$(dirname "$0")/shared/steps.sh"
need sqlite3
need python3

# The tables that came with a schema, as the programs that had it made them.
tables_of() {
    python3 "$here/../trials/shared/schemas.py" "$1" "$1"
}

# Makes a file with the tables of schema 1.
make_older() {
    sqlite3 -bail "$1" "$(tables_of 1) INSERT INTO vault VALUES (1, 1);"
}

# Two merchants: a number under two tokens of the one and a token of the other, and a purged entry.
make_older shops.db
sqlite3 -bail shops.db <<'END'
INSERT INTO merchants VALUES ('shop1', 60, 0, 1000), ('shop2', 60, 0, 1000);
INSERT INTO counts VALUES ('shop1', 1, 3), ('shop2', 1, 1);
INSERT INTO entries VALUES ('shop1', '0000000000001111', '4111111111111111', 1, 1000, 1060, NULL),
('shop1', '1111111111111111', '4111111111111111', 1, 1000, 1060, NULL),
('shop1', '2222222222221111', NULL, 1, 1000, 1060, 1000),
('shop2', '1111111111111111', '4111111111111111', 1, 1000, 1060, NULL);
INSERT INTO records VALUES ('till-1', 7, 'shop1', '0000000000001111', 1), ('till-1', 8, 'shop1', '1111111111111111', 1),
('till-1', 9, 'shop1', '2222222222221111', 1), ('till-1', 10, 'shop2', '1111111111111111', 1);
INSERT INTO rights VALUES ('till-1', 'shop1', 1), ('back', 'shop1', 5);
END

# Statements of SQL over a copy of that file, and what moving it says then.
changed() {
    copy shops.db changed.db
    sqlite3 changed.db "$1"
    told "$program" migrate changed.db
}

# The merchants of a file's cards, each with its uses.
uses() {
    sqlite3 -separator ' ' -newline ';' "$1" 'SELECT merchant, uses FROM cards2 ORDER BY merchant'
}

# The merchants of a file with their leads.
leads() {
    sqlite3 -separator ' ' -newline ';' "$1" 'SELECT name, lead_digits FROM merchants3 ORDER BY name'
}

# How many rights a file has, and how many of them have an end.
ends() {
    sqlite3 -separator ' ' "$1" 'SELECT count(*), count(ends) FROM rights4'
}

cp shops.db vault.db
chmod 640 vault.db
step "a file of schema 1 isn't sound as it is" 'vault: file not opened 30 1 (3)' "$(checked vault.db)"
step "nor does a service open it" 'vault: file not opened 30 1 (3)' "$(told "$program" pipe vault.db)"
step "it moves" 'schema 4 (0)' "$(told "$program" migrate vault.db)"
step "with its mode" '640' "$(stat -c %a vault.db)"
step "it is sound" 'sound 2 4 4 (0)' "$(checked vault.db)"
step "each number stands once a merchant" 'shop1 4111111111111111 2;shop2 4111111111111111 1;' \
    "$(sqlite3 -separator ' ' -newline ';' vault.db 'SELECT merchant, number, uses FROM cards2 ORDER BY merchant')"
step "the purged entry has no card" '2222222222221111' \
    "$(sqlite3 vault.db 'SELECT token FROM entries2 WHERE card IS NULL')"
step "the old tables are empty" '0 0 0' "$(sqlite3 -separator ' ' vault.db \
    'SELECT (SELECT count(*) FROM entries), (SELECT count(*) FROM merchants), (SELECT count(*) FROM rights)')"
step "each merchant has the lead of six digits" 'shop1 6;shop2 6;' "$(leads vault.db)"
step "and no right has an end" '2 0' "$(ends vault.db)"
sqlite3 vault.db .dump > before
step "it moves no further" 'schema 4 (0)' "$(told "$program" migrate vault.db)"
sqlite3 vault.db .dump > after
step "and nothing of it changes" 'same' "$(cmp -s before after && echo same || echo other)"
"$program" pipe --now 1001 --digits 5 vault.db < "$here/first-token.http" > answer
step "a request is answered as before" '{"expires":1060,"token":"0000000000001111"}' "$(tail -n 1 answer)"

# The cards go with the last entry that points at them.
printf 'DELETE /v1/merchants/shop1/tokens/0000000000001111 HTTP/1.1\r\nX-Vault-Caller: back\r\n\r\n' > message
"$program" pipe --now 1060 vault.db < message > answer
step "a dead token is purged" '{"done":true}' "$(tail -n 1 answer)"
step "and its card has one use less" '1' "$(sqlite3 vault.db "SELECT uses FROM cards2 WHERE merchant = 'shop1'")"
step "the other one is swept" 'purged 1 (0)' "$(told "$program" sweep --now 1060 vault.db back shop1)"
step "and its card is gone" '0' "$(sqlite3 vault.db "SELECT count(*) FROM cards2 WHERE merchant = 'shop1'")"
step "the file is sound" 'sound 2 4 4 (0)' "$(checked vault.db)"

# What doesn't move stays as it is.
step "a birth behind the merchant's moment" 'vault: file not opened 31 7 (3)' \
    "$(changed "UPDATE entries SET birth = 1001, expires = 1061 WHERE token = '0000000000001111'")"
step "it stays in schema 1" '1 4' \
    "$(sqlite3 -separator ' ' changed.db 'SELECT version, (SELECT count(*) FROM entries) FROM vault')"
step "a count that isn't that of the entries" 'vault: file not opened 31 10 (3)' \
    "$(changed "UPDATE counts SET total = 2 WHERE merchant = 'shop1'")"
step "a version that isn't its schema's" 'vault: file not opened 30 7 (3)' "$(changed 'UPDATE vault SET version = 7')"
step "no version" 'vault: file not opened 31 1 (3)' "$(changed 'DELETE FROM vault')"
step "a table is missing" 'vault: file not opened 30 1 (3)' "$(changed 'DROP TABLE rights')"
step "tables in another order" 'vault: file not opened 30 1 (3)' "$(changed 'VACUUM')"
step "its rows are brought back, and moved" 'sound 2 4 4 (0)' \
    "$(told sh "$here/rebuild.sh" changed.db rebuilt.db "$program")"
step "with each number once a merchant" 'shop1 2;shop2 1;' "$(uses rebuilt.db)"
step "another program's file" 'vault: file not opened 33 (3)' \
    "$(sqlite3 other.db 'CREATE TABLE notes (line TEXT)' && told "$program" migrate other.db)"
step "a folder" "vault: file not opened 34|vault: FILE or its log can't be opened (3)" "$(told "$program" migrate .)"
made='vault: there was no vault in FILE, and an empty one is made'
step "a file that isn't there is made in the newest schema" "schema 4|$made (0)" \
    "$(told "$program" migrate new.db)"
step "for its owner alone" '600' "$(stat -c %a new.db)"
step "as the empty vault" 'sound 0 0 0 (0)' "$(checked new.db)"

# The same shops as programs of schemas 2 and 3 left them.
cp shops.db shops2.db
sqlite3 -bail shops2.db <<END
$(tables_of 2)
INSERT INTO cards2 SELECT NULL, merchant, number, count(*) FROM entries
WHERE number IS NOT NULL GROUP BY merchant, number;
INSERT INTO entries2 SELECT e.merchant, token, c.id, usage, birth, expires, revoked
FROM entries e LEFT JOIN cards2 c ON c.merchant = e.merchant AND c.number = e.number;
DELETE FROM entries;
UPDATE vault SET version = 2;
END
cp shops2.db shops3.db
sqlite3 -bail shops3.db <<END
$(tables_of 3)
INSERT INTO merchants3 SELECT name, single_life, multi_life, moment, CASE name WHEN 'shop1' THEN 8 ELSE 6 END
FROM merchants;
DELETE FROM merchants;
UPDATE vault SET version = 3;
END
for version in 2 3; do
    copy "shops$version.db" vault.db
    step "a file of schema $version isn't opened" "vault: file not opened 30 $version (3)" \
        "$(checked vault.db)"
    step "it moves" 'schema 4 (0)' "$(told "$program" migrate vault.db)"
    step "it is sound" 'sound 2 4 4 (0)' "$(checked vault.db)"
    step "each number still stands once a merchant" 'shop1 2;shop2 1;' "$(uses vault.db)"
    lead=$([ "$version" = 2 ] && echo 6 || echo 8)
    step "its merchants have their leads" "shop1 $lead;shop2 6;" "$(leads vault.db)"
    step "and no right has an end" '2 0' "$(ends vault.db)"
    cp "shops$version.db" "vacuumed$version.db"
    sqlite3 "vacuumed$version.db" VACUUM
    step "vacuumed, it doesn't move" "vault: file not opened 30 $version (3)" \
        "$(told "$program" migrate "vacuumed$version.db")"
    step "but its rows are brought back" 'sound 2 4 4 (0)' \
        "$(told sh "$here/rebuild.sh" "vacuumed$version.db" "rebuilt$version.db" "$program")"
    step "with their leads" "shop1 $lead;shop2 6;" "$(leads "rebuilt$version.db")"
done

# A move that is killed at some moment: the file is in one schema or another, whole, and goes on from there.
make_older large.db
sqlite3 -bail large.db <<'END'
INSERT INTO merchants VALUES ('shop1', 60, 0, 1000);
INSERT INTO counts VALUES ('shop1', 1, 2000);
WITH RECURSIVE n(i) AS (SELECT 0 UNION ALL SELECT i + 1 FROM n WHERE i < 2999)
INSERT INTO entries SELECT 'shop1', printf('%012d1111', i), '4111111111111111', 1, 1000, 1060, NULL FROM n
-- no token passes the card check
WHERE (6 + i % 10 + i / 10 % 10 * 2 / 10 + i / 10 % 10 * 2 % 10 + i / 100 % 10 + i / 1000 * 2) % 10 <> 0 LIMIT 2000;
END
for wait in 0.05 0.1 0.2 0.4 0.8; do
    copy large.db killed.db
    "$program" migrate killed.db > /dev/null 2>&1 &
    sleep "$wait"
    kill -9 $! 2> /dev/null || true
    wait $! 2> /dev/null || true
    case $(checked killed.db) in
    'vault: file not opened 30 '[123]' (3)' | 'sound 1 2000 0 (0)') found=whole ;;
    *) found=broken ;;
    esac
    step "killed after $wait seconds" 'whole' "$found"
    step "it goes on" 'schema 4 (0)' "$(told "$program" migrate killed.db)"
    step "and is sound" 'sound 1 2000 0 (0)' "$(checked killed.db)"
done
end
