#!/bin/sh
# Files that another program copied, changed or laid out anew, and what `check` says of them; those with a
# vault's rows in tables of another order are brought back by rebuild.sh. sh examples/rebuilt.sh [PROGRAM]
set -eu
. "$(dirname "$0")/shared/steps.sh"
need sqlite3

# Statements of SQL over a backup of the shop's file, and what the check says of it then.
changed() {
    copy backup.db changed.db
    sqlite3 changed.db "$1"
    checked changed.db
}

"$program" merchant shop.db shop1 86400 0 > /dev/null
"$program" grant shop.db till-1 shop1 tokenize > /dev/null
printf 'request,number,use\n1,4111111111111111,single\n2,4222222222222,single\n3,4111111111111111,single\n' > rows.csv
"$program" batch shop.db till-1 shop1 < rows.csv > lines.csv
step "a shop's file" 'sound 1 3 3 (0)' "$(checked shop.db)"

# Copies need nothing.
cp shop.db copied.db
cp shop.db-wal copied.db-wal
step "a copy" 'sound 1 3 3 (0)' "$(checked copied.db)"
sqlite3 shop.db ".backup backup.db"
step "a backup by sqlite3" 'sound 1 3 3 (0)' "$(checked backup.db)"

# Tables in another order
sqlite3 shop.db .dump > dump.sql
sqlite3 restored.db < dump.sql
step "a file restored from a dump" 'vault: file not opened 33 (3)' "$(checked restored.db)"
step "it is brought back" 'sound 1 3 3 (0)' "$(told sh "$here/rebuild.sh" restored.db first.db "$program")"
step "a file that was vacuumed" 'vault: file not opened 33 (3)' "$(changed 'VACUUM')"
step "it is brought back" 'sound 1 3 3 (0)' "$(told sh "$here/rebuild.sh" changed.db second.db "$program")"
"$program" batch second.db till-1 shop1 < rows.csv > again.csv
step "a batch that is sent again has the same lines" 'same' "$(cmp -s lines.csv again.csv && echo same || echo other)"
step "what is there isn't overwritten" 'rebuild: *(1)' \
    "$(told sh "$here/rebuild.sh" changed.db second.db "$program")"
step "a table in another form" 'vault: file not opened 33 (3)' \
    "$(changed 'DROP TABLE rights4; CREATE TABLE rights4 (caller TEXT, merchant TEXT, what INTEGER,
ends INTEGER, PRIMARY KEY (caller, merchant, what))')"

# Names that are missing, and others beside them
step "a table more" 'vault: file not opened 30 0 (3)' "$(changed 'CREATE TABLE notes (line TEXT)')"
step "an index more" 'vault: file not opened 30 0 (3)' "$(changed 'CREATE INDEX by_token ON records (token)')"
step "a view more" 'vault: file not opened 30 0 (3)' "$(changed 'CREATE VIEW tokens AS SELECT token FROM entries2')"
step "a table is missing" 'vault: file not opened 30 0 (3)' "$(changed 'DROP TABLE rights4')"
step "an index is missing" 'vault: file not opened 30 0 (3)' "$(changed 'DROP INDEX entries2_card')"
step "another program's file" 'vault: file not opened 33 (3)' \
    "$(sqlite3 other.db 'CREATE TABLE notes (line TEXT)' && checked other.db)"

# Versions
for version in 1 2 3 9 -1; do
    step "version $version" "vault: file not opened 30 $version (3)" \
        "$(changed "UPDATE vault SET version = $version")"
done
step "version 9, and a table is missing" 'vault: file not opened 30 9 (3)' \
    "$(changed 'UPDATE vault SET version = 9; DROP TABLE rights4')"
step "version 5, and a table more" 'vault: file not opened 30 5 (3)' \
    "$(changed 'UPDATE vault SET version = 5; CREATE TABLE notes (line TEXT)')"
step "version 5, vacuumed" 'vault: file not opened 30 5 (3)' \
    "$(changed 'UPDATE vault SET version = 5; VACUUM')"
step "no version, and a table is missing" 'vault: file not opened 30 0 (3)' \
    "$(changed 'DELETE FROM vault; DROP TABLE rights4')"
step "no version" 'vault: file not opened 31 1 (3)' "$(changed 'DELETE FROM vault')"
end
