#!/bin/sh
# The exit statuses of the program with their lines, the modes of the files that it makes, and a service that
# is killed. sh examples/statuses.sh [PROGRAM]
set -eu
. "$(dirname "$0")/shared/steps.sh"
need curl

# What a command says on standard error, with standard output where nothing can be written.
told_full() {
    code=0
    "$@" > /dev/full 2> told.err || code=$?
    echo "$(cat told.err) ($code)"
}

# The permissions of a file.
mode() {
    ls -l "$1" | cut -c 1-10
}

# 0
step "0: a file that isn't there" 'sound 0 0 0 (0)' "$(checked new.db)"
step "0: and still isn't" 'no' "$([ -e new.db ] && echo yes || echo no)"
: > blank.db
step "0: a file without a byte" 'sound 0 0 0 (0)' "$(checked blank.db)"
step "0: which isn't written, and gets no log" 'blank.db 0' "$(echo blank.db*) $(wc -c < blank.db)"
made='vault: there was no vault in FILE, and an empty one is made'
step "0: it is made" "schema 4|$made (0)" "$(told "$program" migrate new.db)"
step "0: and then it is there" 'schema 4 (0)' "$(told "$program" migrate new.db)"
step "0: help" 'Keeps card numbers*' "$(told "$program" help)"
step "0: the version" 'vault 0.4.0, schema 4 (0)' "$(told "$program" --version)"
step "0: a merchant" 'done (0)' "$(told "$program" merchant shop.db shop1 86400 0)"
step "0: a right" 'done (0)' "$(told "$program" grant shop.db till-1 shop1 tokenize)"
step "0: a merchant whose masks show eight digits" 'done (0)' \
    "$(told "$program" merchant --lead 8 shop.db shop1 86400 0)"
step "0: a right with an end" 'done (0)' \
    "$(told "$program" grant --until 253402300799 shop.db till-1 shop1 audit)"
step "0: a right whose end has passed" 'done (0)' \
    "$(told "$program" grant --until 0 shop.db till-1 shop1 audit)"
step "0: a right is taken away" 'done (0)' "$(told "$program" withdraw shop.db till-1 shop1 audit)"
step "0: it isn't there any more" 'done|vault: there was nothing to withdraw (0)' \
    "$(told "$program" withdraw shop.db till-1 shop1 audit)"
printf '[till-1]\nshop1 = ["view", "tokenize", "view"]\n[back]\nshop1 = ["purge"]\n' > rights.toml
printf '[till-2]\nshop1 = ["view", { right = "tokenize", until = 253402300799 }]\n' > ends.toml
step "0: the rights of a file" 'granted 3 (0)' "$(told "$program" rights shop.db rights.toml)"
step "0: and those of a file with an end" 'granted 2 (0)' "$(told "$program" rights shop.db ends.toml)"
step "0: a sweep where nothing is dead" 'purged 0 (0)' "$(told "$program" sweep shop.db back shop1)"
step "0: and one of a merchant that isn't known" 'purged 0|vault: there is no such merchant (0)' \
    "$(told "$program" sweep shop.db shop1 back)"
step "0: nothing is asked in a pipe" ' (0)' "$(told "$program" pipe shop.db < /dev/null)"

# 1
step "1: a bad name" 'refused 4|vault: NAME is no name (1)' "$(told "$program" merchant none.db Shop1 60 0)"
step "1: a word that is no right" 'refused 71|vault: RIGHT is no right (1)' \
    "$(told "$program" grant none.db till-1 shop1 sell)"
step "1: a bad caller, which isn't shown" 'refused 4|vault: CALLER is no name (1)' \
    "$(told "$program" grant none.db 4111-1111-1111-1111. shop1 view)"
echo '[till-1' > text.toml
step "1: a rights file that is none" 'refused 70 (1)' "$(told "$program" rights none.db text.toml)"
printf '[till-1]\nshop1 = [{ right = "sell", until = -1 }]\n' > word.toml
step "1: a rights file with a word that is no right" 'refused 71 (1)' \
    "$(told "$program" rights none.db word.toml)"
printf '[Till-1]\nshop1 = ["view"]\n' > name.toml
step "1: a rights file with a bad name" 'refused 72 (1)' "$(told "$program" rights none.db name.toml)"
printf '[till-1]\nshop1 = [{ right = "view" }]\n' > shape.toml
step "1: a rights file with a table without an end" 'refused 73 (1)' \
    "$(told "$program" rights none.db shape.toml)"
printf '[till-1]\nshop1 = [{ right = "view", until = 253402300800 }]\n' > end.toml
step "1: a rights file with a bad end" 'refused 75 (1)' "$(told "$program" rights none.db end.toml)"
step "1: and no file is made" 'none' "$([ -e none.db ] && echo made || echo none)"
step "1: a bad name of a sweep" 'refused 4|vault: MERCHANT is no name (1)' \
    "$(told "$program" sweep none.db back Shop1)"
step "1: a merchant that isn't known" 'refused 7 (1)' "$(told "$program" grant shop.db till-1 shop2 view)"

# 2
step "2: no word, and help" 'vault: bad words|*|Usage: * <COMMAND>|*|*Print version (2)' "$(told "$program")"
step "2: a word that is none" "vault: bad words|unrecognized subcommand 'trail' (2)" "$(told "$program" trail)"
step "2: no connections" "vault: bad words|CONNECTIONS: 0 isn't a number of one to a million (2)" \
    "$(told "$program" serve --connections 0 shop.db)"
step "2: no file to move" 'vault: bad words|the following required arguments were not provided:|  <FILE> (2)' \
    "$(told "$program" migrate)"
step "2: a lead that is none" "vault: bad words|LEAD: 7 isn't a number of digits that a mask may show (2)" \
    "$(told "$program" merchant --lead 7 shop.db shop1 60 0)"
step "2: a card number, which isn't shown" 'vault: bad words (2)' \
    "$(told "$program" pipe shop.db 4111111111111111)"
step "2: an end that is none" 'vault: bad words (2)' \
    "$(told "$program" grant --until 253402300800 shop.db till-1 shop1 view)"
step "2: a port that is none" "vault: bad words|PORT: 65536 isn't a port (2)" \
    "$(told "$program" serve --connections 1 --port 65536 shop.db)"

# 3
echo 'A line of text, and no database.' > text
mkdir folder
step "3: a text" 'vault: file not opened 34|vault: FILE is damaged, or is no database (3)' "$(checked text)"
step "3: it stays as it was" 'A line of text, and no database.' "$(cat text)"
unopened="vault: file not opened 34|vault: FILE or its log can't be opened (3)"
step "3: a folder" "$unopened" "$(checked folder)"
step "3: a path into nowhere" "$unopened" "$(checked nowhere/vault.db)"
step "3: no name of a file" "$unopened" "$(told "$program" pipe :memory:)"
must_serve --connections 100 shop.db
in_use='vault: file not opened 34|vault: another program has FILE open (3)'
step "3: a file that is in use" "$in_use" "$(checked shop.db)"
step "3: nor does it move" "$in_use" "$(told "$program" migrate shop.db)"

# 4
step "4: a port that is taken" 'vault: stopped 80 (4)' \
    "$(told "$program" serve --connections 1 --port "$port" new.db)"
step "4: a rights file that isn't there" "vault: stopped 80|vault: RIGHTS can't be read (4)" \
    "$(told "$program" rights new.db none.toml)"
step "4: a full disk behind the output" 'vault: stopped 62 (4)' "$(told_full "$program" check new.db)"
step "4: so of a file that moves" 'vault: stopped 62 (4)' "$(told_full "$program" migrate new.db)"
step "4: a closed output" 'vault: stopped 62 (4)' "$(
    code=0
    "$program" check new.db >&- 2> told.err || code=$?
    echo "$(cat told.err) ($code)"
)"
step "4: and the file is as it was" 'sound 0 0 0 (0)' "$(checked new.db)"
step "4: an input that can't be read" 'vault: stopped 61 (4)' "$(told "$program" pipe new.db < folder)"
step "4: the 1001st message" 'vault: stopped 60 (4)' "$(
    i=0
    while [ "$i" -le 1000 ]; do
        printf 'GET /v1/merchants/shop1/audit HTTP/1.1\r\n\r\n'
        i=$((i + 1))
    done | {
        code=0
        "$program" pipe new.db > answers 2> told.err || code=$?
        echo "$(cat told.err) ($code)"
    }
)"
step "4: a thousand were answered" '1000' "$(tr '{' '\n' < answers | grep -c '^"refused":58}')"

# Modes
for mask in 000 0777; do
    made=$(umask "$mask" && "$program" migrate "mode$mask.db" 2>&1 || true)
    step "a file made under umask $mask" 'schema 4*is made -rw-------' "$made $(mode "mode$mask.db")"
done
: > open.db
chmod 644 open.db
step "an existing file keeps its mode" 'schema 4*is made -rw-r--r--' \
    "$("$program" migrate open.db 2>&1) $(mode open.db)"

# The log of a file
step "a file alone says nothing of a log" 'sound 0 0 0 (0)' \
    "$(: > alone.db && told "$program" check alone.db)"
has_log='vault: the file has a log, FILE-wal, and a copy needs both'
step "one with a log says so" "sound 0 0 0|$has_log (0)" "$(told "$program" check mode000.db)"
step "and so does one behind a link" "sound 0 0 0|$has_log (0)" \
    "$(ln -s mode000.db link.db && told "$program" check link.db)"
step "and the log of a file that is gone" "sound 0 0 0|$has_log (0)" \
    "$(echo lost > gone.db-wal && told "$program" check gone.db)"

# A service is killed among requests. What it answered is answered again by the next one.
: > before
request=0
while [ "$request" -lt 90 ]; do
    request=$((request + 1))
    [ "$request" -ne 20 ] || kill -9 "$service" &
    answer=$(ask_token "$request")
    case $answer in
    *' 200') echo "$request $answer" >> before ;;
    *) break ;;
    esac
done
wait "$service" 2> /dev/null || true
service=
answered=$(wc -l < before | tr -d ' ')
step "a service that is killed at its 20th request or after had answered" '[1-9][0-9]' "$answered"
must_serve --connections "$answered" shop.db
: > after
while read -r request answer; do
    echo "$request $(ask_token "$request")" >> after
done < before
step "the next one answers the same" 'the same' "$(cmp before after && echo 'the same')"
code=0
wait "$service" || code=$?
service=
step "and ends" '0' "$code"
step "no answer was lost" "sound 1 * (0)" "$(checked shop.db)"
end
