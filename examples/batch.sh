#!/bin/sh
# Batches over a file: rights by a rights file, ten rows that are sent again, rows at fixed moments and with
# fixed digits, and batches that stop. sh examples/batch.sh [PROGRAM]
set -eu
. "$(dirname "$0")/shared/steps.sh"

# Makes a file of rows: its name, and then each row.
rows() {
    name=$1
    shift
    printf '%s\n' request,number,use "$@" > "$name"
}

# Makes a file of the lines that are wanted: its name, and then each line after the first one.
lines() {
    name=$1
    shift
    printf '%s\n' request,answer,detail "$@" > "$name"
}

# Sends a file of rows, and leaves the lines that come in another one; the words after `batch` come last.
# Says what is on standard error, and then the exit status.
send() {
    asked=$1 answered=$2
    shift 2
    code=0
    "$program" batch "$@" < "$asked" > "$answered" 2> told.err || code=$?
    cat told.err >> errors
    said=$(tr '\n' ' ' < told.err)
    echo "$said($code)"
}

# The same, with a file of the lines that are wanted in place of the other one: says too whether they came.
compare() {
    asked=$1 wanted=$2
    shift 2
    ended=$(send "$asked" came "$@")
    if ! cmp "$wanted" came > differ 2>&1; then
        echo "$ended, $(cat differ came)"
    elif [ -s came ]; then
        echo "$ended, these lines"
    else
        echo "$ended, no line"
    fi
}

# The answer in a line of the file `first`; its first line is 1.
answer() {
    sed -n "${1}p" first | cut -d , -f 2
}

# Whether two lines of the file `first` have the same token.
pair() {
    [ "$(answer "$1")" = "$(answer "$2")" ] && echo 'the same' || echo 'another'
}

: > errors
cat > rights.toml << 'END'
[till-1]
shop1 = ["tokenize"]
[back]
shop1 = ["detokenize", "view"]
END
step "a merchant is set" 'done (0)' "$(told "$program" merchant vault.db shop1 86400 31536000)"
step "the rights of a file are given" 'granted 3 (0)' "$(told "$program" rights vault.db rights.toml)"

# Ten rows: both uses and a word that is none, a field in quotes, a number with hyphens, a row that is there
# twice.
rows ten 1,4111111111111111,single 2,4111111111111111,multi 3,4111111111111111,multi \
    '4,"4111 1111 1111 1111",single' 1,4111111111111111,single 6,4222-2222-22222,single \
    7,79927398713,single 8,6304000000000000000,multi 9,4222222222222,often 10,4222222222222,multi
step "ten rows are answered, and one is refused" '(1)' "$(send ten first vault.db till-1 shop1)"
step "the refused row's line says why" '9,refused,19' "$(sed -n 10p first)"

# The lines, with a token's length in place of the token, and its last four digits in place of its end.
awk -F , '{ n = length($2); print ($2 ~ /^[0-9]+$/ ? $1 "," n "," substr($2, n - 3) : $0) }' first > shape
lines wanted 1,16,1111 2,16,1111 3,16,1111 4,16,1111 1,16,1111 6,13,2222 7,11,8713 8,19,0000 9,refused,19 \
    10,13,2222
step "each row has its line, and a token its number's length and last four" 'the same' \
    "$(cmp wanted shape && echo 'the same')"
step "a row that comes twice has one token" 'the same' "$(pair 2 6)"
step "a multi-use token is given again" 'the same' "$(pair 3 4)"
step "a single-use token isn't" 'another' "$(pair 2 5)"
step "sent again, they have the same lines" '(1), these lines' "$(compare ten first vault.db till-1 shop1)"
awk '{ printf "%s\r\n", $0 }' ten > ten.crlf
step "and with CR LF" '(1), these lines' "$(compare ten.crlf first vault.db till-1 shop1)"
{ printf '\357\273\277' && cat ten; } > ten.mark
step "and behind a byte order mark" '(1), these lines' "$(compare ten.mark first vault.db till-1 shop1)"
step "seven tokens stand, and eight requests" 'sound 1 7 8 (0)' "$(checked vault.db)"

# Who may not, and where nobody may.
rows one 11,4111111111111111,single
lines wanted 11,refused,8
step "another caller's row is refused" '(1), these lines' "$(compare one wanted vault.db back shop1)"
lines wanted 11,refused,7
step "so is one for a merchant that isn't known" '(1), these lines' \
    "$(compare one wanted vault.db till-1 shop2)"
echo 'refused 4' > wanted
step "a name that is none is refused before a row" 'vault: CALLER is no name (1), these lines' \
    "$(compare one wanted none.db Till-1 shop1)"
step "and no file is made" 'none' "$([ -e none.db ] && echo made || echo none)"
step "a merchant is missing in the words" 'vault: bad words *<MERCHANT> (2), no line' \
    "$(compare one /dev/null vault.db till-1)"
step "a file that isn't opened" "vault: file not opened 34 vault: FILE or its log can't be opened (3), no line" \
    "$(compare one /dev/null . till-1 shop1)"

# Two rows at a moment and with digits that are fixed, byte for byte.
step "a merchant at a moment" 'done (0)' "$(told "$program" merchant --now 1000 fixed.db shop1 60 0)"
step "a right at a moment" 'done (0)' "$(told "$program" grant --now 1000 fixed.db till-1 shop1 tokenize)"
rows two 1,4111111111111111,single 2,4111111111111111,single
lines wanted 1,0000000000001111,1060 2,refused,12
step "no second token can be made of the digits" '(1), these lines' \
    "$(compare two wanted --now 1000 --digits 0 fixed.db till-1 shop1)"
lines wanted 1,0000000000001111,1060 2,1111111111111111,1065
step "and of others it can" '(0), these lines' \
    "$(compare two wanted --now 1005 --digits 1 fixed.db till-1 shop1)"
rows many x,4111111111111111,single 3,4111,single 3,4111111111111112,single 3,4111111111111111,once \
    3,4111111111111111,multi 1,4222222222222,single 3,4111111111111111,single 2,4111111111111111,single
lines wanted 0,refused,5 3,refused,1 3,refused,2 3,refused,19 3,refused,9 1,refused,10 3,refused,12 \
    2,1111111111111111,1065
step "each row is refused by its number" '(1), these lines' \
    "$(compare many wanted --now 1010 --digits 0 fixed.db till-1 shop1)"
step "the file is sound" 'sound 1 2 2 (0)' "$(checked fixed.db)"

# What is no batch.
: > empty
step "40: an empty input" 'vault: stopped 40 (4), no line' \
    "$(compare empty /dev/null fixed.db till-1 shop1)"
printf '%s\n' 'number,request,use' '4111111111111111,3,single' > other
step "40: another header" 'vault: stopped 40 (4), no line' \
    "$(compare other /dev/null fixed.db till-1 shop1)"
echo '3,4111111111111111,single' > none
step "40: no header" 'vault: stopped 40 (4), no line' "$(compare none /dev/null fixed.db till-1 shop1)"
step "40: and the file is as it was" 'sound 1 2 2 (0)' "$(checked fixed.db)"

# Records that are no rows: those before them are answered, and stand.
rows short 21,4111111111111111,single 22,4222222222222,multi 23,4111111111111111 24,4222222222222,single
step "44: a row of two fields" 'vault: stopped 44 (4)' "$(send short before.1 vault.db till-1 shop1)"
rows long 31,79927398713,single 32,4111111111111111,multi,x 33,4222222222222,single
step "44: a row of four fields" 'vault: stopped 44 (4)' "$(send long before.2 vault.db till-1 shop1)"
step "44: the rows before have their lines" 'request,answer,detail 21 22 request,answer,detail 31' \
    "$(sed 's/^\([0-9]*\),[0-9]*,[0-9]*$/\1/' before.1 before.2 | tr '\n' ' ' | sed 's/ $//')"
step "44: and no row after" 'sound 1 9 11 (0)' "$(checked vault.db)"
rows three 21,4111111111111111,single 22,4222222222222,multi 31,79927398713,single
{ cat before.1 && sed 1d before.2; } > wanted
step "44: sent again, they have the same tokens" '(0), these lines' \
    "$(compare three wanted vault.db till-1 shop1)"

# What can't be read or written, or is too much.
mkdir folder
step "41: an input that can't be read" 'vault: stopped 41 (4), no line' \
    "$(compare folder /dev/null vault.db till-1 shop1)"
step "42: a full disk behind the output" 'vault: stopped 42 (4)' \
    "$(send one /dev/full vault.db till-1 shop1)"
awk 'BEGIN { print "request,number,use"; while (n++ < 100001) print "x,,single" }' > more
step "46: the 100001st row" 'vault: stopped 46 (4)' "$(send more most vault.db till-1 shop1)"
step "46: a hundred thousand have their lines" '100000' "$(grep -c '^0,refused,5$' most)"
step "42, 46: and the file is as it was" 'sound 1 9 11 (0)' "$(checked vault.db)"

# Nothing that is said beside the lines has a card number, or as many digits as one.
said=$(wc -l < errors | tr -d ' ')
found=$(grep -c '[0-9][0-9 -]\{8,\}[0-9]' errors || true)
step "no card number is on standard error" '14 lines, 0 with one' "$said lines, $found with one"
end
