#!/bin/sh
# Sweeps over a file at fixed moments: three tokens of which two are dead, who may purge, and what is told of
# the tokens afterwards. sh examples/sweep.sh [PROGRAM]
set -eu
. "$(dirname "$0")/shared/steps.sh"

tokens=/v1/merchants/shop1/tokens
first=0000000000001111
second=1111111111111111
third=2222222222221111

# Sends the message in the file `message` by a pipe: the moment, and what repeated stands in for drawn digits.
# Answers the body, and then the status.
send() {
    "$program" pipe --now "$1" --digits "$2" vault.db < message > answer 2> errors || true
    status=$(sed -n '1s/^HTTP\/1\.1 \([0-9]*\) .*/\1/p' answer)
    echo "$(tail -n 1 answer) $status$(cat errors)"
}

# Asks for a token at a moment: the moment, the digits and the request number.
token_at() {
    sed "s/^X-Vault-Request: 7/X-Vault-Request: $3/" "$here/first-token.http" > message
    send "$1" "$2"
}

# Asks as `back` at a moment: the moment, the method and the target.
back_at() {
    printf '%s %s HTTP/1.1\r\nX-Vault-Caller: back\r\n\r\n' "$2" "$3" > message
    send "$1" 0
}

# Sweeps at a moment: the moment, the file, the caller and the merchant. Says the line, and the exit status.
sweep_at() {
    told "$program" sweep --now "$@"
}

cat > rights.toml << 'END_OF_RIGHTS'
[till-1]
shop1 = ["tokenize"]
[back]
shop1 = ["detokenize", "view", "revoke", "purge", "audit"]
END_OF_RIGHTS
step "a merchant is set" 'done (0)' "$(told "$program" merchant --now 1000 vault.db shop1 60 0)"
step "the rights of a file are given" 'granted 6 (0)' \
    "$(told "$program" rights --now 1000 vault.db rights.toml)"

# Three tokens with a life of a minute, of which the third is revoked.
step "a token is given" "{\"expires\":1060,\"token\":\"$first\"} 200" "$(token_at 1000 0 7)"
step "a second one" "{\"expires\":1070,\"token\":\"$second\"} 200" "$(token_at 1010 1 8)"
step "a third one" "{\"expires\":1080,\"token\":\"$third\"} 200" "$(token_at 1020 2 9)"
step "the third is revoked" '{"done":true} 200' "$(back_at 1020 POST "$tokens/$third/revoke")"
step "a live token isn't purged" '{"refused":17} 409' "$(back_at 1059 DELETE "$tokens/$first")"

# Two are dead at 1065.
step "two dead tokens are purged" 'purged 2 (0)' "$(sweep_at 1065 vault.db back shop1)"
step "and none again" 'purged 0 (0)' "$(sweep_at 1065 vault.db back shop1)"
step "the live one gives its number" '{"number":"4111111111111111"} 200' \
    "$(back_at 1065 POST "$tokens/$second/number")"
step "three were made" '{"denied":0,"given":1,"made":3} 200' "$(back_at 1065 GET /v1/merchants/shop1/audit)"
step "one that expired gives no number" '{"refused":14} 410' "$(back_at 1065 POST "$tokens/$first/number")"
step "nor does the revoked one" '{"refused":14} 410' "$(back_at 1065 POST "$tokens/$third/number")"
step "neither is shown" '{"refused":14} 410' "$(back_at 1065 GET "$tokens/$first")"
step "its request is answered as before" "{\"expires\":1060,\"token\":\"$first\"} 200" \
    "$(token_at 1065 5 7)"
step "purged again, it is done" '{"done":true} 200' "$(back_at 1065 DELETE "$tokens/$first")"

# Who may not purge, and where there is nothing to purge; the second token is dead from 1070 on.
step "a caller without the right is refused" 'refused 8 (1)' "$(sweep_at 1070 vault.db guest shop1)"
masked='411111\*\*\*\*\*\*1111'
step "and nothing is purged" \
    "{\"birth\":1010,\"expires\":1070,\"masked\":\"$masked\",\"state\":\"expired\",\"use\":\"single\"} 200" \
    "$(back_at 1070 GET "$tokens/$second")"
step "a merchant that isn't known has no dead token" 'purged 0|vault: there is no such merchant (0)' \
    "$(sweep_at 1070 vault.db back shop2)"
step "a name that is none is refused" 'refused 4|vault: CALLER is no name (1)' \
    "$(sweep_at 1070 none.db Back shop1)"
step "and no file is made" 'none' "$([ -e none.db ] && echo made || echo none)"
step "a merchant is missing in the words" 'vault: bad words|*|  <MERCHANT> (2)' \
    "$(sweep_at 1070 vault.db back)"
step "a file that isn't opened" "vault: file not opened 34|vault: FILE or its log can't be opened (3)" "$(sweep_at 1070 . back shop1)"

# A clock that falls: the merchant's moment is 1075, where the second token has expired.
step "the merchant's moment moves" '{"done":true} 200' "$(back_at 1075 DELETE "$tokens/$third")"
step "a clock that falls brings no token back" 'purged 1 (0)' "$(sweep_at 1000 vault.db back shop1)"
step "the file is sound" 'sound 1 3 3 (0)' "$(checked vault.db)"

# More tokens than one list has.
awk 'BEGIN { print "request,number,use"; while (n++ < 2001) print 100 + n ",4111111111111111,single" }' > rows
"$program" batch --now 2000 vault.db till-1 shop1 < rows > lines 2> errors || cat errors
step "a batch of 2001 rows has their tokens" '2001' "$(grep -c ',2060$' lines)"
step "all live, none is purged" 'purged 0 (0)' "$(sweep_at 2059 vault.db back shop1)"
step "all dead, each is purged" 'purged 2001 (0)' "$(sweep_at 2060 vault.db back shop1)"
step "and none again" 'purged 0 (0)' "$(sweep_at 2060 vault.db back shop1)"
step "the file is sound" 'sound 1 2004 2004 (0)' "$(checked vault.db)"

# A shop whose moment is far ahead of the clock's, as after one that jumped.
step "a merchant is set in a far year" 'done (0)' \
    "$(told "$program" merchant --now 253402300799 vault.db shop2 60 0)"
step "it isn't swept at the clock's moment" 'refused 81 (1)' "$(told "$program" sweep vault.db back shop2)"
step "but at one of the words" 'purged 0 (0)' "$(sweep_at 2060 vault.db back shop2)"
ahead="vault: the clock is more than 31 days ahead of the merchant's last moment"
step "and another merchant is, whose moment is long past" "purged 0|$ahead (0)" \
    "$(told "$program" sweep vault.db back shop1)"
end
