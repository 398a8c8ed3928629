#!/bin/sh
# The walk of a shop over a file: a merchant, rights, a service, tokens by curl, the check; and messages in a
# pipe. sh examples/service.sh [PROGRAM]
set -eu
. "$(dirname "$0")/shared/steps.sh"
need curl

tokens=/v1/merchants/shop1/tokens
digits12='[0-9][0-9][0-9][0-9][0-9][0-9][0-9][0-9][0-9][0-9][0-9][0-9]'

# Gives a caller a right at shop1.
grant() {
    step "$1 may $2" 'done (0)' "$(told "$program" grant vault.db "$1" shop1 "$2")"
}

# A merchant whose single-use tokens live a day and its multi-use ones a year, and who may do what there.
step "a merchant is set" 'done (0)' "$(told "$program" merchant vault.db shop1 86400 31536000)"
grant till-1 tokenize
for right in detokenize view revoke purge audit; do
    grant back "$right"
done

# Eleven connections, one for each answer.
must_serve --connections 11 vault.db
first=$(ask_token 7)
step "a token is given" "{\"expires\":[0-9]*,\"token\":\"${digits12}1111\"} 200" "$first"
token=$(token_of "$first")
step "a repeat is answered the same" "$first" "$(ask_token 7)"
shown=$(ask back GET "$tokens/$token")
masked='411111\*\*\*\*\*\*1111'
step "the token is shown, masked" \
    "{\"birth\":[0-9]*,\"expires\":[0-9]*,\"masked\":\"$masked\",\"state\":\"live\",\"use\":\"single\"} 200" \
    "$shown"
step "its number is brought back" '{"number":"4111111111111111"} 200' \
    "$(ask back POST "$tokens/$token/number")"
step "another caller is refused" '{"refused":8} 403' "$(ask till-1 POST "$tokens/$token/number")"
step "a live token isn't purged" '{"refused":17} 409' "$(ask back DELETE "$tokens/$token")"
step "the token is revoked" '{"done":true} 200' "$(ask back POST "$tokens/$token/revoke")"
step "a revoked token gives no number" '{"refused":15} 410' "$(ask back POST "$tokens/$token/number")"
step "its number is purged" '{"done":true} 200' "$(ask back DELETE "$tokens/$token")"
step "a purged token gives no number" '{"refused":14} 410' "$(ask back POST "$tokens/$token/number")"
step "the counts are told" '{"denied":3,"given":1,"made":1} 200' "$(ask back GET /v1/merchants/shop1/audit)"
code=0
wait "$service" || code=$?
service=
step "the service ends with its last connection" '0' "$code"
birth=$(echo "$shown" | sed -n 's/.*"birth":\([0-9]*\).*/\1/p')
expires=$(echo "$shown" | sed -n 's/.*"expires":\([0-9]*\).*/\1/p')
step "the token was to live for a day" '86400' "$((${expires:-0} - ${birth:-0}))"
step "no other token is dead" 'purged 0 (0)' "$(told "$program" sweep vault.db back shop1)"
step "the file is sound" 'sound 1 1 1 (0)' "$(checked vault.db)"

# The same by a pipe, at moments and with digits that are fixed, byte for byte.
step "a merchant of the pipe" 'done (0)' "$(told "$program" merchant --now 1000 pipe.db shop1 60 0)"
step "a right of the pipe" 'done (0)' "$(told "$program" grant --now 1000 pipe.db till-1 shop1 tokenize)"
printf '%s\r\n' 'HTTP/1.1 200 OK' 'Content-Type: application/json' 'Content-Length: 43' '' > wanted
printf '%s' '{"expires":1060,"token":"0000000000001111"}' >> wanted

# Compares what a pipe answers with the bytes that are wanted.
pipe() {
    code=0
    "$program" pipe --now "$2" --digits "$3" pipe.db < "$here/first-token.http" > answer 2> errors || code=$?
    cmp answer wanted > differ 2>&1 || true
    step "$1" 'same bytes (0)' "$([ -s differ ] && cat differ errors || echo "same bytes") ($code)"
}
pipe "a message is answered byte for byte" 1000 0
pipe "a repeat has the first answer's bytes" 1050 7
step "the pipe's file is sound" 'sound 1 1 1 (0)' "$(checked pipe.db)"
end
