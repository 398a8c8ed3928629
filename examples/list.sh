#!/bin/sh
# What a vault holds is listed, its rights are made exactly those of a file, and a service begins with them.
# sh examples/list.sh [PROGRAM]
set -eu
. "$(dirname "$0")/shared/steps.sh"
need curl

# The rights that are listed, a line each.
rights() {
    "$program" list vault.db | sed -n 's/^right //p'
}

step "a file that isn't there isn't listed" 'vault: file not opened 34|vault: there is no vault in FILE (3)' "$(told "$program" list none.db)"
step "and isn't made" 'no' "$([ -e none.db ] && echo yes || echo no)"
step "nor is it compared with a list" 'vault: file not opened 34|vault: there is no vault in FILE (3)' \
    "$(: > empty.toml; told "$program" rights --dry-run none.db empty.toml)"

: > blank.db
step "one without a byte isn't listed" 'vault: file not opened 34|vault: there is no vault in FILE (3)' "$(told "$program" list blank.db)"
step "nor compared with a list" 'vault: file not opened 34|vault: there is no vault in FILE (3)' \
    "$(told "$program" rights --dry-run blank.db empty.toml)"
step "and stays without a byte, and without a log" 'blank.db 0' "$(echo blank.db*) $(wc -c < blank.db)"

step "two merchants" 'done (0)' "$(told "$program" merchant --now 1000 vault.db shop2 60 0)"
step "in no order" 'done (0)' "$(told "$program" merchant --now 2000 --lead 8 vault.db shop1 60 120)"
cat > rights.toml << 'END_OF_RIGHTS'
[till-1]
shop1 = ["tokenize", { right = "view", until = 5000 }]
[back]
shop2 = ["audit"]
END_OF_RIGHTS
step "what a list would change is said" \
    'grant back shop2 audit|grant till-1 shop1 tokenize|grant till-1 shop1 view until 5000 (0)' \
    "$(told "$program" rights --dry-run --now 2000 vault.db rights.toml)"
step "and isn't done" '' "$(rights)"
step "the rights of the list are given" 'granted 3 withdrawn 0 (0)' \
    "$(told "$program" rights --exact --now 2000 vault.db rights.toml)"
step "a token is made" '*"token":"0000000000001111"}' \
    "$("$program" pipe --now 2000 --digits 0 vault.db < "$here/first-token.http")"
step "the vault is listed" \
    'merchant shop1 single 60 multi 120 lead 8 moment 2000 made 1 given 0 denied 0
merchant shop2 single 60 multi 0 lead 6 moment 2000 made 0 given 0 denied 0
right back shop2 audit
right till-1 shop1 tokenize
right till-1 shop1 view until 5000' "$("$program" list vault.db)"
step "for programs too" \
    '{"merchant":"shop1","single":60,"multi":120,"lead":8,"moment":2000,"made":1,"given":0,"denied":0}
{"merchant":"shop2","single":60,"multi":0,"lead":6,"moment":2000,"made":0,"given":0,"denied":0}
{"caller":"back","merchant":"shop2","right":"audit","until":null}
{"caller":"till-1","merchant":"shop1","right":"tokenize","until":null}
{"caller":"till-1","merchant":"shop1","right":"view","until":5000}' \
    "$("$program" list --json vault.db)"
step "each line is JSON" '5' "$("$program" list --json vault.db | python3 -c '
import json, sys
print(len([json.loads(line) for line in sys.stdin]))')"
step "no card number is listed" '' "$("$program" list vault.db | grep 4111 || :)"

cat > rights.toml << 'END_OF_RIGHTS'
[till-1]
shop1 = ["tokenize", { right = "view", until = 6000 }]
[till-2]
shop1 = ["tokenize"]
END_OF_RIGHTS
step "without --exact nothing is withdrawn" \
    'grant till-1 shop1 view until 6000|grant till-2 shop1 tokenize (0)' \
    "$(told "$program" rights --dry-run --now 2000 vault.db rights.toml)"
step "with it what isn't listed is" \
    'grant till-1 shop1 view until 6000|grant till-2 shop1 tokenize|withdraw back shop2 audit (0)' \
    "$(told "$program" rights --exact --dry-run --now 2000 vault.db rights.toml)"
before=$(cksum < vault.db)
"$program" rights --exact --dry-run vault.db rights.toml > /dev/null
step "a look changes no byte" "$before" "$(cksum < vault.db)"
step "they are made exact" 'granted 2 withdrawn 1 (0)' \
    "$(told "$program" rights --exact --now 2000 vault.db rights.toml)"
step "and are the list's" \
    'till-1 shop1 tokenize
till-1 shop1 view until 6000
till-2 shop1 tokenize' "$(rights)"
step "the same list again changes nothing" 'granted 0 withdrawn 0 (0)' \
    "$(told "$program" rights --exact --now 2000 vault.db rights.toml)"

printf '[till-1]\nshop3 = ["view"]\n# end\n' > unknown.toml
step "a merchant that isn't known is refused" 'refused 7 (1)' \
    "$(told "$program" rights --exact --now 2000 vault.db unknown.toml)"
step "before anything is withdrawn" '3' "$(rights | wc -l)"
step "an empty list withdraws all" 'granted 0 withdrawn 3 (0)' \
    "$(told "$program" rights --exact --now 2000 vault.db empty.toml)"

# A service that begins with lists, by their paths.
serve() {
    start_service --connections 1 "$@" vault.db
}
printf '[back]\nshop1 = ["audit"]\n# end\n' > first.toml
serve --rights first.toml
step "a service begins with its list" '{"denied":0,"given":0,"made":1} 200' \
    "$(ask back GET /v1/merchants/shop1/audit -H 'Connection: close')"
wait "$service"
step "which is all that there is" 'back shop1 audit' "$(rights)"
: > bare.toml
code=0
serve --rights bare.toml
wait "$service" || code=$?
step "one without a right has to say so" 'refused 70 vault: the last line of RIGHTS is not # end 1' \
    "$(cat served errors | tr '\n' ' ')$code"
printf '[back]\nshop1 = ["audit"]\n' > cut.toml
code=0
serve --rights cut.toml
wait "$service" || code=$?
step "and so has any other" 'refused 70 vault: the last line of RIGHTS is not # end 1' \
    "$(cat served errors | tr '\n' ' ')$code"
echo '# end' > rightless.toml
serve --rights rightless.toml
step "one that does lets nobody in" '{"refused":8} 403' \
    "$(ask back GET /v1/merchants/shop1/audit -H 'Connection: close')"
wait "$service"
code=0
serve --rights unknown.toml
wait "$service" || code=$?
step "one that is refused doesn't listen" 'refused 7 1' "$(cat served) $code"
code=0
serve --rights none.toml
wait "$service" || code=$?
step "nor does one whose list isn't there" "vault: stopped 80
vault: RIGHTS can't be read 4" "$(cat served errors) $code"

# Merchants of a list are set, and none is removed.
merchants() {
    "$program" list vault.db | sed -n 's/^merchant \([^ ]* single [0-9]* multi [0-9]* lead [0-9]*\) .*/\1/p'
}
cat > merchants.toml << 'END_OF_MERCHANTS'
[shop3]
single = 5
multi = 6
[shop2]
single = 60
multi = 0
lead = 8
END_OF_MERCHANTS
step "what a list of merchants would set is said" \
    'merchant shop2 single 60 multi 0 lead 8|merchant shop3 single 5 multi 6 lead 6 (0)' \
    "$(told "$program" merchants --dry-run vault.db merchants.toml)"
step "and isn't set" '2' "$(merchants | wc -l)"
step "of a file that isn't there nothing is said" 'vault: file not opened 34|vault: there is no vault in FILE (3)' \
    "$(told "$program" merchants --dry-run none.db merchants.toml)"
step "they are set" 'merchants set 2 (0)' "$(told "$program" merchants vault.db merchants.toml)"
step "and one that isn't listed stays" \
    'shop1 single 60 multi 120 lead 8
shop2 single 60 multi 0 lead 8
shop3 single 5 multi 6 lead 6' "$(merchants)"
step "the same list again sets nothing" 'merchants set 0 (0)' \
    "$(told "$program" merchants vault.db merchants.toml)"
printf '[shop4]\nsingle = 3155760001\nmulti = 0\n# end\n' > long.toml
step "a life out of range is refused" 'refused 76 (1)' "$(told "$program" merchants vault.db long.toml)"
step "and nothing is set" '3' "$(merchants | wc -l)"
step "a list that isn't there stops it" "vault: stopped 80|vault: LIST can't be read (4)" \
    "$(told "$program" merchants vault.db none.toml)"

# A service sets its merchants first, so its rights may name a new one.
printf '[shop4]\nsingle = 60\nmulti = 0\n# end\n' > fourth.toml
printf '[back]\nshop4 = ["audit"]\n# end' > its-rights.toml
serve --merchants fourth.toml --rights its-rights.toml
step "a service begins with both lists" '{"denied":0,"given":0,"made":0} 200' \
    "$(ask back GET /v1/merchants/shop4/audit -H 'Connection: close')"
wait "$service"
step "its merchants are there, and no other is gone" '4' "$(merchants | wc -l)"
: > bare.toml
code=0
serve --merchants bare.toml
wait "$service" || code=$?
step "a list without a merchant has to say so" 'refused 70 vault: the last line of LIST is not # end 1' \
    "$(cat served errors | tr '\n' ' ')$code"
code=0
serve --merchants long.toml
wait "$service" || code=$?
step "one with a fault keeps it from starting" 'refused 76 1' "$(cat served) $code"
end
