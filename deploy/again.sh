#!/bin/sh
# again.sh [--yes] [--port P] COPY [LOG ...]
#
# Revokes and purges once more what was revoked and purged after COPY was made, once COPY was restored and its
# vault serves: a restore brings back what was taken away since. LOG is what a front keeps of both, with whole
# tokens; it is /var/log/vault/taken.log and the files that it was turned into if left out. Each line is asked
# of the vault at port P of this machine, 8087 if left out, as its caller asked it, so that caller has to have
# the right still. A token that is over already counts as taken away again.
#
# It first says what it is about to do: how many revocations and purges, by which caller, at which merchant.
# Then it asks on a terminal, or goes on with --yes. Without either it does nothing, and the exit status is 2.
#
# A token that was made after COPY isn't in the restored vault, and is counted as `unknown`; so is one of
# another vault's merchant. A line that no front writes is counted as refused, and the rest is done. The exit
# status is 1 if a line was refused for another reason, or if a line or a file can't be read.
set -eu
LC_ALL=C
export LC_ALL

# Only what can be printed reaches a terminal.
printable() { tr -cd ' -~\n'; }
say() { printf 'again.sh: %s\n' "$*" | printable >&2; }
usage() { echo "again.sh [--yes] [--port P] COPY [LOG ...]" >&2; exit 2; }

port=8087
yes=
while :; do
    case ${1:-} in
    --yes) yes=--yes; shift ;;
    --port)
        port=${2:-}
        case $port in '' | *[!0-9]*) usage ;; esac
        shift 2
        ;;
    -*) usage ;;
    *) break ;;
    esac
done
[ $# -ge 1 ] || usage
name=${1##*/}
shift
[ $# -gt 0 ] || set -- /var/log/vault/taken.log*
stamp=$(echo "$name" | sed -n 's/^vault-\(....\)\(..\)\(..\)T\(..\)\(..\)\(..\)Z\.db$/\1-\2-\3T\4:\5:\6Z/p')
[ -n "$stamp" ] || { say "$name is no copy's name"; exit 2; }
# what was under way as it was made may be in it or not
since=$(($(date -d "$stamp" +%s) - 60))
folder=$(mktemp -d)
trap 'rm -rf "$folder"' EXIT
trap 'exit 1' HUP INT TERM

# A line as the fronts write it, each field by its form; other lines are counted.
day='20[0-9]{2}-(0[1-9]|1[0-2])-(0[1-9]|[12][0-9]|3[01])'
time='([01][0-9]|2[0-3])(:[0-5][0-9]){2}(Z|[+-][0-9]{2}:[0-5][0-9])'
word='"[a-z0-9-]{1,16}"'
form="^\{\"time\":\"${day}T$time\",\"caller\":$word,\"merchant\":$word,\"token\":\"[0-9]{10,19}\""
form="$form,\"asked\":\"(revoke|purge)\",\"status\":200\}\$"
refused=0
for log; do
    if ! zcat -f -- "$log" > "$folder/lines" 2> "$folder/fault"; then
        say "$log can't be read whole: $(head -n 1 "$folder/fault")"
        refused=$((refused + 1))
    fi
    grep -aE "$form" "$folder/lines" >> "$folder/known" || :
    strange=$(grep -acvE "$form" "$folder/lines" || :)
    [ "$strange" -eq 0 ] || say "$strange lines of $log can't be read"
    refused=$((refused + strange))
done

# The lines since COPY in the order of their moments, and of one second first what was revoked: the second,
# caller, merchant, token, and what was asked. A day that its month hasn't is counted on standard error.
awk -F '"' -v since="$since" '
    {
        year = substr($4, 1, 4) + 0; month = substr($4, 6, 2) + 0; day = substr($4, 9, 2) + 0
        leap = month == 2 && year % 4 == 0 && (year % 100 != 0 || year % 400 == 0)
        if (day > substr("312831303130313130313031", 2 * month - 1, 2) + leap) { strange++; next }
        if (month <= 2) { year--; month += 12 }
        days = 365 * year + int(year / 4) - int(year / 100) + int(year / 400) + int((153 * month - 457) / 5)
        second = (days + day - 719469) * 86400
        second += substr($4, 12, 2) * 3600 + substr($4, 15, 2) * 60 + substr($4, 18, 2)
        apart = substr($4, 21, 2) * 3600 + substr($4, 24, 2) * 60
        second -= substr($4, 20, 1) == "-" ? -apart : apart
        if (second >= since) printf "%.0f %s %s %s %s\n", second, $8, $12, $16, $20
    }
    END { print strange + 0 > "/dev/stderr" }
' "$folder/known" 2> "$folder/strange" | sort -s -k 1,1n -k 5,5r > "$folder/told"
strange=$(cat "$folder/strange")
[ "$strange" -eq 0 ] || say "$strange lines have a day that isn't one"
refused=$((refused + strange))

# What is about to be done, said before anything is.
echo "since $stamp, by $*" | printable
awk '
    { count[$2 " at " $3 " " $5]++; pair[$2 " at " $3] }
    END { for (it in pair) printf "%s: revoke %d purge %d\n", it, count[it " revoke"], count[it " purge"] }
' "$folder/told" | sort
if [ -z "$yes" ] && [ -s "$folder/told" ]; then
    [ -t 0 ] || { say "nothing was done: it asks on a terminal, or goes on with --yes"; exit 2; }
    printf 'take these away again? (yes or no) '
    read -r yes || :
    [ "$yes" = yes ] || { say "nothing was done"; exit 2; }
fi

# Asks for one line again; what came of it.
asked() {
    place=http://127.0.0.1:$port/v1/merchants/$2/tokens/$3
    case $4 in
    revoke) set -- "$1" "$place/revoke" POST ;;
    *) set -- "$1" "$place" DELETE ;;
    esac
    said=$(curl -q -g -s -m 120 --noproxy '*' --retry 5 --retry-connrefused -w ' %{http_code}' \
        -H "X-Vault-Caller: $1" -X "$3" "$2" | head -c 400 | printable) || :
    case $said in
    *' 200' | *' 410') echo again ;;
    '{"refused":7} 404' | '{"refused":13} 404') echo unknown ;;
    '' | ' 000') echo "no answer" ;;
    *) echo "$said" ;;
    esac
}

again=0
unknown=0
while read -r _ caller merchant token what; do
    outcome=$(asked "$caller" "$merchant" "$token" "$what" < /dev/null)
    case $outcome in
    again) again=$((again + 1)) ;;
    unknown) unknown=$((unknown + 1)) ;;
    *)
        refused=$((refused + 1))
        say "$what of $token of $merchant by $caller: $outcome"
        ;;
    esac
done < "$folder/told"
echo "again $again unknown $unknown refused $refused"
[ "$refused" -eq 0 ]
