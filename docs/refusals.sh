#!/bin/sh
# The table of refusals, from the definitions that the program is proved to follow. Without words it prints the
# table; with `--check` it says whether docs/REFUSALS.md has it, and with `--write` it puts it there.
set -eu
cd "$(dirname "$0")/.."
crate=crates/vault_refusal
page=docs/REFUSALS.md

# The refusals that definitions of these crates give, each after its `refusal_of`.
given() {
    for place in "$@"; do
        sed -n 's/^refusal_of .* = refusal\.\([A-Za-z]*\)$/\1/p' "crates/$place.antt"
    done
}

# What the vault answers to the commands of the words, and what a word may be.
ANSWERED='NoMerchant NoRight TooManyMerchants MomentAhead BadName UnknownRight'

table() {
    echo '| Number | Name | Means | HTTP status | Exit status |'
    echo '|---|---|---|---|---|'
    # by the line that a job ends with: a refusal, a file that isn't opened, or a stop, which goes before
    refused="$ANSWERED $(given vault_rights/specs/Faults vault_merchants/specs/Faults)"
    closed=$(given vault_file/specs/Faults vault_verdict/specs/Faults)
    stopped=$(given vault_jobs/specs/Causes vault_store/specs/Applied vault_batch/specs/Faults \
        vault_http/specs/Faults vault_listen/specs/Faults)
    awk -v refused="$refused" -v closed="$closed" -v stopped="$stopped" '
        function leave(names, code, each, many, i) {
            many = split(names, each, /[ \n]+/)
            for (i = 1; i <= many; i++) leaves[each[i]] = code
        }
        BEGIN { leave(refused, 1); leave(closed, 3); leave(stopped, 4) }
        # what is said of each, in the specs
        FILENAME ~ /specs/ && /^status_of refusal\./ { sub("refusal[.]", "", $2); status[$2] = $4 }
        # when it comes, and its number, in the source
        FILENAME ~ /src/ && /^    \/\/\/ / { line = $0; sub("^ *///", "", line); when = when line }
        FILENAME ~ /src/ && /^    [A-Z][A-Za-z]* = [0-9]+,$/ {
            number = $3; sub(",", "", number)
            code = ($1 in status) ? status[$1] : "-"
            printf "| %s | %s |%s | %s | %s |\n", number, $1, when, code, ($1 in leaves) ? leaves[$1] : "-"
            when = ""
        }
    ' "$crate/specs/Refusal.antt" "$crate/src/refusal.rt"
}

# The page's table, between its heading row and the first line that is none.
listed() {
    awk '/^\| Number \|/ { inside = 1 } inside && !/^\|/ { exit } inside' "$page"
}

case ${1:-} in
--check)
    printed=$(table)
    if [ "$printed" = "$(listed)" ]; then
        echo '1 passed, 0 failed'
    else
        echo "$page hasn't the table that docs/refusals.sh prints"
        echo '0 passed, 1 failed'
        exit 1
    fi ;;
--write)
    table > "$page.table"
    awk -v table="$page.table" '
        /^\| Number \|/ { while ((getline line < table) > 0) print line; inside = 1; next }
        inside && /^\|/ { next }
        { inside = 0; print }
    ' "$page" > "$page.new"
    mv "$page.new" "$page"
    rm "$page.table" ;;
*) table ;;
esac
