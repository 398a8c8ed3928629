#!/bin/sh
# Every trial in full, one after the other, and a table of their figures. sh trials/all.sh PROGRAM
set -eu
here=$(cd "$(dirname "$0")" && pwd)
. "$here/../examples/shared/program.sh"
. "$here/shared/counted.sh"
folder=$(mktemp -d)
trap 'rm -rf "$folder"' EXIT
trap 'exit 1' HUP INT TERM
passed=0
failed=0

# Runs a script, shows what it says, and adds a row for it. One without its closing line counts as a failure,
# and so does one that fails without counting a failure.
try() {
    echo "== $*"
    script=$1
    shift
    start=$(date +%s)
    { sh "$here/$script" "$program" "$@" 2>&1 && echo 0 >&3 || echo $? >&3; } 3> "$folder/status" |
        tee "$folder/log"
    spent=$(($(date +%s) - start))
    closing=$(counted_in "$folder/log")
    good=${closing%% *}
    bad=${closing##* }
    if [ "$(cat "$folder/status")" -ne 0 ] && [ "${bad:-0}" -eq 0 ]; then
        bad=1
    fi
    passed=$((passed + ${good:-0}))
    failed=$((failed + ${bad:-1}))
    echo "| \`$script${*:+ $*}\` | ${good:-0} | ${bad:-1} | $spent |" >> "$folder/table"
}

try kills.sh --kills 500
try disk.sh all
try cuts.sh all
try damage.sh all
try memory.sh all
try bytes.sh --streams 3000
try units.sh 2000 all
try outages.sh
for script in followed front haproxy office exporter logs batch spread; do
    try "$script.sh"
done
try standby.sh
try wrong.sh
echo
echo '| Trial | Passed | Failed | Seconds |'
echo '|---|---|---|---|'
cat "$folder/table"
echo "$passed passed, $failed failed"
[ "$failed" -eq 0 ]
