#!/bin/sh
# Times a batch of rows by the program, and by Python's csv and sqlite3, in turn. sh bench/batch.sh [PROGRAM]
# N is how many rows the batch has, and ROUNDS how often each side is timed.
set -eu
. "$(dirname "$0")/begin.sh"
. "$here/../examples/shared/program.sh"
needs python3

# What the figures depend on beside the machine's load, which stands with them.
cores=$(getconf _NPROCESSORS_ONLN)
disk=$(df -P "${TMPDIR:-/tmp}" | awk 'NR == 2 { print $1 }')
echo "$cores cores, the files on $disk"
echo
python3 "$here/batch.py" "$program"
