#!/bin/sh
# What the program says and leaves, run by run: each case has its words, its input and its files, and each
# status and each byte of the output and of the errors is judged. sh trials/runs.sh [PROGRAM]
set -eu
. "$(dirname "$0")/shared/begin.sh"
# help names the program as it was called
mkdir named
ln -s "$program" named/vault
python3 -m runs "$folder/named/vault"
