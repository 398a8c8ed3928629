#!/bin/sh
# Kills the program at random moments: a service, pipes, batches, sweeps, rights files, moves to the newest
# schema. What was answered is found again. sh trials/kills.sh [PROGRAM] [--kills N] [--seed S]
set -eu
. "$(dirname "$0")/shared/begin.sh"
python3 -m kills "$program" "$@"
