#!/bin/sh
# Peers that are slow, idle or without an end: none holds up another for longer than it may. And what each run
# draws anew, where it listens, and what a check leaves alone. sh trials/peers.sh [PROGRAM]
set -eu
. "$(dirname "$0")/shared/begin.sh"
python3 -m peers "$program"
