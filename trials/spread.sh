#!/bin/sh
# Three vaults behind one front, asked at once: each has its own merchant's tokens and no other, and all that
# were answered; bench/spread.sh in short. sh trials/spread.sh [PROGRAM]
set -eu
. "$(dirname "$0")/shared/begin.sh"
wants haproxy
wants openssl
PYTHONPATH=$here:$here/../bench
LASTING=2
export PYTHONPATH LASTING
python3 -m several "$program" "$(cd "$here/.." && pwd)"
