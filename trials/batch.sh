#!/bin/sh
# A batch through a front, by examples/clients/batch.py: its answers are those of `vault batch`, and a run
# that is stopped, or whose vault is, goes on. sh trials/batch.sh [PROGRAM]
set -eu
. "$(dirname "$0")/shared/begin.sh"
wants haproxy
wants openssl
python3 -m batch "$program" "$here/.."
