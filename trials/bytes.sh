#!/bin/sh
# Bytes from a seed, cut in many ways, as messages to a pipe and to a service: the answers are the same
# however the bytes are cut, and are those that a second reader expects, which trials/reader/ is.
# sh trials/bytes.sh PROGRAM [--streams N] [--seed S]
set -eu
. "$(dirname "$0")/shared/begin.sh"
export SECONDS_EACH="${SECONDS_EACH:-120}"
python3 -m random_bytes "$program" "$@"
