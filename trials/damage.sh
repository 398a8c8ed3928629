#!/bin/sh
# Changed and damaged files, and messages that are none: each rule of a vault's rows broken once by SQL; the
# file and its log cut short and with pages zeroed, swapped or with a bit turned; and a table of messages
# through a service. sh trials/damage.sh PROGRAM [all]
# `all` damages every page in every way, where a seeded choice is the default; SEED sets its seed.
set -eu
. "$(dirname "$0")/shared/begin.sh"
export SECONDS_EACH="${SECONDS_EACH:-120}"
python3 -m damage "$program" "$@"
