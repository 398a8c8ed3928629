#!/bin/sh
# The package's copies on their second day, on an empty Debian that is made for it and booted beside this
# machine: copies of a vault that serves, ended at each of their steps, and restores. sh trials/units.sh
# [PROGRAM] [FREEZES] [all]
set -eu
. "$(dirname "$0")/shared/begin.sh"
wants_machine
python3 -m units "$program" "$here/.." copies "$@"
