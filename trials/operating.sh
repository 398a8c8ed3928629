#!/bin/sh
# Every block of docs/OPERATING.md, typed by root in one shell from the first to the last, on an empty Debian
# that is made for it and booted beside this machine: the package, the unit, the front, copies, alarms.
# sh trials/operating.sh [PROGRAM]
set -eu
. "$(dirname "$0")/shared/begin.sh"
wants_machine
python3 -m operating "$program" "$here/.."
