#!/bin/sh
# What takes the package's service away, on such a machine: volumes that fill up, turn read-only or aren't
# there; a port that another vault has, a clock that jumped, and a service that hangs. A btrfs is warned of.
# sh trials/outages.sh [PROGRAM]
set -eu
. "$(dirname "$0")/shared/begin.sh"
wants_machine
wants mkfs.btrfs btrfs-progs
python3 -m units "$program" "$here/.." outages
