#!/bin/sh
# A standby, by the files of deploy/standby: two machines that qemu emulates, with DRBD, pacemaker and the
# package's unit, behind the front on a third place. The power of the one that serves is cut while sixteen tills
# ask, and each answer that went out is asked for again. Its folder takes 8 GB of a disk, and none in memory.
# With `typed` in place of CUTS there is no cluster, and somebody types the takeover.
# By root. sh trials/standby.sh [PROGRAM] [CUTS] [SEED]
set -eu
. "$(dirname "$0")/shared/begin.sh"
wants_root "who boots machines"
[ -c /dev/net/tun ] || leave_out /dev/net/tun
wants qemu-system-x86_64 qemu-system-x86
wants debootstrap
wants haproxy
wants openssl
wants mke2fs e2fsprogs
wants bridge iproute2
wants ssh-keygen openssh-client
python3 -m standby.image "$program" "$here/.."
# what runs in there has no network but its own, and ends with it
unshare --net --pid --fork --kill-child --mount-proc python3 -m standby "$@"
