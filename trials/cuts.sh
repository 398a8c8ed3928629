#!/bin/sh
# Cuts the power of a disk that writes down each write and each flush, and opens what such a cut may leave.
# By root alone. sh trials/cuts.sh [PROGRAM] [all] [--seed S] [--only CASE]; all takes three file systems, and
# 2,600 states. Where no disk can be mounted, it is left out.
set -eu
. "$(dirname "$0")/shared/begin.sh"
wants_root 'who mounts disks'
[ -c /dev/fuse ] || leave_out /dev/fuse
[ -c /dev/loop-control ] || leave_out /dev/loop-control
unshare --mount --pid --fork true || leave_out 'a name space of its own'
wants mkfs.ext4 e2fsprogs
case " $* " in
*' all '*)
    wants mkfs.xfs xfsprogs
    wants mkfs.btrfs btrfs-progs
    ;;
esac
must_have cc 'gcc libc6-dev' build-base
cc -O2 -shared -fPIC -o "$folder/unsynced.so" "$here/shim/unsynced.c"
mkdir -p "$folder/mounts/memory"
# What is mounted and started is so for this alone, in memory, and gone with the first process of it. No disk
# is mounted below its own image: a kill would leave such a pair for good.
unshare --mount --pid --fork --kill-child --mount-proc sh -c \
    'mount -t tmpfs -o size=3g tmpfs "$1" && TMPDIR=$1 exec python3 -m cuts "$@"' \
    cuts "$folder/mounts/memory" "$program" "$folder/unsynced.so" "$@"
