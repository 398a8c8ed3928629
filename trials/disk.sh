#!/bin/sh
# Runs the program over a disk that is full, and over one that fails at some call. sh trials/disk.sh [PROGRAM]
# [all] [--seed S]; all takes each call, and else some are chosen.
set -eu
. "$(dirname "$0")/shared/begin.sh"
. "$here/shared/counted.sh"
log=$folder/log
mkdir "$folder/small"

# Runs a part, shows what it says but its last line, and adds that one up.
passed=0
failed=0
part() {
    { "$@" 2>&1 || true; } | tee "$log" | sed '$d'
    counted=$(counted_in "$log")
    if [ -z "$counted" ]; then
        tail -n 1 "$log"
        counted='0 1'
    fi
    passed=$((passed + ${counted% *}))
    failed=$((failed + ${counted#* }))
}

# A file system of 4 MiB in memory, which is there for that part alone.
on_small() {
    unshare "$1" sh -c 'mount -t tmpfs -o size=4m tmpfs "$2" && exec python3 -m disk.small "$1" "$2"' \
        small "$program" "$folder/small"
}

# The words of `unshare` by which that file system may be mounted, or nothing.
may_mount() {
    for words in -m -rm; do
        if unshare "$words" mount -t tmpfs -o size=4m tmpfs "$folder/small" 2> "$log"; then
            echo "$words"
            return
        fi
    done
}

must_have cc 'gcc libc6-dev' build-base
cc -O2 -shared -fPIC -o "$folder/failing.so" "$here/shim/disk.c" -ldl
part python3 -m disk "$program" "$folder/failing.so" "$@"
how=$(may_mount)
if [ -n "$how" ]; then
    part on_small "$how"
else
    echo "a small file system: skipped, since none may be mounted here: $(head -n 1 "$log")"
fi
echo "$passed passed, $failed failed"
[ "$failed" -eq 0 ]
