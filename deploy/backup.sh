#!/bin/sh
# backup.sh [--snapshot] [--keep DAYS] FILE FOLDER
#
# Copies a vault's file and its log into FOLDER, under a name with the moment in UTC, which ends in `.db`. Its
# log stands beside it as `.db-wal`, and what `vault check` says of both as `.db.sound`. That one gets its
# name last: what has none is no copy. A copy counts only if the check finds it sound, with no fewer
# merchants, tokens and requests than the copy before, since none of the three ever falls. `restore.sh` leaves
# the counts of what was restored as FOLDER/restored, and the next copy is compared with those.
#
# The service has to be stopped, so that nobody writes FILE meanwhile: a file that is open is refused, and one
# that changes is told. `backup-now` copies under a service that runs. With `--snapshot`, FILE lies on a
# snapshot of its volume, which may be read-only: that is a state which a stop of the machine could have left,
# and any such state opens with all that was answered.
#
# `--keep DAYS` overwrites and removes older copies of FOLDER, once the new one counts. `--bytes FILE PART`
# copies alone, and `--taken PART FOLDER` does the rest: `backup-now` freezes between the two. VAULT names the
# program; it is `vault` if left out.
set -eu
umask 077
lib=$(cd "$(dirname "$0")" && pwd)
how=stopped
days=
fail() {
    echo "backup.sh: $1" >&2
    exit 1
}

# Copies the file and its log under another name; where the file system can, they share their blocks.
bytes() {
    cp --reflink=auto -- "$1" "$2"
    [ ! -e "$1-wal" ] || cp --reflink=auto -- "$1-wal" "$2-wal"
}
same() {
    cmp -- "$1" "$2" && { [ ! -e "$1-wal" ] || cmp -- "$1-wal" "$2-wal"; }
}

# Whether no count of `sound M E R` is below that of another.
no_fewer() {
    # shellcheck disable=SC2086
    set -- $1 $2
    [ "$2" -ge "$6" ] && [ "$3" -ge "$7" ] && [ "$4" -ge "$8" ]
}
# The counts of the copy before, or of what was restored since; nothing where there is none.
counts_before() {
    if [ -e "$folder/restored" ]; then
        cat "$folder/restored"
    else
        "$lib/newest" "$folder" | xargs -r cat
    fi
}

# Checks the copy, and gives its three files their names; each is on the disk before the next one has its
# name.
name_copy() {
    counts=$(nice -n 10 "$lib/counted" "$part") || fail "the copy isn't sound"
    before=$(counts_before)
    [ -z "$before" ] || no_fewer "$counts" "$before" ||
        fail "the copy has $counts, where the one before has $before: was an older vault put in its place?"
    echo "copy $counts"
    echo "$counts" > "$part.sound"
    sync -- "$part" "$part.sound"
    if [ -e "$part-wal" ]; then
        sync -- "$part-wal"
        mv -- "$part-wal" "$copy-wal"
    fi
    mv -- "$part" "$copy"
    sync -- "$folder"
    mv -- "$part.sound" "$copy.sound"
    rm -f -- "$folder/restored"
    sync -- "$folder"
    echo "$copy"
}

while :; do
    case ${1:-} in
    --snapshot) how=snapshot ;;
    --bytes) bytes "$2" "$3"; exit ;;
    --taken) how=taken ;;
    --keep)
        days=${2:-}
        shift
        ;;
    *) break ;;
    esac
    shift
done
[ $# -eq 2 ] || { echo "backup.sh [--snapshot] [--keep DAYS] FILE FOLDER" >&2; exit 2; }
file=$1
folder=$2
[ -f "$file" ] || fail "$file isn't there"
[ -d "$folder" ] || fail "$folder isn't there"
case $days in *[!0-9]*) fail "$days is no number of days" ;; esac
copy=$folder/vault-$(date -u +%Y%m%dT%H%M%SZ).db
[ "$how" != taken ] || copy=${file%.part}
part=$copy.part
trap 'rm -f "$part" "$part-wal" "$part.sound"' EXIT
trap 'exit 1' HUP INT TERM
for name in "$copy" "$copy-wal" "$copy.sound"; do
    [ ! -e "$name" ] || fail "$name is there already"
done
if [ "$how" != taken ]; then
    [ "$how" = snapshot ] || "$lib/counted" "$file" > /dev/null || fail "stop the service first"
    bytes "$file" "$part"
    same "$file" "$part" || fail "$file has changed while it was copied"
fi
name_copy

# Older copies, and after two hours what is left of one that was cut off. What a disk or a snapshot keeps of
# them beyond their names is beyond this.
[ -n "$days" ] || exit 0
cd "$folder"
find . -maxdepth 1 -type f -name 'vault-[0-9]*Z.db*' ! -name "${copy##*/}*" \
    \( -mtime "+$days" -o -name '*.part*' -mmin +120 \) -exec shred --remove -- {} +
