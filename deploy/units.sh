#!/bin/sh
# units.sh FOLDER
#
# Puts the units of an installation into FOLDER: the templates for several vaults, as vault@.service, and
# those for one, as vault.service, which are made of the same files. systemd starts no template without an
# instance, and rejects a link from a plain name to a template, so one file can't be both.
#
# Where a name for several vaults has the instance, the one for one vault has nothing. What follows `#one` is
# for one vault, in place of the line above it.
set -eu
[ $# -eq 1 ] || { echo "units.sh FOLDER" >&2; exit 2; }
here=$(cd "$(dirname "$0")" && pwd)
for template in "$here"/*@.service "$here"/*@.timer; do
    grep -v '^#one ' "$template" > "$1/${template##*/}"
done
for unit in vault.service vault-backup.service vault-backup.timer; do
    sed -e 's/vault@%i/vault/g' -e 's/vault-%i/vault/g' -e 's/,\{0,1\} %i//' "$here/${unit%.*}@.${unit##*.}" |
        awk 'sub(/^#one /, "") { line = $0; next } NR > 1 { print line } { line = $0 } END { print line }' \
            > "$1/$unit"
done
cp "$here/vault-exporter.service" "$1"
