#!/bin/sh
# Prints the definitions of specs/ that have these names: where each stands, its comment and its text. Without a
# name it lists all public ones. With `--check` it says whether each has a comment.
set -eu
cd "$(dirname "$0")/.."

# The public definitions of all specs: name, file and line, and 1 behind a comment that isn't the file's own. An
# indented `pub` alone is a field of a record.
definitions() {
    find crates/*/specs -name '*.antt' ! -name Lib.antt | LC_ALL=C sort | xargs awk '
        FNR == 1 { top = 1; said = 0 }
        /^ *--/ { said = !top; next }
        { top = 0 }
        /^( *(abbrev|unfoldable) pub | *pub (record|data) |pub )/ && !/^ *pub (use|mod) / {
            name = $0
            sub("^ *((abbrev|unfoldable) )?pub ((record|data) )?", "", name)
            sub("[ :({].*", "", name)
            print name, FILENAME, FNR, said
        }
    '
}

# The comment of the definition on this line of a file, and its text. Without a comment of its own it belongs to
# the one before it.
shown() {
    awk -v line="$2" '
        function printed(from, to) { for (; from <= to; from++) print lines[from] }
        { lines[FNR] = $0 }
        END {
            for (first = line; lines[first - 1] != ""; first--) continue
            for (last = line; lines[last + 1] != ""; last++) continue
            for (below = line; below > 1 && lines[below] !~ /^ *--/; below--) continue
            for (above = below; lines[above - 1] ~ /^ *--/; above--) continue
            if (below < first) printed(above, below)
            printed(first, last)
        }
    ' "$1"
}

case ${1:-} in
'') definitions | sed 's/ .$//' | LC_ALL=C sort ;;
--check)
    definitions | awk '
        $4 == 0 { failed++; printf "%s:%d: %s has no comment\n", $2, $3, $1 }
        $4 == 1 { passed++ }
        END { printf "%d passed, %d failed\n", passed, failed; exit failed > 0 }
    '
    ;;
*)
    for wanted in "$@"; do
        places=$(definitions | WANTED=$wanted awk '$1 == ENVIRON["WANTED"]')
        if [ -z "$places" ]; then
            echo "no public definition of specs is named $wanted" >&2
            exit 1
        fi
        printf '%s\n' "$places" | while read -r _ file line _; do
            echo "$file:$line"
            shown "$file" "$line"
            echo
        done
    done
    ;;
esac
