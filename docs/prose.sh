#!/bin/sh
# How long the pages are, and how hard to read: words, the words of the longest sentence, and the longest cell of
# a table. Each page has sentences of at most 30 words and cells of at most 40; some have a limit of words.
set -eu
cd "$(dirname "$0")/.."

# The pages that have a limit, each with its words.
limits='bench/README.md 1500
bench/RUNS.md 2500
docs/ARCHITECTURE.md 1200
docs/CONTRIBUTING.md 1250
docs/DECISIONS.md 2700
docs/LIMITS.md 1570
docs/MODEL.md 1500
docs/PROVED.md 1200
docs/STANDBY.md 1200'

# Words, the longest sentence and the longest cell of a page. Code between fences isn't prose.
measured() {
    awk '
        function counted(text,    words) { gsub(/\[|\]\([^)]*\)|[`*|]/, " ", text); return split(text, words, " ") }
        function longest_in(text,    parts, n, i, size) {
            n = split(text, parts, /[.:;?!]( |$)/)
            for (i = 1; i <= n; i++) { size = counted(parts[i]); if (size > longest) longest = size }
        }
        /^```/ { fenced = !fenced; next }
        fenced { next }
        { total += NF }
        /^\|[-|]*$/ || /^$/ { next }
        /^\|/ {
            n = split($0, cells, "|")
            for (i = 2; i < n; i++) { size = counted(cells[i]); if (size > widest) widest = size }
            next
        }
        { longest_in($0) }
        END { printf "%d %d %d\n", total, longest, widest }
    ' "$1"
}

passed=0
failed=0
for page in README.md docs/*.md bench/*.md trials/README.md; do
    sizes=$(measured "$page")
    words=${sizes%% *}
    rest=${sizes#* }
    most=$(printf '%s\n' "$limits" | sed -n "s#^$page ##p")
    printf '%-24s %6d words, sentence %3d, cell %3d\n' "$page" "$words" "${rest% *}" "${rest#* }"
    if [ "$words" -le "${most:-$words}" ] && [ "${rest% *}" -le 30 ] && [ "${rest#* }" -le 40 ]; then
        passed=$((passed + 1))
    else
        echo "$page is over a limit: ${most:-any} words, 30 a sentence, 40 a cell"
        failed=$((failed + 1))
    fi
done
echo "$passed passed, $failed failed"
[ "$failed" -eq 0 ]
