#!/bin/sh
# The pictures of docs/, from their texts in docs/pictures, by Graphviz. Without words it makes them; with
# `--check` it says whether each is of the text that stands beside it.
set -eu
cd "$(dirname "$0")/pictures"

sum() {
    sha256sum "$1" | cut -d' ' -f1
}

case ${1:-} in
--check)
    passed=0
    failed=0
    for text in *.dot; do
        if grep -qs "<!-- of $(sum "$text") -->" "${text%.dot}.svg"; then
            passed=$((passed + 1))
        else
            echo "docs/pictures/${text%.dot}.svg is not of its text: sh docs/pictures.sh"
            failed=$((failed + 1))
        fi
    done
    echo "$passed passed, $failed failed"
    [ "$failed" -eq 0 ]
    ;;
*)
    for text in *.dot; do
        { dot -Tsvg "$text" && echo "<!-- of $(sum "$text") -->"; } > "${text%.dot}.svg"
    done
    ;;
esac
