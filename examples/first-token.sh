#!/bin/sh
# Sends one message to a vault in memory and shows its answer. The program is built without waiting for its
# proofs, unless one is given that is built already: sh examples/first-token.sh [PROGRAM]
set -eu
here=$(cd "$(dirname "$0")" && pwd)
if [ $# -gt 0 ]; then
    "$1" trial --now 1000 --digits 0 till-1 shop1 60 < "$here/first-token.http"
    echo
else
    cd "$here/../crates/vault_cli"
    rt try -- trial --now 1000 --digits 0 till-1 shop1 60 < "$here/first-token.http"
fi
