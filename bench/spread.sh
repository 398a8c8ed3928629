#!/bin/sh
# New tokens a second of 1, 2, 4 and 8 vaults behind a front by HAProxy, all on this machine, with the load.
# sh bench/spread.sh [PROGRAM]
# VAULTS is which numbers of vaults there are, LASTING how many seconds each is asked, and CLIENTS how many
# ask each vault.
set -eu
. "$(dirname "$0")/begin.sh"
program=$(realpath "${1:-$here/../crates/vault_cli/out/vault_cli}")
needs python3 haproxy openssl "$program"
export PYTHONPATH="$here/../trials" PYTHONDONTWRITEBYTECODE=1
# shellcheck disable=SC2086
python3 "$here/spread.py" "$program" "$(realpath "$here/..")" "$folder" ${VAULTS:-1 2 4 8}
