#!/bin/sh
# Proves the program with what it stands on, and leaves it as bin/vault.
set -eu
cd "$(dirname "$0")"
mkdir -p bin
echo "proving what the program stands on; from nothing this takes about 40 minutes on 4 cores"
echo "meanwhile, sh examples/first-token.sh tries the program without its proof"
(cd crates/vault_cli && rt run -- trial --now 1000 --digits 0 till-1 shop1 60 < ../../examples/first-token.http)
echo
cp crates/vault_cli/out/vault_cli bin/vault
echo "bin/vault is built and proved"
