#!/bin/sh
# Wrong bodies that the gate has no time for: the prover has to refuse each. It wants the kit, and goes on
# from what the gate proved on this machine; else it proves all that lies below first, for an hour.
# sh trials/wrong.sh [PROGRAM]
set -eu
. "$(dirname "$0")/shared/begin.sh"
. "$here/shared/steps.sh"
command -v rt > /dev/null || leave_out rt
cp -r "$here/../crates" "$here/../crates.txt" "$here/../HANDLES" .
# those that the gate itself tries are left out here
rm -rf crates/*/out crates/*/must-fail
crates=
for bodies in "$here"/wrong/*; do
    crate=${bodies##*/}
    mkdir "crates/$crate/must-fail"
    cp "$bodies"/*.edit "crates/$crate/must-fail"
    crates="$crates $crate"
done
# shellcheck disable=SC2086
rt ci $crates 2>&1 | tee told || :
for edit in "$here"/wrong/*/*.edit; do
    name=${edit#"$here/wrong/"}
    step "$name" "$(holds grep -qF "must-fail $name: refused, as it must be" told)"
done
counted
