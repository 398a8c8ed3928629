#!/bin/sh
# Times single-use tokens over a file, and a file's whole check, by the vault, by Python's sqlite3 and by C
# over libsqlite3: builds what run.py wants, and calls it. PROGRAM is vault_bench and VAULT the vault's
# program where they are built already. An empty ALONE leaves the vault alone out, and vault_bench isn't built.
# N, BEFORE, CHECKED, COUNTED and ROUNDS are run.py's.
set -eu
. "$(dirname "$0")/begin.sh"
program=${PROGRAM:-}
vault=${VAULT:-}
same=
crates='sql_tables vault_refusal vault_pan vault_core vault_rules vault_store vault_schema vault_tables'
crates="$crates vault_steps vault_sql vault_verdict vault_recover vault_migrate vault_blank"
crates="$crates vault_file"

needs python3 /usr/bin/time

# vault_bench is built with copies of the crates that it stands on, and is none of the repository's: the gate
# doesn't wait for it. What their own checks kept is copied too, and saves its time.
build_program() {
    build="$folder/build"
    mkdir -p "$build/crates/vault_bench/src"
    for crate in $crates; do
        cp -R "$here/../crates/$crate" "$build/crates/"
        grep "^$crate:" "$here/../crates.txt" >> "$build/crates.txt"
    done
    for source in "$here"/vault_bench/src/*.rattle; do
        cp "$source" "$build/crates/vault_bench/src/$(basename "$source" .rattle).rt"
    done
    echo "vault_bench: $crates sqlite" >> "$build/crates.txt"
    (cd "$build/crates/vault_bench" && rt run > /dev/null)
    program="$build/crates/vault_bench/out/vault_bench"
}

# The vault's own program, which stays as bin/vault.
build_vault() {
    sh "$here/../build.sh" > /dev/null
    vault="$here/../bin/vault"
}

# The C peer, where there are a compiler and libsqlite3 with its header.
build_same() {
    echo '#include <sqlite3.h>' > "$folder/probe.c"
    echo 'int main(void) { return sqlite3_libversion_number() == 0; }' >> "$folder/probe.c"
    if cc -o "$folder/probe" "$folder/probe.c" -lsqlite3 2> /dev/null; then
        cc -std=c11 -O2 -Wall -Wextra -o "$folder/same" "$here/same.c" -lsqlite3
        same="$folder/same"
    else
        echo 'no C compiler or no libsqlite3 with its header: the columns of C say -'
    fi
}

build_same
[ -n "$vault" ] || build_vault
[ -n "$program" ] || [ -z "${ALONE-yes}" ] || build_program
PROGRAM=$program VAULT=$vault SAME=$same python3 "$here/run.py"
