# Finds the program that a script runs: its first argument, or left out, where `rt run` and the gate leave it.
# A script that reads this has set `here` to its own folder, which stands beside crates/.
program=${1:-$here/../crates/vault_cli/out/vault_cli}
case $program in
/*) ;;
*) program=$PWD/$program ;;
esac
if [ ! -x "$program" ]; then
    echo "no program at $program: sh build.sh builds it, and its path may be the first argument"
    echo "0 passed, 1 failed"
    exit 1
fi
