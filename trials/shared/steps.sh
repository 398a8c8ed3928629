# Steps that a trial of the shell judges and counts; it is read behind begin.sh.
passed=0
failed=0

# One step: its name, whether it holds, and what was said.
step() {
    if [ "$2" = yes ]; then
        passed=$((passed + 1))
    else
        failed=$((failed + 1))
        echo "FAILED  $1${3:+: $3}"
    fi
}

# yes or no, by a command's status.
holds() { if "$@" > said 2>&1; then echo yes; else echo no; fi; }

# The last line, and the script's end.
counted() {
    echo "$passed passed, $failed failed"
    [ "$failed" -eq 0 ]
}
