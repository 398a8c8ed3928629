# Steps that a script takes with the program, one line each. The scripts of examples/ read it; they are called
# with the program as their first argument.
here=$(cd "$(dirname "$0")" && pwd)
. "$here/shared/program.sh"

passed=0
failed=0
service=
folder=$(mktemp -d)
trap 'stop_service; rm -rf "$folder"' EXIT
trap 'exit 1' HUP INT TERM
cd "$folder" || exit 1

# A service that is still there at the end is ended.
stop_service() {
    [ -z "$service" ] || kill "$service" 2> /dev/null || true
    service=
}

# One step: its name, what is wanted as a pattern of the shell, and what came.
step() {
    case $3 in
    $2)
        passed=$((passed + 1))
        echo "ok      $1: $3"
        ;;
    *)
        failed=$((failed + 1))
        echo "FAILED  $1: wanted $2"
        echo "        but came $3"
        ;;
    esac
}

# What a command says on both streams, and then its exit status.
told() {
    code=0
    "$@" > told.out 2>&1 || code=$?
    said=$(tr '\n' '|' < told.out)
    echo "${said%|} ($code)"
}

# What a check says of a file, but that it has a log; and then its exit status.
checked() {
    code=0
    "$program" check "$1" > told.out 2> told.err || code=$?
    said=$(cat told.out told.err | sed '/^vault: the file has a log, /d' | tr '\n' '|')
    echo "${said%|} ($code)"
}

# Copies a file without a log, in place of another one and its log.
copy() {
    rm -f "$2" "$2"-*
    cp "$1" "$2"
}

# Waits for a tenth of a second.
pause() {
    sleep 0.1 2> /dev/null || sleep 1
}

# Starts a service by these words, on a free port, and waits until it says its port or has ended.
start_service() {
    "$program" serve "$@" > served 2> errors &
    service=$!
    port=
    tries=0
    while [ -z "$port" ] && [ "$tries" -lt 100 ] && kill -0 "$service" 2> kill.err; do
        pause
        port=$(sed -n 's/^listening \([0-9][0-9]*\)$/\1/p' served)
        tries=$((tries + 1))
    done
}

# The same of a service that has to listen, which is a step.
must_serve() {
    start_service "$@"
    step "a service says its port" 'listening [0-9]*' "$(cat served errors)"
}

# Asks the service as a caller: the caller, the method, the target, and what else curl is to be told. Answers
# the body, and then the status.
ask() {
    caller=$1 method=$2 target=$3
    shift 3
    curl -sS --noproxy '*' --max-time 20 -w ' %{http_code}' -X "$method" -H "X-Vault-Caller: $caller" "$@" \
        "http://127.0.0.1:$port$target" 2>&1 || true
}

# Asks for a single-use token of a card number, with a request number.
ask_token() {
    ask till-1 POST /v1/merchants/shop1/tokens -H "X-Vault-Request: $1" \
        --data '{"number":"4111111111111111","use":"single"}'
}

# The token in an answer.
token_of() {
    echo "$1" | sed -n 's/.*"token":"\([0-9]*\)".*/\1/p'
}

install() {
    apt-get install -y "$1" || { apt-get update && apt-get install -y "$1"; } || apk add "$1"
}

# Makes sure that a program is there.
need() {
    command -v "$1" > /dev/null && return
    install "$1" > install.log 2>&1 || true
    command -v "$1" > /dev/null && return
    echo "$1 is missing and couldn't be installed: 'apt-get install $1' or 'apk add $1' does it"
    failed=$((failed + 1))
    end
}

# Counts the steps, and ends.
end() {
    echo "$passed passed, $failed failed"
    [ "$failed" -eq 0 ] || exit 1
    exit 0
}
