#!/bin/sh
# The description of the API against the service, against docs/REFUSALS.md and against itself; a client that
# Perl makes of it, through a front by deploy/nginx.conf; what that front answers itself; and the clients of
# examples/ where they aren't answered. sh trials/api.sh [PROGRAM]
set -eu
. "$(dirname "$0")/shared/begin.sh"

perl_with_modules() {
    perl -MOpenAPI::Client -MIO::Socket::SSL -e 1 2> /dev/null
}

# Whether a test passes, once packages of Debian's with its modules are installed where they may be.
passes() {
    test=$1
    shift
    $test && return 0
    for package; do need "a module of $package" "$package" || true; done
    $test
}

python=$(passes "python_with yaml,jsonschema" python3-yaml python3-jsonschema) ||
    leave_out "yaml or jsonschema of Python"
parts=
if passes perl_with_modules libopenapi-client-perl libio-socket-ssl-perl; then
    parts=perl
else
    echo "OpenAPI::Client of Perl isn't there and can't be installed: its part is left out"
fi
if need nginx nginx-light && need openssl openssl; then
    parts="$parts front"
    for tool in go:golang-go javac:default-jdk-headless node:nodejs; do
        need "${tool%:*}" "${tool#*:}" || echo "${tool%:*} isn't there and can't be installed: its till is left out"
    done
else
    echo "nginx or openssl isn't there and can't be installed: what is behind a front is left out"
fi
# shellcheck disable=SC2086
"$python" -m api "$program" "$here/.." $parts
