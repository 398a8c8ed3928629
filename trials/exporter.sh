#!/bin/sh
# The exporter of deploy/ before a front and two vaults: what it says of merchants, of a vault that is away
# and of a right that it hasn't; and the alerts, by promtool. sh trials/exporter.sh [PROGRAM]
set -eu
. "$(dirname "$0")/shared/begin.sh"
wants haproxy
wants openssl
wants promtool prometheus
need faketime faketime || :
module=prometheus_client
python_with $module > /dev/null || need "a module of python3-prometheus-client" python3-prometheus-client || :
python=$(python_with $module) || leave_out "prometheus_client of Python"
python3 -m exporter "$program" "$here/.." "$python"
