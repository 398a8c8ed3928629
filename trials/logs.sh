#!/bin/sh
# The log of both fronts: each request a line, no card number in any, files that are turned and kept for as
# long as they have to be, and who brought back numbers. Lines that somebody forged; and numbers that went out
# while the log couldn't be written. By root. sh trials/logs.sh [PROGRAM]
set -eu
. "$(dirname "$0")/shared/begin.sh"
wants_root "whose files are turned"
wants haproxy
wants nginx nginx-light
wants openssl
wants logrotate
wants rsyslogd rsyslog
module=prometheus_client
python_with $module > /dev/null || need "a module of python3-prometheus-client" python3-prometheus-client || :
python=$(python_with $module) || leave_out "prometheus_client of Python"
# a volume of its own, which nobody else sees
unshare -m --propagation private python3 -m logs "$program" "$here/.." "$python"
