#!/bin/sh
# A front by HAProxy before two vaults, by deploy/haproxy.cfg: subjects of certificates, attempts to get past
# it, what a caller is stopped at, TLS by two scanners, what is logged, and vaults that are away, which are a wait
# and no error. sh trials/haproxy.sh [PROGRAM]
set -eu
. "$(dirname "$0")/shared/begin.sh"
wants haproxy
wants openssl
need sslscan sslscan || :
need testssl testssl.sh || :
python3 -m haproxy "$program" "$here/.."
