#!/bin/sh
# A front over TLS before two vaults, by deploy/nginx.conf; 32 clients send 2,000 messages while a vault is
# killed and started again; what a caller is stopped at; TLS by two scanners; and the clients of examples/.
# sh trials/front.sh [PROGRAM]
set -eu
. "$(dirname "$0")/shared/begin.sh"
wants nginx nginx-light
wants openssl
need sslscan sslscan || :
need testssl testssl.sh || :
python3 -m front "$program" "$here/.."
