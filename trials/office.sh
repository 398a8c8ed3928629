#!/bin/sh
# The page for the back office in a real Chromium, by a client's certificate, behind both fronts: what it
# shows, for how long, what it never sends and what it leaves behind. By root, whose browser has policies and
# certificates of the trial's own. sh trials/office.sh [PROGRAM [--screens FOLDER]]
set -eu
screens=
[ "${2:-}" != --screens ] || screens=$(cd "$3" && pwd)
. "$(dirname "$0")/shared/begin.sh"
wants_root "whose browser has policies of its own"
wants chromium
wants chromedriver chromium-driver
wants certutil libnss3-tools
wants unshare util-linux
wants haproxy
wants nginx nginx-light
wants openssl
python3 -m office "$program" "$here/.." "$screens"
