#!/bin/sh
# A service that follows its lists: the files of merchants and of rights are edited, renamed over, cut short,
# linked and removed while clients ask, and the service is killed in between. Dead tokens are purged by the caller
# that the list of merchants names. sh trials/followed.sh [PROGRAM]
set -eu
. "$(dirname "$0")/shared/begin.sh"
python3 -m followed "$program"
