#!/bin/sh
# How much memory a check and a move of a file with 120,000 tokens take and a service over it keeps, and how
# long the log of a batch and that of a sweep grow. sh trials/sizes.sh [PROGRAM]
set -eu
. "$(dirname "$0")/shared/begin.sh"
has_allocator=
if need jeprof libjemalloc-dev; then has_allocator=yes; fi
python3 -m sizes "$program" $has_allocator
