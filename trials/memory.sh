#!/bin/sh
# Jobs to which one request for memory is refused: the first, the second, and so on until none is. Each ends
# as with all memory, or says that memory was refused; and nothing else goes out in the place of an answer.
# sh trials/memory.sh PROGRAM [all]
# `all` refuses each request. The default is the first 300, those around a change of the outcome, and a seeded
# thousandth of the others; SEED sets its seed. It wants a C compiler, and a program that takes its memory
# from the C library that is linked as it starts.
set -eu
. "$(dirname "$0")/shared/begin.sh"
export SECONDS_EACH="${SECONDS_EACH:-120}"
must_have cc 'gcc libc6-dev' build-base
cc -std=c11 -O2 -Wall -Wextra -shared -fPIC -o "$folder/preloaded.so" "$here/shim/memory.c" -ldl
python3 -m memory "$program" "$folder/preloaded.so" "$@"
