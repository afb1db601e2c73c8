#!/bin/sh
# Builds the static library of the crate `boundary`, links it into the C program, and runs that. The argument is the
# number of bytes of the thread's stack; without one it is 1 MiB.
set -eu
root=$(cd "$(dirname "$0")/../.." && pwd)
out=$root/crates/boundary/out
(cd "$root/crates/boundary" && rt lib)
# what the library's allocator calls is in an archive of the kit
kit=$(dirname "$(rt doc)")
cc -std=c11 -O2 -Wall -Wextra -pthread "$root/bench/c/open_in_thread.c" "$out/libboundary.a" "$kit/c/liblibc_c.a" \
    -o "$out/open_in_thread"
"$out/open_in_thread" "${1:-1048576}"
