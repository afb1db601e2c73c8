#!/bin/sh
# Builds the static library of the crate `boundary`, links it into the benchmark, makes the graphs, and runs it.
# Arguments are handed on: [--limit SECONDS] [--settle ROWS], as bench/README.md says.
set -eu
root=$(cd "$(dirname "$0")/../.." && pwd)
here=$root/bench/resolver
out=$root/crates/boundary/out
(cd "$root/crates/boundary" && rt lib)
# what the library's allocator calls is in an archive of the kit
kit=$(dirname "$(rt doc)")
rustc --edition 2024 -O "$here/main.rs" -o "$out/bench" \
    -C link-arg="$out/libboundary.a" -C link-arg="$kit/c/liblibc_c.a"
python3 "$root/bench/make_graphs.py" "$out/graphs" >/dev/null
"$out/bench" "$out/graphs" "$@"
