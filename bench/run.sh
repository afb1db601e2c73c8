#!/bin/sh
# Times the program demo on large graph files: the median wall time of five runs each, with what it prints thrown away.
# Run it after `rt run` in crates/demo, which leaves the program there.
set -eu
root=$(cd "$(dirname "$0")/.." && pwd)
demo=$root/crates/demo/out/demo
[ -x "$demo" ] || { echo "no $demo: run rt run in crates/demo first" >&2; exit 1; }
folder=$(mktemp -d)
trap 'rm -rf "$folder"' EXIT
python3 "$root/bench/make_graphs.py" "$folder" largest=2048 largest=4096 features=8192 features=16384 \
    asks=80000 asks=160000 names=8192 names=16384 >/dev/null

# the time of one run in microseconds
run() {
    before=$(date +%s%N)
    "$demo" <"$1" >/dev/null
    after=$(date +%s%N)
    echo $(((after - before) / 1000))
}

for file in "$folder"/*.graph; do
    median=$(for _ in 1 2 3 4 5; do run "$file"; done | sort -n | sed -n 3p)
    "$demo" <"$file" >"$folder/out"
    printf '%-14s %8d us  %s\n' "$(basename "$file" .graph)" "$median" "$(sed -n 1p "$folder/out")"
done
