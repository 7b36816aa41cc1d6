#!/bin/sh
# The static library against the Rust: tests/oracle/run.sh [long | COUNT [SEED]]
# COUNT batches under random keys (a million; `long` is ten), beside those of a pattern, from a fixed seed and from one of the day, or from SEED alone.
top=$(cd "$(dirname "$0")/../.." && pwd)
. "$top/tools/common.sh"
. "$top/tests/oracle/build.sh"
need_library
count=${1:-1000000}
[ "$count" != long ] || count=10000000
rust_program "$out/compare" tests/oracle/compare.rs -C link-arg="$lib"
for seed in ${2:-20240607 "$(date +%Y%m%d)"}; do
    "$out/compare" "$seed" "$count"
done
