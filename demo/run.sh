#!/bin/sh
# The main job, as a user would do it: prove and build the library, link a small C program over the header, and let it say what of 37 sealed headers
# is due on each of two days. make-headers.py made the headers and what must be said, without our library. Then files that the program must refuse.
top=$(cd "$(dirname "$0")/.." && pwd)
. "$top/tools/common.sh"
. "$top/tools/fresh.sh"
# shellcheck disable=SC2086 # the flags are words
$CC -std=c99 -Wall -Wextra -Wpedantic ${CFLAGS:--O2} -o "$out/purge" demo/purge.c "$lib"
: >"$out/purge.out"
for day in 2025-06-01 2026-01-01; do
    status=0
    "$out/purge" demo/headers.sealed $day >"$out/said" || status=$?
    cat "$out/said"
    [ $status -eq 0 ] || fail "purge on $day ended with status $status"
    cat "$out/said" >>"$out/purge.out"
done
diff "$out/purge.out" demo/purge.expected || fail "purge said something else than demo/purge.expected"

# purged STATUS WORDS BYTES [DAY]: of a file of so many bytes, or with this day, purge says these words, and ends so
purged() {
    head -c "$3" /dev/zero >"$out/file"
    status=0
    "$out/purge" "$out/file" "${4:-2025-06-01}" >"$out/said" 2>&1 || status=$?
    if [ $status -eq "$1" ] && grep -F "$2" "$out/said"; then return; fi
    cat "$out/said"
    fail "purge of $3 bytes ended with status $status, or did not say: $2"
}
purged 1 'refused, it is empty' 0
for bytes in 1 17 591 65535; do
    purged 1 'refused, its length is no multiple of 16' $bytes
done
for bytes in 65537 65552; do
    purged 1 'refused, it has more than 65,536 bytes' $bytes
done
purged 0 'of 4096 records 0 are due and 4096 are kept' 65536
purged 1 'purge FILE DAY' 16 2025-13-01
echo "ok demo: 37 headers opened by one call, on two days what is due and what is kept; two calls refused, and files that are empty, cut or too long"
