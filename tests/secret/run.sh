#!/bin/sh
# Every exported function under valgrind's memcheck with key, schedule and block bytes marked as undefined, but for one bit of a key, which says
# that it is not zeros: a branch or an address that depends on anything else fails the run. Five faults planted in front of the calls must be
# caught, or the run fails too.
top=$(cd "$(dirname "$0")/../.." && pwd)
. "$top/tools/common.sh"
need_library
need valgrind valgrind
$CC -std=c11 -gdwarf-4 -O1 -Wall -Wextra -Wpedantic -Werror -I include -o "$out/secret" tests/secret/secret.c "$lib"

# watch ARGUMENT..: 9 where memcheck reports anything
watch() {
    status=0
    valgrind --quiet --error-exitcode=9 --leak-check=no --log-file="$out/memcheck.log" "$out/secret" "$@" || status=$?
}

watch
[ $status -eq 0 ] || {
    head -40 "$out/memcheck.log"
    fail "memcheck reports a use of secret bytes, or the run ended with status $status"
}
for fault in 'branch:Conditional jump' 'lookup:Use of uninitialised value' 'early:Conditional jump' 'refused:Conditional jump' \
    'part:Conditional jump'; do
    watch "${fault%%:*}"
    grep -A1 "${fault#*:}" "$out/memcheck.log" | grep -q ' with_fault (.*secret.c' ||
        fail "the planted ${fault%%:*} was not caught (status $status; $out/memcheck.log)"
done
echo "ok secret: no report, and the five planted faults were caught"
