#!/bin/sh
# At the C boundary, with no Rust: every exported function at every length, against guard pages (boundary.c), and what each gives on random
# and patterned contents (stress.c), judged by a plain AES (plain.h, calls.h). First the header alone, as the oldest C and C++ that it is for.
# tests/boundary/run.sh [SEED]: stress.c with one seed, to repeat a failure; else with a fixed one and one of the day.
top=$(cd "$(dirname "$0")/../.." && pwd)
. "$top/tools/common.sh"
need_library
strict="-Wall -Wextra -Wpedantic -Werror -I include"
# shellcheck disable=SC2086 # the flags are words
{
    $CC -std=c99 $strict -fsyntax-only -x c include/locker_aes.h
    $CXX -std=c++98 $strict -fsyntax-only -x c++ include/locker_aes.h
    $CC -std=c11 -g -O2 $strict -fsanitize=undefined -fno-sanitize-recover=all -o "$out/boundary" tests/boundary/boundary.c "$lib"
    "$out/boundary"
    $CC -std=c11 -g -O2 $strict -o "$out/stress" tests/boundary/stress.c "$lib"
}
for seed in ${1:-197 "$(date +%Y%m%d)"}; do
    "$out/stress" "$seed" 2000
done
