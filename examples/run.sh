#!/bin/sh
# Compiles the examples, as C and as C++, runs them, and holds what they write to NAME.expected: make-expected.py makes two of these by OpenSSL, and
# check.expected has values that tools/check_values.py makes so.
top=$(cd "$(dirname "$0")/.." && pwd)
. "$top/tools/common.sh"
. "$top/tools/fresh.sh"
strict="-Wall -Wextra -Wpedantic -Werror -I include"
for example in door many check; do
    # shellcheck disable=SC2086 # the flags are words
    {
        $CC -std=c99 $strict ${CFLAGS:--O2} -o "$out/$example" examples/$example.c "$lib"
        $CXX -x c++ -std=c++98 $strict ${CXXFLAGS:--O2} -o "$out/$example++" examples/$example.c -x none "$lib"
    }
    for program in "$out/$example" "$out/$example++"; do
        "$program" >"$program.out" || fail "$program ended with status $?"
        diff "$program.out" "examples/$example.expected" || fail "$program wrote something else than examples/$example.expected"
    done
done
echo "ok examples: door, many and check, as C and as C++, wrote what they should"
