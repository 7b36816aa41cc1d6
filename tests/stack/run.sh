#!/bin/sh
# What the calls leave on the dead stack and in registers, and what the header's helper clears: tests/stack/run.sh [show]
# The callers are compiled by each compiler that is here, as C and as C++, at every level of optimisation.
top=$(cd "$(dirname "$0")/../.." && pwd)
. "$top/tools/common.sh"
. "$top/tools/fresh.sh"
strict="-Wall -Wextra -Wpedantic -Werror -I include"
# shellcheck disable=SC2086 # the flags are words
$CC -std=c11 -O2 $strict -c -o "$out/stack.o" tests/stack/stack.c
$CC -c -o "$out/on.o" tests/stack/on.S

tried=0
deepest=0
compilers=
for compiler in "$CC" gcc clang g++ clang++; do
    at=$(command -v "${compiler%% *}") || continue
    case $compiler in *++) language="-x c++ -std=c++98" ;; *) language="-x c -std=c99" ;; esac
    # cc is often gcc by another name, and clang++ is clang: each program once in each language
    at=$(basename "$(readlink -f "$at")"):${language##*=}
    case " $compilers " in *" $at "*) continue ;; esac
    compilers="$compilers $at"
    for options in -O0 -O2 -O3 -Os "-O2 -fstack-protector-all"; do
        # shellcheck disable=SC2086
        $compiler $language $options $strict -c -o "$out/calls.o" tests/stack/calls.c
        $CC -o "$out/stack" "$out/stack.o" "$out/on.o" "$out/calls.o" "$lib"
        "$out/stack" "$@" >"$out/said" || {
            cat "$out/said"
            fail "tests/stack, callers compiled by $compiler $options"
        }
        # what is shown differs from build to build in the callers' own frames alone
        [ $tried -gt 0 ] || sed '$d' "$out/said"
        deep=$(tail -n 1 "$out/said")
        [ "$deep" -le "$deepest" ] || deepest=$deep
        tried=$((tried + 1))
    done
done
echo "ok stack: from one block to three batches the door leaves nothing on the stack, locker_aes_clear_stack() nothing at all;" \
    "$deepest bytes of stack at most; $tried builds of the callers, by$compilers"
