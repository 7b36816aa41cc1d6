#!/bin/sh
# What the quick runs need is here, or can be installed: found out before the proving and not after it.
# Without the Rust two runs are skipped, which fails the gate unless GATE_ALLOW_SKIP=1.
top=$(cd "$(dirname "$0")/.." && pwd)
. "$top/tools/common.sh"
need "${CC%% *}" gcc
need "${CXX%% *}" g++
need nm binutils
need python3 python3
need valgrind valgrind
need make make
need pkg-config pkgconf
has /usr/include/valgrind/memcheck.h valgrind || fail "no header valgrind/memcheck.h, which Debian's package valgrind brings"
has_rust || {
    echo "skipped: $missing"
    [ "${GATE_ALLOW_SKIP:-}" = 1 ]
}
