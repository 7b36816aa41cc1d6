#!/bin/sh
# Times ours against the Rust, with BearSSL and OpenSSL beside them where Debian's libbearssl-dev and libssl-dev can be had:
# bench/run.sh [RUNS]. All are compiled for plain x86-64; only OpenSSL chooses by the processor. The ratio is the last
# column: below 1 is faster than the Rust, batch by batch or all in one call. The table is docs/SPEED.md's.
top=$(cd "$(dirname "$0")/.." && pwd)
. "$top/tools/common.sh"
. "$top/tools/fresh.sh"
. "$top/tests/oracle/build.sh"
runs=${1:-300}
libs=/usr/lib/$($CC -print-multiarch 2>/dev/null)
set -- --check-cfg 'cfg(bearssl, openssl)'
for other in bearssl:libbearssl.a:libbearssl-dev openssl:libcrypto.a:libssl-dev; do
    name=${other%%:*}
    file=${other#*:}
    package=${file#*:}
    file=$libs/${file%:*}
    if has "$file" "$package"; then
        $CC -std=c11 -O3 -Wall -Wextra -c -o "$out/$name.o" "bench/$name.c"
        set -- "$@" --cfg "$name" -C link-arg="$out/$name.o" -C link-arg="$file"
    else
        echo "skipped: $name, since Debian's $package cannot be installed here"
    fi
done
rust_program "$out/bench" bench/bench.rs -C link-arg="$lib" "$@"
sed -n 's/^model name[[:space:]]*: /machine: /p' /proc/cpuinfo | head -1
rustc --version
exec "$out/bench" "$runs"
