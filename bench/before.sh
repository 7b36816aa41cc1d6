#!/bin/sh
# Is a change slower? bench/before.sh COMMIT [RUNS] times the library of COMMIT and that of HEAD, and the packing of both by itself, in turns
# in one process. Both are proved and built first, which takes minutes once, and kept below target/bench; docs/changes has what it printed. A commit
# from before the port (docs/PORT.md) needs the kit of its time, and is not built by this one.
top=$(cd "$(dirname "$0")/.." && pwd)
. "$top/tools/common.sh"
need "${CC%% *}" gcc
need objcopy binutils
commit=$(git rev-parse --verify --quiet "${1:?COMMIT}^{commit}") || fail "no commit $1"
head=$(git rev-parse HEAD)

# The packing of one batch, which no exported function does by itself: one more crate, in the two trees only. Before the design pass each width had
# modules of its own, and a state was put into eight words and not at an offset.
packing() {
    store='utils::w64::store(state,' load='utils::w64::load(state)' word=word::w64
    if [ -f "$tree/crates/utils/src/word.rt" ]; then store='utils::store(state, 0,' load='utils::load(state, 0)' word=word; fi
    cat <<END
#![tactic(auto)]

#[unsafe(no_mangle)]
pub extern "C" fn pack64(input: &[u8], state: &mut [u64]) -> u32 {
    if input.len() != 64 {
        return 3;
    }
    if state.len() != 8 {
        return 2;
    }
    $store $word::bitslice(input));
    0
}

#[unsafe(no_mangle)]
pub extern "C" fn unpack64(state: &[u64], output: &mut [u8]) -> u32 {
    if state.len() != 8 {
        return 2;
    }
    if output.len() != 64 {
        return 4;
    }
    $word::inv_bitslice($load, output);
    0
}
END
}

# build COMMIT: target/bench/COMMIT has its two archives. The tree stands outside the checkout, since rt refuses sources below target/; rt finds what
# checks in this checkout have proved.
tree=$(mktemp -d)
trap 'rm -rf "$tree"' EXIT
build() {
    [ ! -f "$out/$1/libhost.a" ] || return 0
    rm -rf "$tree" "${out:?}/$1"
    mkdir -p "$tree/crates/packing/src" "$out/$1"
    git archive "$1" | tar -x -C "$tree"
    packing >"$tree/crates/packing/src/lib.rt"
    echo 'packing staticlib: word utils' >>"$tree/crates.txt"
    echo "building $1"
    (cd "$tree" && tools/archive.sh && cd crates/packing && rt lib --cpu x86-64) >"$out/$1.log" 2>&1 ||
        fail "$1 is not built; target/bench/$1.log says why"
    cp "$tree/crates/packing/out/libpacking.a" "$tree/target/staticlib/libhost.a" "$out/$1/"
}

build "$commit"
build "$head"
for name in packing host; do
    symbols=$(nm --defined-only -g "$out/$commit/lib$name.a" | sed -n 's/^[0-9a-f]* T \(.*\)/--redefine-sym \1=before_\1/p')
    # shellcheck disable=SC2086 # two words for each symbol
    objcopy $symbols "$out/$commit/lib$name.a" "$out/before_$name.a"
done
$CC -std=c11 -D_POSIX_C_SOURCE=199309L -O3 -Wall -Wextra -o "$out/before" bench/before.c "$out/before_packing.a" "$out/before_host.a" \
    "$out/$head/libpacking.a" "$out/$head/libhost.a"
sed -n 's/^model name[[:space:]]*: /machine: /p' /proc/cpuinfo | head -1
"$out/before" "${2:-300}"
