# shellcheck shell=sh disable=SC2154 # sourced by run.sh, which sets out, lib and room
# tools/build.sh over a stand-in for rt: what it says, when it builds again, and how it fails.
tree=$room/tree
mkdir -p "$tree/tools"
cp -R crates.txt include "$tree/"
for part in crates/*/src crates/*/specs crates/*/proofs; do
    [ -d "$part" ] || continue
    mkdir -p "$tree/$part"
    cp -R "$part/." "$tree/$part"
done
cp tools/build.sh tools/archive.sh "$tree/tools/"
kit=$(sed -n 's/^pinned="\(.*\)".*/\1/p' tools/build.sh)

# build WHAT STATUS LINES PATTERN [NAME=VALUE..]: the status is this, so many lines are said (-: any number), and the pattern
# is among them
build() {
    what=$1 wanted=$2 lines=$3 pattern=$4
    shift 4
    status=0
    (cd "$tree" && env RT="$top/tests/install/stand-in/rt" STAND_IN_LIB="$lib" STAND_IN_KIT="$kit" V=0 "$@" tools/build.sh) \
        >"$out/said" 2>&1 || status=$?
    said=$(grep -c . "$out/said") || true
    [ "$lines" != - ] || said=-
    if [ $status -ne "$wanted" ] || [ "$said" != "$lines" ] || ! { echo && cat "$out/said"; } | grep -q "$pattern"; then
        cat "$out/said"
        fail "tools/build.sh, $what (status $status)"
    fi
}

build "without rt" 1 1 "no 'no-such-rt': the command of the Rattle kit ($kit)" RT=no-such-rt
build "without a C compiler" 1 1 "no C compiler 'no-such-cc'" CC=no-such-cc
[ ! -e "$tree/target" ] || fail "tools/build.sh began before it looked for what it needs"
build "the first time" 0 - '^build: \([0-9]*\) of \1: host_c, '
crates=$(sed -n 's/^build: the library rests on \([0-9]*\) crates; up to \1 are proved now.*/\1/p' "$out/said")
[ "$(grep -c '^build: [0-9]* of ' "$out/said")" = "$crates" ] || fail "tools/build.sh showed no line for each crate: $(cat "$out/said")"
build "again" 0 0 ""
sleep 0.1 # so that the times differ
touch "$tree/crates/sbox/src/lib.rt"
build "after a source was touched" 0 - "of $crates: host_c, "
build "with another kit" 0 - "note: the kit is 'another kit'" STAND_IN_KIT="another kit"
build "with the kit again" 0 - "of $crates: host_c, "
sleep 0.1
touch "$tree/crates.txt"
build "when a crate is not proved" 1 - "cipher: failed (1)" STAND_IN_FAILS=cipher
