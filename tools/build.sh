#!/bin/sh
# Proves the crates that the library rests on and builds it into target/lib: liblocker_aes.a and liblocker_aes.so.N (N is
# LOCKER_AES_ABI of the header). Quick when nothing has changed. CC, CFLAGS and LDFLAGS link the shared library; RT is the
# kit's command; V=1 shows all that the prover says.
set -eu
cd "$(dirname "$0")/.."
rt=${RT:-rt}
export RT="$rt" # for tools/archive.sh
cc=${CC:-cc}
header=include/locker_aes.h
proved=target/staticlib/libhost.a
shared=target/lib/liblocker_aes.so.$(sed -n 's/^#define LOCKER_AES_ABI  *\([0-9]*\).*/\1/p' $header)
log=target/log/build.log
pinned="rattle-kit-13f logic dac8208d650f15bf" # the kit that this repository was proved with

fail() {
    echo "build: $*" >&2
    exit 1
}

# The crates that host_c rests on, each behind its own dependencies; host_c is the last.
crates=$(awk '
    function visit(n,    a, k, m) {
        if (n in seen || !(n in deps)) return
        seen[n]
        m = split(deps[n], a, " ")
        for (k = 1; k <= m; k++) visit(a[k])
        print n
    }
    { sub(/#.*/, ""); sub(/^[ \t]+/, ""); i = index($0, ":") }
    i { split($0, words, /[ \t:]+/); deps[words[1]] = substr($0, i + 1) }
    END { visit("host_c") }' crates.txt)
count=$(echo "$crates" | grep -c .)

# newer FILE PATH..: one of the paths, or a file below one, is newer than the file
newer() {
    than=$1
    shift
    find "$@" -newer "$than" 2>/dev/null | grep -q .
}

# changed CRATE SINCE: its times say so; rt itself decides by content
changed() {
    newer "$2" "crates/$1/src" "crates/$1/specs" "crates/$1/proofs"
}

is_proved() {
    [ -f $proved ] || return 1
    [ ! -f target/lib/kit ] || [ -z "$kit" ] || [ "$(cat target/lib/kit)" = "$kit" ] || return 1
    ! newer $proved crates.txt || return 1
    for crate in $crates; do
        ! changed "$crate" $proved || return 1
    done
}

is_linked() {
    [ -f "$shared" ] && ! newer "$shared" $proved $header tools/build.sh
}

kit=$("$rt" version 2>/dev/null) || kit=
if is_proved && is_linked; then exit 0; fi

# What is needed, before the long work starts.
[ -n "$kit" ] ||
    fail "no '$rt': the command of the Rattle kit ($pinned), which proves and compiles the crates, is expected on PATH or as RT=.."
command -v "${cc%% *}" >/dev/null || fail "no C compiler '$cc', which links the shared library (CC=..)"
# shellcheck disable=SC2086 # CC and CFLAGS are words
echo '#include "include/locker_aes.h"' | $cc ${CFLAGS:-} -I. -x c -fsyntax-only - || fail "'$cc' cannot compile $header"
case $($cc -dumpmachine) in
    x86_64*) ;;
    *) fail "'$cc' compiles for $($cc -dumpmachine); the library is for x86-64" ;;
esac
[ "$kit" = "$pinned" ] || echo "build: note: the kit is '$kit'; this repository was proved with '$pinned'"

# One line for each crate out of all that is said: what rt says of a crate begins with `== NAME` and comes at once, when the crate is done, and
# nothing is said of one that has not changed. The seconds are since the start.
progress() {
    k=0
    name=
    began=$(date +%s)
    while IFS= read -r line; do
        case $line in
            '== '*) tell; name=${line#== } ;;
            'logic=proved '*) tell ;;
            'logic=not-proved'*) name= ;;
        esac
    done
    tell
}

tell() {
    case $name in '' | summary) return ;; esac
    k=$((k + 1))
    echo "build: $k of $count: $name, $(($(date +%s) - began)) s"
    name=
}

if ! is_proved; then
    # due is what has changed and what rests on that; host_c, which no crate takes as a library, has no stamp
    due=' '
    for crate in $crates; do
        stamp=crates/$crate/out/rlib/stamp
        again=no
        if [ ! -f "$stamp" ] || changed "$crate" "$stamp"; then again=yes; fi
        deps=$(sed -n "s/#.*//; s/^$crate *\(staticlib\)* *://p" crates.txt)
        for dep in $deps; do
            case $due in *" $dep "*) again=yes ;; esac
        done
        [ $again = no ] || due="$due$crate "
    done
    n=$(echo "$due" | wc -w)
    echo "build: the library rests on $count crates; up to $n are proved now, at about ten seconds each:" \
        "$(((n + 5) / 6)) min or so, more on a busy machine"
    mkdir -p target/log
    if [ "${V:-0}" != 0 ]; then
        tools/archive.sh || fail "not proved"
    else
        # the status of a pipe's first part is lost, so a file carries it
        {
            status=0
            tools/archive.sh || status=$?
            echo $status >$log.status
        } 2>&1 | tee $log | progress
        [ "$(cat $log.status)" -eq 0 ] || {
            tail -n 40 $log
            fail "not proved: the end of what the prover said is above, the whole in $log (V=1 shows it as it comes)"
        }
    fi
fi

mkdir -p target/lib
cp $proved target/lib/liblocker_aes.a
# what the header declares is exported, and nothing else
{
    echo '{ global:'
    sed -n 's/^uint32_t \(locker_aes[a-z0-9_]*\)(.*/    \1;/p' $header
    echo '  local: *; };'
} >target/lib/exports.map
# without start files, of which a library with no constructor needs none, memset is all that it asks for
# shellcheck disable=SC2086
$cc ${CFLAGS:-} ${LDFLAGS:-} -shared -nostartfiles -o "$shared.new" -Wl,-soname,"${shared##*/}" \
    -Wl,--version-script=target/lib/exports.map -Wl,-z,defs -Wl,-z,relro -Wl,-z,now -Wl,-z,noexecstack \
    -Wl,--whole-archive target/lib/liblocker_aes.a -Wl,--no-whole-archive
mv "$shared.new" "$shared"
ln -f "$shared" target/lib/liblocker_aes.so # no symbolic link: rt ci refuses one anywhere in the checkout
echo "$kit" >target/lib/kit
echo "build: target/lib has liblocker_aes.a and ${shared##*/}"
