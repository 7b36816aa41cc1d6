#!/bin/sh
# The library as somebody else gets it: `make install` into a folder of its own, then a program as C and as C++, shared and
# static, with nothing but what pkg-config says; a call from Python; and what the library files export and ask for.
top=$(cd "$(dirname "$0")/../.." && pwd)
. "$top/tools/common.sh"
. "$top/tools/fresh.sh"
need make make
need pkg-config pkgconf
need python3 python3
need readelf binutils
# outside the checkout: below target/ rt refuses sources and symbolic links
room=$(mktemp -d)
trap 'rm -rf "$room"' EXIT
. "$top/tests/install/build.sh"
dest=$room/dest
libs=$dest/usr/lib
CC=$CC make -s install DESTDIR="$dest" PREFIX=/usr LIBDIR=/usr/lib INCLUDEDIR=/usr/include
PKG_CONFIG_LIBDIR=$libs/pkgconfig
PKG_CONFIG_SYSROOT_DIR=$dest
LD_LIBRARY_PATH=$libs
export PKG_CONFIG_LIBDIR PKG_CONFIG_SYSROOT_DIR LD_LIBRARY_PATH
unset PKG_CONFIG_PATH
soname=liblocker_aes.so.$(sed -n 's/^#define LOCKER_AES_ABI  *//p' include/locker_aes.h)
version=$(pkg-config --modversion locker_aes)
[ "$version" = "$(pkg-config --variable=locker_aes_version locker_aes)" ] || fail "two versions in locker_aes.pc"

strict="-Wall -Wextra -Wpedantic -Werror"
built=0
for language in c c++; do
    case $language in c) compiler="$CC -std=c99" ;; *) compiler="$CXX -std=c++98" ;; esac
    for link in shared static; do
        program=$out/use-$language-$link
        case $link in static) how=-static ;; *) how= ;; esac
        # shellcheck disable=SC2046,SC2086 # words
        $compiler -x $language $strict $how -o "$program" tests/install/use.c -x none \
            $(pkg-config --cflags --libs ${how:+--static} locker_aes)
        said=$("$program") || fail "$program: $said"
        [ "$said" = "$version" ] || fail "the header says version $said, locker_aes.pc $version"
        needed=$(readelf -dW "$program" | sed -n 's/.*(NEEDED).*\[\(liblocker.*\)\].*/\1/p')
        [ "$link:$needed" = "shared:$soname" ] || [ "$link:$needed" = static: ] || fail "$program needs '$needed'"
        built=$((built + 1))
    done
done
python3 tests/install/use.py "$libs/liblocker_aes.so"

# The header's functions, and nothing else, are what the shared library offers, and memset is all that it asks for
# (tests/state has the static one).
declared=$(sed -n 's/^uint32_t \(locker_aes[a-z0-9_]*\)(.*/\1/p' "$dest/usr/include/locker_aes.h" | sort)
count=$(echo "$declared" | grep -c .)
offers=$(nm -D --defined-only "$libs/$soname" | awk '{ print $3 }' | sort)
asks=$(nm -D --undefined-only "$libs/$soname" | awk '{ sub(/@.*/, "", $2); print $2 }')
[ "$offers" = "$declared" ] || fail "$soname exports: $offers"
[ "$asks" = memset ] || fail "$soname asks for: $asks"
readelf -dW "$libs/$soname" >"$out/dynamic"
grep -q "SONAME.*\[$soname\]" "$out/dynamic" || fail "no soname $soname"
! grep -q TEXTREL "$out/dynamic" || fail "$soname is not position independent"

# Each function's answer, ignored, is warned of.
warned=$($CC -I "$dest/usr/include" -Wunused-result -c -o "$out/ignored.o" tests/install/ignored.c 2>&1 | grep -c 'warning:') || true
[ "$warned" -eq "$count" ] || fail "$warned of $count ignored answers are warned of"

make -s uninstall DESTDIR="$dest" PREFIX=/usr LIBDIR=/usr/lib INCLUDEDIR=/usr/include
[ -z "$(find "$dest" ! -type d)" ] || fail "uninstall leaves $(find "$dest" ! -type d)"
echo "ok install: version $version, $built programs by pkg-config and one from Python; $count functions exported and no more"
