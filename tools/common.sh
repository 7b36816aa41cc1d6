# shellcheck shell=sh disable=SC2034,SC2154 # top comes from the script that sources this, and what is set here is for it
# Sourced by the run scripts, after they set `top` to the repository's folder. It sets
#   lib      the static library under test, from LOCKER_AES_LIB (default: what tools/archive.sh makes)
#   out      a folder for what the script builds, target/NAME of the script's own folder
#   CC, CXX  the compilers (default gcc and g++)
# and goes to the top.
set -eu
lib=${LOCKER_AES_LIB:-$top/target/staticlib/libhost.a}
case $lib in /*) ;; *) lib=$PWD/$lib ;; esac
out=$top/target/$(basename "$(cd "$(dirname "$0")" && pwd)")
: "${CC:=gcc}" "${CXX:=g++}"
cd "$top"
mkdir -p "$out"

fail() {
    echo "FAILED: $*" >&2
    exit 1
}

installed() {
    export DEBIAN_FRONTEND=noninteractive
    { apt-get install -y "$@" || { apt-get update && apt-get install -y "$@"; }; } >"$out/apt.log" 2>&1
}

# has FILE PACKAGE: the file is there, or Debian's package brings it (quietly; the status says whether).
has() {
    [ -e "$1" ] || { installed "$2" || true; [ -e "$1" ]; }
}

# has_command NAME PACKAGE: the same of a command.
has_command() {
    command -v "$1" >/dev/null || { installed "$2" || true; command -v "$1" >/dev/null; }
}

# need COMMAND PACKAGE: the same, or the script fails.
need() {
    has_command "$1" "$2" || fail "no command $1, and Debian's package $2 cannot be installed"
}

# What every test needs: the static library, and C and C++ to link it with.
need_library() {
    [ -f "$lib" ] || [ -n "${LOCKER_AES_LIB:-}" ] || tools/archive.sh >"$out/archive.log" 2>&1 || fail "tools/archive.sh failed; $out/archive.log says why"
    [ -f "$lib" ] || fail "no static library at $lib"
    need "${CC%% *}" gcc
    need "${CXX%% *}" g++
}

# rust_minor: x of the rustc 1.x here, or 0.
rust_minor() {
    minor=$(rustc --version 2>/dev/null | sed -n 's/^rustc 1\.\([0-9]*\)\..*/\1/p')
    echo "${minor:-0}"
}

# has_rust: the Rust source (AES_RUST_SRC is the folder src of the crate aes 0.9.3) and a rustc that takes it, 1.85 or newer: one that is here,
# or one of Debian's two packages where that is new enough. Else `missing` says what is needed.
has_rust() {
    rust_src=${AES_RUST_SRC:-$top/../shared/docs/src/src}
    missing="no Rust source at $rust_src (AES_RUST_SRC says where the folder src of aes 0.9.3 is)"
    [ -f "$rust_src/backends/fixslice/mod.rs" ] || return 1
    PATH=$PATH:${CARGO_HOME:-${HOME:-}/.cargo}/bin # where rustup puts it
    missing="no rustc 1.85 or newer, which the Rust source needs, and none that Debian's packages bring (rustup.rs has one)"
    [ "$(rust_minor)" -lt 85 ] || return 0
    apt-get update >"$out/apt.log" 2>&1 || return 1
    for package in rustc rustc-web; do
        minor=$(apt-cache policy $package | sed -n 's/^ *Candidate: 1\.\([0-9]*\)\..*/\1/p')
        if [ "${minor:-0}" -ge 85 ] && installed --no-install-recommends $package && [ "$(rust_minor)" -ge 85 ]; then return 0; fi
    done
    return 1
}
