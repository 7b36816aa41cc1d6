# shellcheck shell=sh disable=SC2034,SC2154 # what common.sh and the script that sources this have set
# Sourced after common.sh by the runs of the C user's side: lib becomes a library that is not older than its sources, but for
# one that LOCKER_AES_LIB names.
need "${CC%% *}" gcc
need "${CXX%% *}" g++
if [ -z "${LOCKER_AES_LIB:-}" ]; then
    CC=$CC tools/build.sh
    lib=$top/target/lib/liblocker_aes.a
fi
