#!/bin/sh
# Proves the crates that the library for C rests on, several at a time, compiles it, and copies its archive to target/staticlib/libhost.a, where the
# runs take it. Quick when nothing has changed: rt goes by the content of files. RT is the kit's command.
set -eu
cd "$(dirname "$0")/.."
rt=${RT:-rt}
case $rt in /*) ;; */*) rt=$PWD/$rt ;; esac
# a check takes up to 2 GB, and a processor
jobs=$(getconf _NPROCESSORS_ONLN)
room=$(sed -n 's/^MemAvailable: *\([0-9]*\) kB$/\1/p' /proc/meminfo)
[ $((jobs * 2000000)) -le "${room:-0}" ] || jobs=$((${room:-0} / 2000000))
[ "$jobs" -gt 0 ] || jobs=1
# plain x86-64: rt's own choice, x86-64-v2, would not run on every processor that the header is for
(cd crates/host_c && "$rt" all check --jobs "$jobs" && "$rt" lib --cpu x86-64)
mkdir -p target/staticlib
# beside it and then renamed, so that no run links half of it
cp crates/host_c/out/libhost_c.a target/staticlib/libhost.a.new
mv target/staticlib/libhost.a.new target/staticlib/libhost.a
