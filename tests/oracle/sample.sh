#!/bin/sh
# Writes the Rust's answers as a fixed list, crates/replay_main/stdin, for a Rattle program to replay where there is no Rust.
# Ours is not asked. The list comes out the same each time; `sample.sh check` compares instead of writing.
#
# One record a line, fields between single spaces, lowercase hex, each line ended by one newline.
# The first letter gives the kind, and the kind every field's length:
#   a KEY SCHEDULE INPUT ENCRYPTED DECRYPTED CHECK    16-byte key (32 digits), 88 words of 8 digits, 32-byte batches (64 digits)
#   b the same                                        32-byte key (64), 120 words of 8, 32-byte batches (64)
#   c the same                                        16-byte key (32), 88 words of 16, 64-byte batches (128)
#   d the same                                        32-byte key (64), 120 words of 16, 64-byte batches (128)
#   A B C D SCHEDULE INPUT ENCRYPTED DECRYPTED CHECK  as a b c d, but for the key: the schedule is random words
# A SCHEDULE's words follow each other with nothing between, each most significant digit first. ENCRYPTED and
# DECRYPTED are what encryption and decryption of INPUT give under SCHEDULE, and CHECK (6 digits) is its key check value.
# The first two keys of a length are zeros and that of FIPS-197's Appendix A.1 or A.3.
top=$(cd "$(dirname "$0")/../.." && pwd)
. "$top/tools/common.sh"
. "$top/tests/oracle/build.sh"
rust_program "$out/sample" tests/oracle/sample.rs
file=$out/answers.txt
to=crates/replay_main/stdin
"$out/sample" >"$file"
if [ "${1:-}" = check ]; then
    cmp "$file" "$to" || fail "$to is not what the Rust gives"
else
    cp "$file" "$to"
fi
echo "ok sample: $(wc -l <"$file") records in $to"
