# shellcheck shell=sh disable=SC2154 # what common.sh and the script that sources this have set
# Sourced after common.sh by the scripts that run the Rust: builds target/rust_aes/librust_aes.rlib, or says `skipped:` and exits 0.
# Nothing of the Rust source is copied.
has_rust || {
    echo "skipped: $missing"
    exit 0
}
rust=$top/target/rust_aes
mkdir -p "$rust"
sed "s|AES_RUST_SRC/|$(cd "$rust_src" && pwd)/|" "$top/tests/oracle/rust_aes.rs" >"$rust/rust_aes.rs"
rust_build() {
    rustc --edition 2024 -C opt-level=3 -C codegen-units=1 "$@"
}
rust_build --crate-type rlib -o "$rust/librust_aes.rlib" "$rust/rust_aes.rs"

# rust_program OUTPUT SOURCE WORDS..: a program over that library.
rust_program() {
    output=$1 source=$2
    shift 2
    rust_build --extern rust_aes="$rust/librust_aes.rlib" -o "$output" "$source" "$@"
}
