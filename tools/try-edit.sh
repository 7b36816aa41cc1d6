#!/bin/sh
# Checks a crate with its must-fail edit made, in a copy outside the checkout, and writes all that the prover says to target/must-fail/CRATE/EDIT/.log:
# tools/try-edit.sh crates/CRATE/must-fail/EDIT.edit. `rt ci` itself keeps the first line of a refusal only, and an edit has several faults. The copy
# begins with what tools/archive.sh proved, so mostly what the edit touches is proved. The log's last line is `exit STATUS`.
set -u
cd "$(dirname "$0")/.." || exit 1
edit=$1
crate=$(basename "$(dirname "$(dirname "$edit")")")
log=$PWD/target/must-fail/$crate/$(basename "$edit" .edit)/.log
mkdir -p "$(dirname "$log")"
rm -f "$log"
# not below target/: rt refuses sources that stand there
tree=$(mktemp -d) || exit 1
trap 'rm -rf "$tree"' EXIT
trap 'exit 1' HUP INT TERM # with which no EXIT would come
cp crates.txt "$tree/"
for part in crates/*/src crates/*/specs crates/*/proofs; do
    [ -d "$part" ] || continue
    mkdir -p "$tree/$(dirname "$part")"
    cp -R "$part" "$tree/$part"
done
# what was built of the crates below, by links where these can be made (rt goes by its content), and what was proved of this one
for made in crates/*/out/rlib; do
    [ -d "$made" ] || continue
    mkdir -p "$tree/$made"
    cp -Rl "$made/." "$tree/$made" 2>/dev/null || cp -R "$made/." "$tree/$made"
done
made=crates/$crate/out/incremental
[ ! -d "$made" ] || { mkdir -p "$tree/crates/$crate/out" && cp -R "$made" "$tree/$made"; }
python3 - "$edit" "$tree/crates/$crate" >"$log" <<'END_OF_PYTHON'
import os, sys

edit, folder = sys.argv[1:]
path = old = None
pairs = 0
for line in open(edit, encoding="utf-8").read().split("\n"):
    if line.startswith("file: "):
        path = os.path.join(folder, line[6:].strip())
    elif line.startswith("old: "):
        old = line[5:]
    elif line.startswith("new:"):
        with open(path, encoding="utf-8") as f:
            text = f.read()
        if text.count(old) != 1:
            sys.exit(print(f"bad edit: in {path[len(folder) + 1:]} {text.count(old)} times, not once: {old}") or 1)
        with open(path, "w", encoding="utf-8") as f:
            f.write(text.replace(old, line[4:][line[4:5] == " ":]))
        pairs += 1
sys.exit(0 if pairs else print("bad edit: no pair of lines 'old:' and 'new:'") or 1)
END_OF_PYTHON
status=$?
[ $status -ne 0 ] || {
    (cd "$tree/crates/$crate" && "${RT:-rt}" check --jobs 1) >>"$log" 2>&1 </dev/null
    status=$?
}
echo "exit $status" >>"$log"
