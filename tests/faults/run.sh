#!/bin/sh
# Plants each fault of docs/FAULTS.md in a copy of the library and holds the run that is named there to catching it, with the words that are named
# there; the copy without a fault must pass every run. Then plants faults in what the gate runs (gate.sh). Some minutes; the gate tries some rows.
# tests/faults/run.sh [WORDS]: only the rows with these words, without the faults in the gate.
top=$(cd "$(dirname "$0")/../.." && pwd)
. "$top/tools/common.sh"
need_library
need objcopy binutils
table=docs/FAULTS.md

# rows WORDS: CALL FAULT RUN WORDS.., one fault a line, of the rows with these words.
rows() {
    grep -F -- "$*" $table | sed -n 's/^| \([a-z0-9]*\) | \([a-z0-9_]*\) | .* | \([a-z]*\) | \([^|]*\) |$/\1 \2 \3 \4/p' | grep -v '^call fault '
}
rows '' >"$out/all"
rows "$*" >"$out/rows" || fail "no row has the words: $*"

# The table and the shim have the same faults.
sed -n '/^enum fault {/,/^};/p' tests/faults/shim.c | sed 's,/\*.*\*/,,; 1d; $d' | tr -d ' ' | tr ',' '\n' | grep -vx -e none -e '' | sort >"$out/in-shim"
awk '{ print $2 }' "$out/all" | sort -u >"$out/in-table"
cmp "$out/in-shim" "$out/in-table" || fail "$table and tests/faults/shim.c have different faults"

# plant CALL FAULT: the library with it, in $out/libfaulty.a.
nm --defined-only --extern-only "$lib" | awk 'NF == 3 { print $3, "real_" $3 }' >"$out/names"
objcopy --redefine-syms="$out/names" --remove-section=.llvm_addrsig "$lib" "$out/real.a"
plant() {
    $CC -std=c11 -O2 -Wall -Wextra -Wpedantic -Werror -I include -DCALL="$1" -DFAULT="$2" -DPLANT_"$2" -c -o "$out/shim.o" tests/faults/shim.c
    ld -r -o "$out/both.o" "$out/shim.o" --whole-archive "$out/real.a"
    objcopy --wildcard --localize-symbol='real_*' "$out/both.o"
    rm -f "$out/libfaulty.a"
    ar rcs "$out/libfaulty.a" "$out/both.o"
}

# tried RUN: the status of tests/RUN or RUN over that library; what it said is in $out/said.
tried() {
    script=tests/$1/run.sh
    [ -e "$script" ] || script=$1/run.sh
    LOCKER_AES_LIB=$out/libfaulty.a "$script" </dev/null >"$out/said" 2>&1
}

plant door none
awk '{ print $3 }' "$out/rows" | sort -u >"$out/runs"
while read -r run; do
    tried "$run" || { cat "$out/said"; fail "$run fails over the library without a fault"; }
    ! grep '^skipped:' "$out/said" || fail "$run cannot be made here"
    echo "without a fault, $run passes"
done <"$out/runs"

count=0
missed=0
while read -r call fault run words; do
    plant "$call" "$fault"
    count=$((count + 1))
    if tried "$run"; then
        echo "MISSED: $call $fault, by $run"
    elif ! grep -qF "$words" "$out/said"; then
        cat "$out/said"
        echo "MISSED: $call $fault: $run fails, and does not say: $words"
    else
        echo "caught: $call $fault, by $run: $words"
        continue
    fi
    missed=$((missed + 1))
done <"$out/rows"
[ $missed -eq 0 ] || fail "$missed of $count planted faults were missed"
[ $# -gt 0 ] || tests/faults/gate.sh stubs
echo "ok faults: $count planted, all caught"
