#!/bin/sh
# What the header says of state, read off the built library: no data that can be written, no allocation and no system call, and the functions of
# the header are all that it exports and are all driven by tests/boundary. What it may ask of whoever links it is listed here.
top=$(cd "$(dirname "$0")/../.." && pwd)
. "$top/tools/common.sh"
need_library
need nm binutils
asks=memset # of C's library; the compiler clears arrays with it

# size counts thread-local and zeroed data too; a section that it does not know as read-only would be among them.
written=$(size -t "$lib" | awk '/TOTALS/ { seen = 1; print $2 + $3 } END { exit !seen }') || fail "size shows no total"
[ "$written" -eq 0 ] || fail "has $written bytes of data that can be written"
data=$(nm "$lib" | awk 'NF == 3 && $2 !~ /^[TtRrN]$/ { print $3 }')
[ -z "$data" ] || fail "has symbols that are neither code nor constants: $data"

exported=$(nm --defined-only --extern-only "$lib" | awk 'NF == 3 { print $3 }' | sort)
declared=$(sed -n 's/^uint32_t \(locker_aes[a-z0-9_]*\)(.*/\1/p' include/locker_aes.h | sort)
driven=$(grep -o 'return locker_aes[a-z0-9_]*(' tests/boundary/calls.h | sed 's/return //; s/(//' | sort)
[ "$exported" = "$declared" ] || fail "exported is not what include/locker_aes.h declares: $(echo "$exported" | tr '\n' ' ')"
[ "$exported" = "$driven" ] || fail "exported is not what tests/boundary/calls.h drives: $(echo "$exported" | tr '\n' ' ')"

# Left after what one object of the library gives another.
undefined=$(nm --undefined-only "$lib" | awk 'NF == 2 { print $2 }' | sort -u)
for symbol in $undefined; do
    case " $asks $(echo "$exported" | tr '\n' ' ') " in *" $symbol "*) ;; *) fail "asks for $symbol, which is not on the list of this script" ;; esac
done

objdump --disassemble --no-show-raw-insn "$lib" >"$out/code.txt"
grep -q '<locker_aes>:' "$out/code.txt" || fail "objdump shows no code"
calls=$(awk -F '\t' '$2 ~ /^(syscall|sysenter|int) *(\$|$)/ { print $2 }' "$out/code.txt")
[ -z "$calls" ] || fail "makes a system call: $calls"
echo "ok state: $(echo "$exported" | wc -l) functions, no data that can be written, no system call; asks for: $(echo "$undefined" | tr '\n' ' ')"
