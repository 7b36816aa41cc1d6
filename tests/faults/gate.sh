#!/bin/sh
# shellcheck disable=SC2016 # what the stubs expand is theirs
# Plants faults in what the gate runs, and holds .ci/run to failing at each with the right words. Around the real .ci/run and judge-edits.sh stands
# a repository of stubs: an rt that proves nothing, and runs that say ok. Without a fault the gate must pass there. Then plants faults in the library,
# those rows of docs/FAULTS.md that say so: tests/faults/gate.sh [stubs], with `stubs` without these.
top=$(cd "$(dirname "$0")/../.." && pwd)
. "$top/tools/common.sh"
unset GATE_ALLOW_SKIP LOCKER_AES_LIB
tree=$(mktemp -d) # rt ci refuses sources below target/
trap 'rm -rf "$tree"' EXIT
last='5 passed, 0 failed'
count=0

# script FILE: an executable with what stands on standard input.
script() {
    mkdir -p "$(dirname "$1")"
    { echo '#!/bin/sh'; cat; } >"$1"
    chmod +x "$1"
}

# edit LINE..: the must-fail edit of the only crate, with these lines before its fault.
edit() {
    { printf '%s\n' "$@"; printf '%s\n' 'file: src/lib.rt' 'old: a' 'new: b'; } >"$tree/crates/one/must-fail/edit.edit"
}

stubs() {
    mkdir -p "$tree/.ci" "$tree/tools" "$tree/crates/one/must-fail" "$tree/crates/one/src" "$tree/crates/host_c"
    cp .ci/run "$tree/.ci/run"
    cp tools/archive.sh tools/judge-edits.sh tools/try-edit.sh "$tree/tools/"
    echo 'one:' >"$tree/crates.txt"
    echo 'a' >"$tree/crates/one/src/lib.rt"
    edit '# refused: part::f'
    echo 'exit "${STUB_CHECK:-0}"' | script "$tree/tools/check-stub.sh"
    sed -n "/^runs='/,/^'/p" .ci/run | sed '1d; $d' | while read -r run _; do
        echo '[ -z "${LOCKER_AES_LIB:-}" ] && echo ok stub' | script "$tree/$run"
    done
    echo 'echo "${STUB_SAYS:-ok stub}"; exit "${STUB_RUN:-0}"' | script "$tree/tests/oracle/run.sh"
    # `rt check` finds the fault only where the edit was made
    script "$tree/bin/rt" <<'END'
case $1 in
    ci)
        echo "proving"
        echo "rt: ${STUB_OK:-ok; handles allowed: none; must-fail edits: 1 refused; every proof was done in this run}"
        echo "${STUB_LAST:-5 passed, 0 failed}"
        exit "${STUB_CI:-0}"
        ;;
    lib) mkdir -p out && : >out/libhost_c.a && exit "${STUB_LIB:-0}" ;;
    check)
        grep -qx b src/lib.rt || exit 0
        refusal='./proofs/part/f/Answers.antt:1:1: error: `returns`: they differ'
        printf '%s\n' "so far: $refusal" "${STUB_LOG:-$refusal}" "logic=${STUB_LOGIC:-not-proved}"
        exit "${STUB_TRIED:-1}"
        ;;
esac
END
}

gate() { # NAME=VALUE..
    rm -rf "$tree/target" "$tree/crates/host_c/out"
    env PATH="$tree/bin:$PATH" "$@" "$tree/.ci/run" >"$out/said" 2>&1
}

# passes NAME=VALUE..: the gate passes, and rt's last line is its own.
passes() {
    count=$((count + 1))
    if gate "$@" && [ "$(tail -n 1 "$out/said")" = "$last" ]; then return; fi
    cat "$out/said"
    fail "the gate fails with: $*"
}

# fails WORDS NAME=VALUE..: the gate fails, says the words, and does not end as if it had passed.
fails() {
    words=$1
    shift
    count=$((count + 1))
    if ! gate "$@" && grep -qF "$words" "$out/said" && [ "$(tail -n 1 "$out/said")" != "$last" ]; then return; fi
    cat "$out/said"
    fail "the gate passes, or does not say '$words', with: $*"
}

stubs
passes GATE_ALLOW_SKIP=
passes LOCKER_AES_LIB=another.a # the stubs fail if they see it
passes CI=true RUN=1 LIB=1 LOG=1 # a machine's own variables: the stubs read none but STUB_..
passes STUB_SAYS='skipped: stub' GATE_ALLOW_SKIP=1
fails 'a run was skipped' STUB_SAYS='skipped: stub'
fails 'did not end in a line that says ok' STUB_SAYS='done'
fails 'tests/oracle/run.sh failed' STUB_RUN=1
fails 'tools/check-stub.sh failed' STUB_CHECK=1
fails 'rt ci failed' STUB_LAST='0 passed, 0 failed'
fails 'rt ci failed' STUB_LAST='5 passed, 1 failed'
fails 'rt ci failed' STUB_LAST='5 crates proved'
fails 'rt ci failed' STUB_CI=1
fails "no line 'rt: ok'" STUB_OK='FAILED: one'
fails 'of 1 must-fail edits rt ci refused none' STUB_OK='ok; handles allowed: none; every proof was done in this run'
fails 'of 1 must-fail edits rt ci refused 0' STUB_OK='ok; handles allowed: none; must-fail edits: 0 refused, 1 bad; every'
fails 'bad must-fail edits' STUB_OK='ok; handles allowed: none; must-fail edits: 1 refused, 1 bad; every'
fails 'tools/archive.sh failed' STUB_LIB=1
at=./proofs
passes STUB_LOG='fn one::part::f: no proof: expected answers in ./proofs/part/f/Answers.antt; `search` did not prove `returns`'
fails 'shows nothing' STUB_LOG="$at/part/f/Answers.antt:1:1: error: \`returns\`: record \`Lts.Past\` has no field \`ror\`"
fails 'shows nothing' STUB_LOG="$at/part/f/Answers.antt:1:1: error: \`returns-2\`: module \`Goals\` has no \`returns-2\` that can be named"
fails 'shows nothing' STUB_LOG="$at/part/f/Answers.antt:1:1: error: \`returns\`: \`close\` was not admitted"
fails 'shows nothing' STUB_LOG="$at/part/g/Answers.antt:1:1: error: \`returns\`: they differ"
fails 'shows nothing' STUB_LOG="$at/part/f/Answers.antt:1:1: error: 1 declaration that depends on \`start\` was not checked: returns"
fails 'shows nothing' STUB_LOG='fn one::part::f: no proof: it calls `one::part::g`, which is not proved'
fails 'shows nothing' STUB_LOG='fn one::part::f: not proved'
fails 'shows nothing' STUB_LOGIC=proved
fails 'shows nothing' STUB_TRIED=0
fails 'shows nothing' STUB_TRIED=3
edit '# refused: part::f returns'
passes GATE_ALLOW_SKIP=
passes STUB_LOG='fn one::part::f: no proof: expected answers in ./proofs/part/f/Answers.antt; `search` did not prove `returns`'
fails 'shows nothing' STUB_LOG='fn one::part::f: no proof: expected answers in ./proofs/part/f/Answers.antt; `search` did not prove `returns-2`'
fails 'shows nothing' STUB_LOG="$at/part/f/Answers.antt:1:1: error: \`again\`: they differ"
edit '# refused: Laws stop'
passes STUB_LOG="$at/Laws.antt:1:1: error: \`stop\`: they differ"
fails 'shows nothing' STUB_LOG="$at/Laws.antt:1:1: error: \`pass\`: they differ"
edit '# refused: Laws stop' 'old: c' 'new: d'
fails 'shows nothing' STUB_LOG="$at/Laws.antt:1:1: error: \`stop\`: they differ" # it stands nowhere
edit '# refused: Laws stop' 'file: src/lib.rt' 'old: a' 'new: c' '' 'old: c' 'new: a' ''
fails 'shows nothing' STUB_LOG="$at/Laws.antt:1:1: error: \`stop\`: they differ" # a fault that names no place
edit '# A fault.'
fails 'shows nothing' GATE_ALLOW_SKIP=
edit '# refused: part::f'
rm "$tree/tests/oracle/run.sh"
fails 'is listed, and there is no such script' GATE_ALLOW_SKIP=1
[ "${1:-}" = stubs ] || LOCKER_AES_LIB=$lib tests/faults/run.sh '(in the gate)'
echo "ok gate: $count tries, each ended as it must"
