#!/bin/sh
# Says of each fault in a must-fail edit why the prover refused it. `rt ci` says of an edit that it was refused, and a check costs the same for one
# fault as for ten, so an edit has several: tools/try-edit.sh checks each edit once more, and here its log is read. `# refused: refusal::number` names the
# function with the fault, `# refused: refusal::number returns` one goal of it (for a function with two faults), `# refused: Laws stop` the law `stop` of
# proofs/Laws.antt, and in the log a fact of its own must have failed. What was refused only since it rests on another refusal does not count; nor does
# an edit that made a proof unfit for the code (a goal that is gone or new, a name that is not there, a text that does not parse), nor one that was
# not tried. tools/judge-edits.sh [EDIT..]: only these.
set -u
cd "$(dirname "$0")/.." || exit 1
# shellcheck disable=SC2016 # the backquotes are the prover's
unfit='has no field|has no `|that can be named from here|not in scope|exports no `|is not a member|no file|[Pp]arse|syntax|was not admitted|was rejected'
facts=0
bad=0

say() { # WORD EDIT PLACE TEXT
    case $1 in fact) facts=$((facts + 1)) ;; *) bad=$((bad + 1)) ;; esac
    printf '%-5s %s: %s: %s\n' "$1" "$2" "$3" "$4" | LC_ALL=C.UTF-8 sed 's/^\(.\{150\}\).*/\1/'
}

[ $# -gt 0 ] || set -- crates/*/must-fail/*.edit
# as many at a time as there are processors, with a job each
rm -rf target/must-fail
printf '%s\n' "$@" | xargs -P "$(getconf _NPROCESSORS_ONLN)" -n 1 tools/try-edit.sh

for edit; do
    [ -f "$edit" ] || continue
    crate=$(basename "$(dirname "$(dirname "$edit")")")
    name=$crate/$(basename "$edit" .edit)
    log=target/must-fail/$name/.log
    # its check has ended, and not as proved: else nothing is known of it
    if ! [ -f "$log" ] || ! grep -q '^logic=not-proved' "$log" || [ "$(tail -n 1 "$log")" != 'exit 1' ]; then
        say unfit "$name" all "no check has refused it, see $log"
        continue
    fi
    places=$(sed -n 's/^# refused: //p' "$edit")
    if [ -z "$places" ]; then
        say unfit "$name" all "it does not say what is refused"
        continue
    fi
    # a fault is a paragraph, and one that names no place would go unjudged
    unnamed=$(awk -v RS= '/(^|\n)old: / && !/(^|\n)# refused: /' "$edit" | sed -n 's/^old: //p' | head -n 1)
    [ -z "$unnamed" ] || say unfit "$name" "$unnamed" "it does not say where this is refused"
    while read -r place law; do
        path=$(printf '%s\n' "$place" | sed 's|::|/|g')
        error="^(\./)?proofs/$path(/[A-Z][A-Za-z]*)?\.antt:[0-9]+:[0-9]+: error: \`${law:-[^\`]*}\`: "
        why=$(grep -E "$error" "$log" | sed 's/^[^ ]*: error: //' | grep -vE "$unfit" | head -n 1)
        # a goal that no file answers: the search for its proof has failed
        [ -n "$why" ] || why=$(sed -n "s/^fn $crate::$place: no proof: .*; \(.search. did not prove .*\)/\1/p" "$log" | grep -F "\`${law:+$law\`}" | head -n 1)
        if [ -n "$why" ]; then say fact "$name" "$place" "$why"; else say unfit "$name" "$place $law" "no fact of its own failed"; fi
    done <<END_OF_PLACES
$places
END_OF_PLACES
done
echo "edits: $facts faults refused by a fact, $bad unfit"
[ "$bad" -eq 0 ] && [ "$facts" -gt 0 ]
