#!/bin/sh
# No file names a path of one machine: everything is said from the repository's root. NOTICE is others' text.
set -u
cd "$(dirname "$0")/.." || exit 1
files=$(git ls-files 2>/dev/null | grep .) || files=$(find . -type f ! -path './.git/*' ! -path './target/*' ! -path './crates/*/out/*' | sed 's,^\./,,')
[ -n "$files" ] || { echo "check-paths: no files found"; exit 1; }
found=$(printf '%s\n' "$files" | grep -vx NOTICE | tr '\n' '\0' |
    xargs -0 grep -snIE '(^|[^[:alnum:]_.])/(work|root|home|tmp|mnt|Users)/' /dev/null)
[ -z "$found" ] || { echo "$found"; echo "check-paths: a path of one machine, above"; exit 1; }
