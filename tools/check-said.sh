#!/bin/sh
# What is said in two places is the same: the version in the header and in CHANGELOG.md, the kit in tools/build.sh and in
# README.md, the public functions in the header and in README's table; and every link of a document leads to a file.
cd "$(dirname "$0")/.." || exit 1
status=0
wrong() {
    echo "check-said: $*" >&2
    status=1
}

version=$(sed -n 's/^#define LOCKER_AES_VERSION  *"\(.*\)"/\1/p' include/locker_aes.h)
newest=$(sed -n 's/^## \([0-9.]*\).*/\1/p' CHANGELOG.md | head -n 1)
if [ -z "$version" ] || [ "$version" != "$newest" ]; then wrong "the header has version '$version', CHANGELOG.md '$newest'"; fi

kit=$(sed -n 's/^pinned="\(.*\)".*/\1/p' tools/build.sh)
if [ -z "$kit" ] || ! grep -qF "$kit" README.md; then wrong "README.md does not name the kit '$kit' of tools/build.sh"; fi

# README abbreviates: `locker_aes_expand32`, `..64`
names=$(sed -n 's/^uint32_t \(locker_aes[a-z0-9_]*\)(.*/\1/p' include/locker_aes.h)
for name in $names; do
    grep -qF "\`${name%64}" README.md || wrong "README.md does not name $name"
done

for document in *.md docs/*.md docs/*/*.md; do
    [ -f "$document" ] || continue
    # the text between ]( and ), without web addresses and places within a page
    links=$(grep -o '](\([^)]*\))' "$document" | sed 's/^](//; s/)$//; s/#.*//' | grep -v '^[a-z]*:' | sort -u)
    for link in $links; do
        [ -e "$(dirname "$document")/$link" ] || wrong "$document links to $link, which is not there"
    done
done
[ $status -eq 0 ] && echo "check-said: versions, kit, names and links agree"
exit $status
