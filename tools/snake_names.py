#!/usr/bin/env python3
"""Respells the repository's own definitions and lemmas in snake case, as today's Rattle spells words: `subBytes` is `sub_bytes`, `each-cut` is
`each_cut`. Run once, at the top, after port.py (docs/PORT.md). Functions of src/, exported C names, strings, inputs and outputs keep their names, and
so do types and modules, which are in camel case already. With --list it prints the old and new names and changes nothing."""
import glob
import re
import sys

SPECS = sorted(glob.glob('crates/*/specs/**/*.antt', recursive=True))
LEMMAS = sorted(glob.glob('crates/*/proofs/*.antt'))
PROOFS = sorted(f for f in glob.glob('crates/*/proofs/**/*.antt', recursive=True) if f not in LEMMAS)
SOURCES = sorted(glob.glob('crates/*/src/*.rt'))
EDITS = sorted(glob.glob('crates/*/must-fail/*.edit'))
PAGES = sorted(['README.md', 'CHANGELOG.md'] + glob.glob('docs/**/*.md', recursive=True))
# what port.py had respelled in the .antt and .rt files, for the edits and pages that it leaves alone
BY_PORT = '''a-block a-key all-done allBelow andL answer-keeps array-fit as-many batches-next below-at bitsOf block-0 block-at block-of blockOf both-bytes
both-left both-right byteAt bytes-fit cellOf copied-all copied-more done-more done-none each-at each-same each-take eight-is find-spec first-step
first-stops fit-append front-length given-back in-place joinOf joined-at joined-length joined-same key-back keys-length keys-step keysOf leBytes
left-less load-spec map-at mask-at maskR names-at nextOf no-blocks no-key no-row not-full not-step numberOf on-one one-block one-more one-of oneWord
or-at pair-fits part-length partAt product-lt put-is range-at range-length read-spec reads-all reads-at room-for round-is rowOf rows-few same-count
same-left same-length same-number same-spec sameLists shift-one shifted-none sizeFor so-far some-block spread-at store-length store-spec stored-here
stored-one sub-at tag-is times-none too-long too-short twice-bytes valueOf word-fits word-next wordOf words-are write-read writes-nothing written-last
xor-assoc zero-bit'''.split()
# names that would have fallen together with another: a lemma and the definition that it is about, mostly
APART = {
    'each-block': 'each_block_is_block', 'each-slot': 'each_slot_batch', 'first-batch-only': 'first_batch_only_is_wrong',
    'first-round-only': 'first_round_only_is_wrong', 'door-without-zero-test': 'door_without_zero_test_is_wrong',
    'expand-without-zero-test': 'expand_without_zero_test_is_wrong', 'key-A1': 'key_of_a1', 'pack-words': 'pack_words_reads',
    'schedule-words': 'schedule_words_fit', 'sixteen-from': 'sixteen_from_take', 'under-key': 'under_key_is', 'keys-of': 'keys_of_key',
}

# names that a file gives to what it imports
ALIASES = {'zero-key-6', 'rorWord'}


def snake(name):
    name = re.sub(r"(?<=[a-z0-9₀-₉'])([A-Z])", r'_\1', name)
    name = re.sub(r"(?<=[a-z0-9_])([A-Z])(?=[a-z0-9]|$|[-_'])", lambda m: m.group(1).lower(), name)
    return name.replace('-', '_').lower()


def declared(files):
    names = set()
    for f in files:
        for line in open(f, encoding='utf-8'):
            m = re.match(r"^\s*(?:(?:abbrev|unfoldable|pub)\s+)*([^\s:(){}\[\].,;]+)((?:\s+[^\s:(){}]+)*)(?:\s*[({].*)?\s:\s", line)
            if m and not line.lstrip().startswith(('--', 'let ', 'data ', 'record ', 'pub record ', 'pub data ', 'use ')):
                names.add(m.group(1))
                names.update(m.group(2).split())
    return names


def plan():
    words = {n for n in declared(SPECS + LEMMAS) if re.match(r"[a-z]", n) and (re.search(r"[A-Z]", n) or re.search(r".-.", n))} | ALIASES
    new = {n: APART.get(n, snake(n)) for n in words if snake(n) != n}
    assert len(set(new.values())) == len(new), 'two names fall together'
    return new


def respell(text, new, where=None):
    def turn(m):
        return new.get(m.group(0), m.group(0))
    token = re.compile(r"(?<![\w'\-])[^\W\d][\w']*(?:-[\w']+)*(?![\w'\-])")
    return token.sub(turn, text) if where is None else where.sub(lambda m: token.sub(turn, m.group(0)), text)


def main():
    new = plan()
    if '--list' in sys.argv:
        for a in sorted(new):
            print(a, new[a])
        return
    both = dict(new)
    both.update({n: snake(n) for n in BY_PORT})
    jobs = [(f, new, None) for f in SPECS + LEMMAS + PROOFS]
    jobs += [(f, new, None) for f in SOURCES]  # no name of src/ is spelled so: seen by --list and grep
    jobs += [(f, both, re.compile(r'^(?:refused|old|new|#).*$', re.M)) for f in EDITS]
    jobs += [(f, both, re.compile(r'`[^`\n]*`')) for f in PAGES]
    for f, names, where in jobs:
        old = open(f, encoding='utf-8').read()
        text = respell(old, names, where)
        if text != old:
            open(f, 'w', encoding='utf-8').write(text)


if __name__ == '__main__':
    main()
