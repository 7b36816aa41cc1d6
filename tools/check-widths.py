#!/usr/bin/env python3
"""check-widths.py: code and proofs stand once, over a word of either width, and at one width only where that is said below.

A module at one width is a source NAME32.rt or NAME64.rt, or a folder of that name in proofs/ with the folders of its functions. And a source that takes
w32 or w64 from lanes' Layout has contracts of one width. Each of these is an error but for the places below, and so is a place below that has none.
"""
import os
import re
import sys

# A source without its ending, or a crate's name for all of its sources; and why it has a width.
PLACES = {
    "utils/w32": "the trait Word for u32",
    "utils/w64": "the trait Word for u64",
    "word/blocks32": "the trait Packed for u32",
    "word/blocks64": "the trait Packed for u64",
    "host/lib": "the calls that C has, at each width",
    "uses/schedule_calls": "one trait over these calls, and its impl at each width",
    "host_c/lib": "what is exported of them",
}

MODULE = re.compile(r"\w*(32|64)")
LAYOUT = re.compile(r"^ghost use Rattle\.lanes\.specs\.Layout\.\{([^}]*)\};", re.M)


def names_width(path):
    """Whether a source takes a width from the layout."""
    with open(path, encoding="utf-8") as f:
        taken = " ".join(LAYOUT.findall(f.read()))
    return re.search(r"\bw(32|64)\b", taken) is not None


def modules(proofs):
    """The folders of proofs/ that are a module's: what they hold is folders."""
    for name in sorted(os.listdir(proofs)) if os.path.isdir(proofs) else []:
        folder = os.path.join(proofs, name)
        if os.path.isdir(folder) and any(os.path.isdir(os.path.join(folder, inner)) for inner in os.listdir(folder)):
            yield name


def at_one_width(crates):
    """Each place that stands at one width, with the path that says so."""
    for crate in sorted(os.listdir(crates)):
        sources = os.path.join(crates, crate, "src")
        for folder, _, names in sorted(os.walk(sources)):
            for name in sorted(names):
                stem, ending = os.path.splitext(name)
                path = os.path.join(folder, name)
                if ending == ".rt" and (MODULE.fullmatch(stem) or names_width(path)):
                    yield f"{crate}/{os.path.relpath(os.path.join(folder, stem), sources)}", path
        proofs = os.path.join(crates, crate, "proofs")
        for name in modules(proofs):
            if MODULE.fullmatch(name):
                yield f"{crate}/{name}", os.path.join(proofs, name)


def main():
    os.chdir(os.path.join(os.path.dirname(os.path.abspath(__file__)), ".."))
    found, faults = set(), []
    for place, path in at_one_width("crates"):
        found.add(place)
        if place not in PLACES:
            faults.append(f"{path}: stands at one width")
    faults += [f"tools/check-widths.py: {place} has no width, and need not stand there" for place in PLACES if place not in found]
    for fault in faults:
        print(fault)
    if faults:
        print(f"check-widths: {len(faults)} faults")
        return 1
    print(f"ok {len(PLACES)} sources at one width, each for its reason")
    return 0


if __name__ == "__main__":
    sys.exit(main())
