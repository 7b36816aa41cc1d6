#!/usr/bin/env python3
"""check-lines.py: no line of the repository has more than 160 characters (characters, not bytes).

It reads sources, definitions, proofs, documents and scripts below the folder above this one, and says file:line of each longer line.
NOTICE (other people's text), a program's stdin and stdout (data) and must-fail edits (one line each by their format) are not read, nor is
a row of a table in a document, which cannot be broken.
"""
import os
import sys

LONGEST = 160
READ = (".rt", ".antt", ".md", ".sh", ".py", ".c", ".h", ".rs")
PASSED_OVER = {".git", "target", "out"}


def is_read(path):
    """By its ending, or a script by its first two characters."""
    if path.endswith(READ):
        return True
    if "." in os.path.basename(path):
        return False
    with open(path, "rb") as f:
        return f.read(2) == b"#!"


def main():
    top = os.path.dirname(os.path.dirname(os.path.abspath(__file__)))
    files = longer = 0
    for folder, folders, names in os.walk(top):
        folders[:] = sorted(set(folders) - PASSED_OVER)
        for path in (os.path.join(folder, n) for n in sorted(names)):
            if os.path.islink(path) or not is_read(path):
                continue
            files += 1
            with open(path, encoding="utf-8") as f:
                for number, line in enumerate(f, 1):
                    size = len(line.rstrip("\n"))
                    if size > LONGEST and not (path.endswith(".md") and line.startswith("|")):
                        longer += 1
                        print(f"{os.path.relpath(path, top)}:{number}: {size} characters")
    if longer:
        print(f"check-lines: {longer} lines above {LONGEST} characters")
        return 1
    print(f"ok {files} files, no line above {LONGEST} characters")
    return 0


if __name__ == "__main__":
    sys.exit(main())
