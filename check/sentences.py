"""Looks whether each public definition has a sentence: a line of comment directly above it.

    python3 check/sentences.py

It looks at `specs/` of each crate. Whether a sentence is true only a reader can tell.
"""
import glob
import os
import re
import sys

TOP = os.path.dirname(os.path.dirname(os.path.abspath(__file__)))
DEFINITION = re.compile(r"(?:pub (?:record|data) |[a-z]+ pub )")


def without_sentence(path):
    """The lines of a file that begin a definition without a comment above, with their numbers."""
    with open(path, encoding="utf-8") as it:
        lines = it.read().split("\n")
    before = ""
    for number, line in enumerate(lines, 1):
        if DEFINITION.match(line) and not before.startswith("--"):
            yield number, line
        before = line


def main():
    bare = 0
    for path in sorted(glob.glob(os.path.join(TOP, "crates", "*", "specs", "**", "*.antt"), recursive=True)):
        for number, line in without_sentence(path):
            print(f"{os.path.relpath(path, TOP)}:{number}: no sentence above: {line}")
            bare += 1
    return 1 if bare else 0


if __name__ == "__main__":
    sys.exit(main())
