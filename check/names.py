"""Looks whether the names that the documents cite stand in the repository.

    python3 check/names.py

A name is what the pages at the top, of docs/, examples/ and bench/ put between backticks, where it looks like one of code or definitions: with an underscore,
with two colons, or with a capital and small letters. It stands where each of its words is one of the texts of the crates, or a file's name. Where a page
says of which crate it is (`NAME` of `CRATE`), it has to be defined there.
"""
import glob
import os
import re
import sys

TOP = os.path.dirname(os.path.dirname(os.path.abspath(__file__)))
PAGES = ["*.md", "docs/*.md", "examples/README.md", "examples/*/README.md", "bench/*.md"]
CITED = re.compile(r"`([^`\n]+)`")
OWNED = re.compile(r"`([^`\n]+)` (?:of|in) `([a-z_]+)`")
NAME = re.compile(r"(?:[A-Za-z_][A-Za-z0-9_]*(?:::|\.))*[A-Za-z_][A-Za-z0-9_-]*")
WORD = re.compile(r"[A-Za-z_][A-Za-z0-9_]*")
DEFINED = re.compile(r"(?:fn|struct|enum|trait|const|mod|record|data|ghost) (\w+)|^ *(?:abbrev |opaque )?pub (\w+) :|^ *(\w+)[:,(]", re.M)


def is_name(cited):
    """Whether it looks like a name of code or definitions."""
    return NAME.fullmatch(cited) is not None and ("_" in cited or "::" in cited or re.search(r"[A-Z][a-z]", cited) is not None)


def words_of(folder):
    """All words of the code, definitions, proofs and scripts in a folder, and of the names of its files."""
    words = set()
    for path, _, files in os.walk(folder):
        words.update(WORD.findall(os.path.relpath(path, TOP)))
        for name in files:
            words.update(WORD.findall(name))
            if name.endswith((".rt", ".antt", ".py", ".sh")) or name == "run":
                with open(os.path.join(path, name), encoding="utf-8") as it:
                    words.update(WORD.findall(it.read()))
    return words


def known_words():
    """All words of the repository: of code, definitions, proofs and scripts, and of the names of files and crates."""
    crates = glob.glob(os.path.join(TOP, "crates", "*"))
    folders = [os.path.join(crate, part) for crate in crates for part in ("src", "specs", "proofs")]
    folders += [os.path.join(TOP, folder) for folder in ("bench", "check", "cases", "dev", "docs", "examples", "tools", ".ci")]
    return set(map(os.path.basename, crates)).union(*map(words_of, folders))


def defined_in(crate):
    """What a crate defines: the names of its functions, types, fields, variants and definitions, and its files."""
    names, folder = set(), os.path.join(TOP, "crates", crate)
    for part in ("src", "specs", "proofs"):
        for path in glob.glob(os.path.join(folder, part, "**", "*.*"), recursive=True):
            names.add(os.path.relpath(path, folder))
            names.add(os.path.splitext(os.path.basename(path))[0])
            with open(path, encoding="utf-8") as it:
                names.update(name for found in DEFINED.findall(it.read()) for name in found if name)
    return names


def absent_names(line, words, defined):
    """The names on a line that stand nowhere, or aren't defined in the crate that the line says."""
    for cited in CITED.findall(line):
        if is_name(cited) and not words.issuperset(WORD.findall(cited)):
            yield cited
    for cited, crate in OWNED.findall(line):
        if crate in defined and not defined[crate].intersection((cited, re.split("::|[.]", cited)[-1])):
            yield f"{cited} in {crate}"


def main():
    words, absent = known_words(), 0
    defined = {crate: defined_in(crate) for crate in os.listdir(os.path.join(TOP, "crates"))}
    for document in sorted(it for pattern in PAGES for it in glob.glob(os.path.join(TOP, pattern))):
        with open(document, encoding="utf-8") as it:
            lines = it.read().split("\n")
        for number, line in enumerate(lines, 1):
            for cited in absent_names(line, words, defined):
                print(f"{os.path.relpath(document, TOP)}:{number}: nothing has the name {cited}")
                absent += 1
    return 1 if absent else 0


if __name__ == "__main__":
    sys.exit(main())
