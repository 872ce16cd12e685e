"""Looks whether each edit beside the gate can still be applied: each of its old texts stands once in its file, and one of them at least is code.

    python3 check/applies.py

The gate doesn't try these edits, and without this look a change of the code would leave them behind unnoticed. That an edit of contracts and definitions
alone is refused would show nothing.
"""
import glob
import os
import re
import sys

TOP = os.path.dirname(os.path.dirname(os.path.abspath(__file__)))
PACKED = "more-edits.txt"
# How a line of a contract begins.
CONTRACT = re.compile(r" *(requires|ensures|ghost)\b")


def unpacked(path):
    """The edits of a file more-edits.txt: the name of each, and its text."""
    with open(path, encoding="utf-8") as it:
        blocks = re.split(r"^# (\w+)\n", it.read(), flags=re.M)
    return [(name, text.rstrip("\n") + "\n") for name, text in zip(blocks[1::2], blocks[2::2])]


def beside_the_gate(crate):
    """The edits in a crate's folder that the gate doesn't try: the file of each, its name and its text."""
    if os.path.isfile(f"{crate}/{PACKED}"):
        for name, text in unpacked(f"{crate}/{PACKED}"):
            yield f"{crate}/{PACKED}", name, text


def is_code(path, text, old):
    """Whether the old text stands on a line of code."""
    line = text.rfind("\n", 0, text.find(old) + 1) + 1
    return path.startswith("src/") and not CONTRACT.match(text, line)


def why_not(crate, edit):
    """Why an edit of a crate can't be applied, or None."""
    texts, path, old, pairs, of_code = {}, None, None, 0, False
    for line in edit.split("\n"):
        if line.startswith("file: "):
            path = line[len("file: "):].strip()
            if not os.path.isfile(os.path.join(crate, path)):
                return f"there is no file {path}"
            with open(os.path.join(crate, path), encoding="utf-8") as it:
                texts.setdefault(path, it.read())
        elif line.startswith("old: "):
            old = line[len("old: "):]
        elif line.startswith("new:"):
            if path is None or old is None:
                return "a new text stands before any file or old text"
            found = texts[path].count(old)
            if found != 1:
                return f"an old text stands {found} times in {path}"
            of_code = of_code or is_code(path, texts[path], old)
            texts[path] = texts[path].replace(old, line[len("new:"):].removeprefix(" "))
            old, pairs = None, pairs + 1
    if not pairs:
        return "it has no old and new text"
    return None if of_code else "it changes no code"


def main():
    edits = [(crate, *it) for crate in sorted(glob.glob(f"{TOP}/crates/*")) for it in beside_the_gate(crate)]
    lost = [(path, name, why) for crate, path, name, text in edits for why in [why_not(crate, text)] if why]
    for path, name, why in lost:
        print(f"{os.path.relpath(path, TOP)}: {name}: {why}")
    print(f"{len(edits)} edits stand beside the gate, of which {len(lost)} can't be applied, or change no code")
    return 1 if lost else 0


if __name__ == "__main__":
    sys.exit(main())
