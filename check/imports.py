"""Looks whether each name of a `ghost use` is named in its file.

    python3 check/imports.py [--fix] [CRATE ..]

Without crates it looks at all. With --fix it takes the names away that are named nowhere else in their file, and the lines that then have none.
An operator is named where each of its words stands: `◌≤◌` where `≤` does.
"""
import glob
import os
import re
import sys

TOP = os.path.dirname(os.path.dirname(os.path.abspath(__file__)))
USE = re.compile(r"^[ \t]*ghost use ([^;{]+)\.\{([^}]*)\};[ \t]*\n", re.M)
COMMENT = re.compile(r"//.*")
WORD = re.compile(r"[\w'-]+")


def names_of(items):
    """The names of a list in braces."""
    return [item.strip() for item in items.split(",") if item.strip()]


def is_named(name, body, words):
    """Whether a name of a `ghost use` is named in what else stands in the file."""
    own = name.split(" as ")[-1].strip()
    if WORD.fullmatch(own):
        return own in words
    return all(part in body for part in own.split("◌") if part)


def unused_in(text):
    """The names that are imported and named nowhere: module, name."""
    body = USE.sub("", COMMENT.sub("", text))
    words = set(WORD.findall(body))
    return [(module, name) for module, items in USE.findall(text) for name in names_of(items) if not is_named(name, body, words)]


def without(text, unused):
    """The text without these names."""
    def left(found):
        kept = [name for name in names_of(found[2]) if (found[1], name) not in unused]
        head = found[0][:found[0].index("{")]
        return f"{head}{{{', '.join(kept)}}};\n" if kept else ""
    return USE.sub(left, text)


def main(words):
    fix = "--fix" in words
    crates = [word for word in words if word != "--fix"] or ["*"]
    count = 0
    for path in sorted(path for crate in crates for path in glob.glob(f"{TOP}/crates/{crate}/src/**/*.rt", recursive=True)):
        with open(path, encoding="utf-8") as it:
            text = it.read()
        unused = unused_in(text)
        for module, name in unused:
            print(f"{os.path.relpath(path, TOP)}: nothing names {name} of {module}")
        if unused and fix:
            with open(path, "w", encoding="utf-8") as it:
                it.write(without(text, unused))
        count += len(unused)
    return 1 if count and not fix else 0


if __name__ == "__main__":
    sys.exit(main(sys.argv[1:]))
