"""What the benches share that need a program of their own: it is proved and built in a scratch repository.

The files of the program stand in one file here, each behind a line with its path.
"""
import os
import re
import shutil
import subprocess
import sys

HERE = os.path.dirname(os.path.abspath(__file__))


def copied(folder, name):
    """Copies a crate without its tests."""
    shutil.copytree(os.path.join(HERE, "..", "crates", name), os.path.join(folder, "crates", name), dirs_exist_ok=True,
                    ignore=shutil.ignore_patterns("out", "must-fail", "tests", "tests.rt"))
    root = os.path.join(folder, "crates", name, "src", "lib.rt")
    with open(root, encoding="utf-8") as f:
        text = f.read()
    with open(root, "w", encoding="utf-8") as f:
        f.write(re.sub(r"#\[cfg\(test\)\]\s*mod tests;\s*", "", text))


def built(folder, program, used, *words):
    """The path of the program, which stands on these crates, after a first run with these words."""
    for name in used:
        copied(folder, name)
    with open(os.path.join(HERE, "..", "crates.txt"), encoding="utf-8") as f:
        lines = [line for line in f if line.split(":")[0] in used]
    with open(os.path.join(folder, "crates.txt"), "w", encoding="utf-8") as f:
        f.writelines(lines + [f"{program}: {' '.join(used)}\n"])
    with open(os.path.join(HERE, f"{program}.program"), encoding="utf-8") as f:
        pieces = re.split(r"^==== (.*)\n", f.read(), flags=re.M)
    for path, text in zip(pieces[1::2], pieces[2::2]):
        whole = os.path.join(folder, path)
        os.makedirs(os.path.dirname(whole), exist_ok=True)
        with open(whole, "w", encoding="utf-8") as f:
            f.write(text)
    crate = os.path.join(folder, "crates", program)
    run = subprocess.run(["rt", "run", "--", *words], cwd=crate, capture_output=True, text=True)
    if run.returncode != 0:
        sys.exit(run.stdout + run.stderr)
    return os.path.join(crate, "out", program)
