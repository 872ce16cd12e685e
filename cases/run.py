"""Runs the cases of files against the program, and prints each answer that isn't the one that is written down.

    python3 cases/run.py [--tell] PROGRAM [FOLDER..]

PROGRAM is the compiled program, which `rt run` and `rt ci` leave as crates/diagnose_cli/out/diagnose_cli. A case is a folder with the
files of a plant and answers.txt; with no FOLDER all in cases/ are run. answers.txt is a transcript: a line `$ WORDS`, what the
program prints on these words (as a shell reads them, redirections too), a line `status N`, and an empty line; lines before a `$` are
comments. The commands run one after another in a copy of the folder, where make.py, if there is one, has made further files; its variable TOP is the
top of the repository. So a command may read what an earlier one wrote by a redirection, and nothing else is written there. A line `...` stands for
whatever lines the program prints there. A short file may stand among the comments: a line `@ NAME`, and behind it the lines of the file, each with `| ` before it. With
--tell the transcript of what the program answers is printed, and nothing is compared.

Status 0: every answer is the one that is written down, 1: some isn't, 2: it could not begin.
"""
import os
import re
import shutil
import subprocess
import sys
import tempfile

HERE = os.path.dirname(os.path.abspath(__file__))
SECONDS = 120
# What stands between a command and the next one.
STATUS = re.compile(rb"status (\d+)\n")
# A file that stands among the comments: its name, and its lines.
WRITTEN = re.compile(rb"^@ (\S+)\n((?:\|(?: .*)?\n)*)", re.M)


class Faulty(Exception):
    """A case that can't be read or prepared."""


def read(path):
    with open(path, "rb") as it:
        return it.read()


def rows(folder):
    """The commands of a case: the comment before each, its words, and the answer with its status."""
    found, lines = [], iter(read(os.path.join(folder, "answers.txt")).splitlines(True))
    comment = []
    for line in lines:
        if not line.startswith(b"$"):
            comment.append(line)
            continue
        words, answer = line[1:].strip().decode(), []
        for line in lines:
            if STATUS.fullmatch(line):
                break
            answer.append(line)
        else:
            raise Faulty(f"'$ {words}' has no status")
        found.append((b"".join(comment), words, b"".join(answer) + line))
        comment = []
    if not found:
        raise Faulty("answers.txt has no command")
    if b"".join(comment).strip():
        raise Faulty("answers.txt ends with lines behind no command")
    return found


def told(program, words, at):
    """What the program answers on these words, and its status."""
    line = f'program() {{ "$PROGRAM" "$@"; }}; program {words}'
    variables = {"PATH": os.defpath, "PROGRAM": program, "LC_ALL": "C.UTF-8"}
    try:
        ran = subprocess.run(["sh", "-c", line], cwd=at, env=variables, stdin=subprocess.DEVNULL, stdout=subprocess.PIPE, timeout=SECONDS)
    except subprocess.TimeoutExpired:
        return f"no answer within {SECONDS} seconds\n".encode()
    status = ran.returncode if ran.returncode >= 0 else 128 - ran.returncode
    return ran.stdout + f"status {status}\n".encode()


def fits(wanted, answer):
    """Whether the answer is the one that is wanted, where a line `...` stands for any lines."""
    pieces = re.split(rb"^\.\.\.\n", wanted, flags=re.M)
    return re.fullmatch(rb"(?:.*\n)*".join(re.escape(piece) for piece in pieces), answer) is not None


def written(folder):
    """The files that stand in the transcript: the name of each, and its text."""
    # (among the comments, since an answer may have such lines too)
    comments = b"".join(comment for comment, _, _ in rows(folder))
    return [(name.decode(), b"".join(line[2:] or b"\n" for line in lines.splitlines(True))) for name, lines in WRITTEN.findall(comments)]


def prepared(folder, room):
    """A copy of the folder, with the files that stand in the transcript, and those that make.py makes."""
    at = os.path.join(room, "case")
    shutil.copytree(folder, at)
    for name, text in written(folder):
        if os.path.exists(os.path.join(at, name)):
            raise Faulty(f"there are two files {name}, and one of them stands in answers.txt")
        with open(os.path.join(at, name), "wb") as it:
            it.write(text)
    if os.path.isfile(os.path.join(at, "make.py")):
        made = subprocess.run([sys.executable, "make.py"], cwd=at, env={**os.environ, "TOP": os.path.dirname(HERE)})
        if made.returncode:
            raise Faulty(f"make.py ended with status {made.returncode}")
    return at


def show(text):
    sys.stdout.flush()
    sys.stdout.buffer.write(text)
    sys.stdout.buffer.flush()


def run(program, folder, tells):
    """Runs a case, and returns how many commands it has and how many of the answers aren't as they should be."""
    wrong, commands = 0, rows(folder)
    with tempfile.TemporaryDirectory(prefix="case-") as room:
        at = prepared(folder, room)
        for comment, words, wanted in commands:
            answer = told(program, words, at)
            if tells:
                show(comment + b"$ " + words.encode() + b"\n" + answer)
            elif not fits(wanted, answer):
                wrong += 1
                print(f"{os.path.relpath(folder)}: $ {words}\n  it should answer")
                show(wanted)
                print("  and it answers")
                show(answer)
    return len(commands), wrong


def main(words):
    tells = "--tell" in words
    words = [it for it in words if it != "--tell"]
    if not words or not os.access(words[0], os.X_OK):
        print("usage: run.py [--tell] PROGRAM [FOLDER..]", file=sys.stderr)
        return 2
    program = os.path.abspath(words[0])
    inside = sorted(os.path.join(HERE, it) for it in os.listdir(HERE))
    folders = [os.path.abspath(it) for it in words[1:]] or [it for it in inside if os.path.isdir(it)]
    commands = wrong = 0
    for folder in folders:
        try:
            of_case, failed = run(program, folder, tells)
        except (Faulty, OSError) as error:
            print(f"{os.path.relpath(folder)}: {error}")
            of_case, failed = 0, 1
        commands, wrong = commands + of_case, wrong + failed
    if not tells:
        print(f"{len(folders)} cases with {commands} commands were run, of which {wrong} answered otherwise than they should")
    return 1 if wrong or not commands and not tells else 0


if __name__ == "__main__":
    sys.exit(main(sys.argv[1:]))
