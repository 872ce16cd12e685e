"""Pastes the commands of the pages into a terminal in a fresh clone, block by block, as a newcomer does, and prints each answer that isn't the one that the page quotes.

    python3 dev/paste.py PROGRAM [PAGE..]

The last commit is cloned, and PROGRAM put where the pages call it. All pages go into one interactive bash, in the order in which they are likely to be read, so each finds what those
before it left behind. check/quoted.py, which the gate runs, gives each page a shell and a copy of its own in place of that; what is a command, what its answer, and
what is left out is as there: blocks that prove or build, and those that call another solver or GNU parallel where it isn't installed. These are listed.
At the end nothing that git knows has changed, and nothing lies in the clone that git doesn't ignore.

Status 0: every answer is the one that is quoted, 1: some isn't, 2: it could not begin.
"""
import glob
import os
import pty
import re
import select
import shutil
import subprocess
import sys
import tempfile
import termios
import time

TOP = os.path.dirname(os.path.dirname(os.path.abspath(__file__)))
sys.path.insert(0, os.path.join(TOP, "check"))
sys.dont_write_bytecode = True
import quoted  # noqa: E402

ORDER = ["README.md", "docs/tutorial.md", "examples/station/README.md", "docs/tools.md", "docs/scripts.md", "docs/blocks.md", "examples/README.md", "examples/*/README.md",
         "docs/variables.md", "CONTRIBUTING.md"]
MARK = "--- pasted"


class Terminal:
    """An interactive bash in a folder, without an echo and without prompts."""

    def __init__(self, folder):
        self.master, slave = pty.openpty()
        mode = termios.tcgetattr(slave)
        mode[1] &= ~termios.OPOST
        mode[3] &= ~termios.ECHO
        termios.tcsetattr(slave, termios.TCSANOW, mode)
        variables = {**os.environ, "PS1": "", "PS2": "", "HISTFILE": "", "LC_ALL": "C.UTF-8"}
        variables.pop("PROMPT_COMMAND", None)
        self.shell = subprocess.Popen(["bash", "--norc", "--noediting", "-i"], cwd=folder, env=variables, stdin=slave, stdout=slave, stderr=slave, start_new_session=True)
        os.close(slave)
        self.pasted("PS1=; PS2=\n")

    def pasted(self, block):
        """What is printed after a block is pasted."""
        for line in (block + f"echo; echo '{MARK}'\n").splitlines(True):
            os.write(self.master, line.encode())
        said, end = b"", time.monotonic() + quoted.SECONDS
        while not said.endswith(f"\n{MARK}\n".encode()):
            if not select.select([self.master], [], [], max(0, end - time.monotonic()))[0]:
                return said.decode(errors="replace") + "(and no end of it came in time)\n"
            said += os.read(self.master, 65536)
        # What a tool says while it works is written over, so that a screen doesn't keep it.
        return re.sub(r"(?m)^.*\r\x1b\[K", "", said.decode(errors="replace")[:-len(f"\n{MARK}\n")])

    def close(self):
        self.shell.kill()
        self.shell.wait()
        os.close(self.master)


def pages_of(words):
    """The pages that are named, or all, in the order of reading."""
    found = words or [os.path.relpath(it, TOP) for pattern in ORDER for it in sorted(glob.glob(os.path.join(TOP, pattern)))]
    return list(dict.fromkeys(found))


def paste(page, folder, terminal):
    """The blocks of a page that are pasted, those that are left out, and what is answered otherwise."""
    asked, _ = quoted.questions(quoted.read(os.path.join(folder, page)))
    done, left, wrong = 0, [], []
    for block, answers in asked:
        if not quoted.is_run(block):
            left.append(block)
            continue
        done += 1
        wanted, answer = "".join(answers), terminal.pasted(block)
        if not quoted.fits(wanted, answer):
            wrong.append(f"{block}should print\n{wanted}and prints\n{answer}")
    return done, left, wrong


def main(words):
    if not words or not os.access(words[0], os.X_OK):
        print("usage: paste.py PROGRAM [PAGE..]", file=sys.stderr)
        return 2
    count, faults = 0, 0
    with tempfile.TemporaryDirectory(prefix="paste-") as room:
        clone = os.path.join(room, "fojdreba")
        subprocess.run(["git", "clone", "-q", TOP, clone], check=True)
        os.makedirs(os.path.join(clone, os.path.dirname(quoted.BUILT)))
        shutil.copy(words[0], os.path.join(clone, quoted.BUILT))
        terminal = Terminal(clone)
        for page in pages_of(words[1:]):
            done, left, wrong = paste(page, clone, terminal)
            count, faults = count + done, faults + len(wrong)
            for block in left:
                print(f"{page}: left out: {' '.join(block.split())[:120]}")
            for it in wrong:
                print(f"{page}: {it}")
        terminal.close()
        changed = subprocess.run(["git", "status", "--porcelain"], cwd=clone, stdout=subprocess.PIPE, text=True).stdout
    if changed:
        faults += 1
        print(f"the pages leave behind\n{changed}")
    print(f"{count} blocks were pasted, and {faults} things are otherwise")
    return 1 if faults or not count else 0


if __name__ == "__main__":
    sys.exit(main(sys.argv[1:]))
