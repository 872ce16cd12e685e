"""Runs the commands of the top README, the documents and the pages as they stand there, and prints each answer that isn't the one that the page quotes.

    python3 check/quoted.py PROGRAM [PAGE..]

PROGRAM is the compiled program, which `rt run` and `rt ci` leave as crates/diagnose_cli/out/diagnose_cli. With no PAGE, those that have commands are
read. The commands of a page are those of its blocks that are fenced as sh or indented. One shell runs them from top to bottom, redirections and all, at the
top of a copy of what the pages name; so no command finds a file that the page doesn't have written. What the commands of a block print must be the fenced
blocks that follow it at once, one after the other, where a line `...` stands for whatever lines. So a timeline of a page is what tools/timeline.py prints.
A reply that is printed by itself must have its exit status. Each other fenced block without a kind must stand in a file of FILES, and no line of an answer may stand outside the
blocks. Figures for Mermaid, which isn't called, must keep to the small language of FIGURE, and each box of theirs must have its words.
Left out are blocks that prove or build; they begin with a command of KIT. A block that calls one of OTHERS is run where that is installed and its help has these words.

Status 0: every answer is the one that is quoted, 1: some isn't, 2: it could not begin.
"""
import glob
import os
import re
import shutil
import subprocess
import sys
import tempfile

TOP = os.path.dirname(os.path.dirname(os.path.abspath(__file__)))
BUILT = "crates/diagnose_cli/out/diagnose_cli"
COPIED = ["bench", "cases", "check", "dev", "docs", "examples", "tools"]
PAGES = ["README.md", "CONTRIBUTING.md", *(f"docs/{it}.md" for it in ["tutorial", "scripts", "blocks", "tools", "variables"]), "examples/*/README.md"]
FILES = ["examples/*/*.des", "examples/*/*.blocks", "examples/*/*.csv", "examples/*/*.costs", "examples/*/*.run", "crates/*/must-fail/*.edit", "crates/*/more-edits.txt"]
KIT = re.compile(r"(?:rt|\(?cd crates|git|\.ci/run|python3 check/quoted\.py)\b")
OTHERS = {"cadical": "--lrat", "clasp": "", "minisat": "", "parallel": ""}
HERE = re.compile(r"<<'([A-Z]+)'")
BOX = r'(\w+)(\["[^"]+"\]|\(\["[^"]+"\]\))?(?::::fault)?'
LINK = r'(?:---|-->|-\.->|-- "[^"]+" -->|-\. "[^"]+" \.->)'
BOXES = rf"{BOX}(?: & {BOX})*"
FIGURE = {
    "flowchart LR": re.compile(rf"classDef fault stroke-dasharray: 4 3|{BOXES}(?: {LINK} {BOXES})*"),
    "stateDiagram-v2": re.compile(r"(?:\[\*\]|\w+) --> \w+(?: : [\w-]+)?"),
    "timeline": re.compile(r"step \d+(?: : (?:! )?[\w-]+(?: [\w-]+)?(?: \((?:fault|false alarm)\))?)+"),
}
FIGURE["flowchart TD"] = FIGURE["flowchart LR"]
TAKEN = {"end", "class", "style", "click", "graph", "subgraph", "default", "direction"}
PATH = os.path.dirname(sys.executable) + ":" + os.defpath
SECONDS = 600
STATUSES = {"EXPLAINED": 0, "RAN": 0, "ACCEPTED": 0, "VERIFIED": 0, "des": 0, "p": 0, "c": 0, "units": None, "USAGE": 2, "LOAD": 3, "MODEL": 5, "LOG": 6, "RUN": 7,
            "CNF": 7, "LRAT": 7, "LONG": 8, "LARGE": 8, "NONE": 10, "UNDECIDED": 11, "MANY": 12, "REJECTED": 13, "NOTHING": 14, "CLEAR": 0, "CHEAPEST": 0, "DEAR": 12, "COST": 15, "NOFAULT": 16, "AMBIGUOUS": 17}


def read(path):
    with open(path, encoding="utf-8") as it:
        return it.read()


def blocks(page):
    """The blocks of a page that are code, each with its kind, `sh` for commands, its text, and whether it follows the block before at once."""
    found, lines, follows = [], page.split("\n") + [""], False
    at = 0
    while at < len(lines):
        line = lines[at]
        if line.startswith("```"):
            end = lines.index("```", at + 1)
            found.append((line[3:].strip(), "\n".join(lines[at + 1:end]) + "\n", follows))
            at, follows = end + 1, True
        elif line.startswith("    ") and (at == 0 or not lines[at - 1]) and not in_list(lines, at):
            end = next(it for it in range(at, len(lines)) if not lines[it].startswith("    "))
            found.append(("sh", "".join(it[4:] + "\n" for it in lines[at:end]), follows))
            at, follows = end, True
        else:
            follows = follows and not line
            at += 1
    return found


def in_list(lines, at):
    """Whether an indented line belongs to an item of a list."""
    before = [it for it in lines[:at] if it and not it.startswith(" ")]
    return bool(before) and re.match(r"(?:[-*]|\d+\.) ", before[-1]) is not None


def questions(page):
    """The blocks of commands of a page, each with the answers that follow it; and the other blocks."""
    asked, others, answers = [], [], None
    for kind, text, follows in blocks(page):
        if kind == "sh":
            answers = []
            asked.append((text, answers))
        elif follows and answers is not None:
            answers.append(text)
        else:
            answers = None
            others.append((kind, text))
    return asked, others


def is_there(program):
    """Whether a program of OTHERS can be called, and is one that will do."""
    if shutil.which(program, path=PATH) is None:
        return False
    said = subprocess.run([program, "--help"], env={"PATH": PATH}, stdin=subprocess.DEVNULL, stdout=subprocess.PIPE, stderr=subprocess.STDOUT).stdout.decode()
    return OTHERS[program] in said


def is_run(block):
    """Whether the commands of a block are run here."""
    called = set(re.findall(r"(?<![\w./-])[a-z]+(?= )", block))
    return not KIT.match(block) and all(map(is_there, called & OTHERS.keys()))


def commands(block):
    """The commands of a block: lines, joined as long as a shell finds them unfinished."""
    whole, part = [], ""
    for line in block.splitlines(True):
        part += line
        # (to `sh -n` a here-document may end anywhere)
        is_open = any(end not in part.split("\n")[1:] for end in HERE.findall(part))
        if not is_open and not part.rstrip("\n").endswith("\\") and not subprocess.run(["sh", "-n", "-c", part], stderr=subprocess.DEVNULL).returncode:
            whole.append(part)
            part = ""
    return whole + [part] if part else whole


def prepared(program, room):
    """What the pages name, in a copy if commands may write there, with the program where it is built."""
    for name in COPIED:
        shutil.copytree(os.path.join(TOP, name), os.path.join(room, name))
    for path in ["README.md", "CONTRIBUTING.md", "crates.txt"] + [os.path.relpath(it, TOP) for it in glob.glob(os.path.join(TOP, "crates/*/*"))]:
        if os.path.basename(path) != "out":
            os.makedirs(os.path.dirname(os.path.join(room, path)), exist_ok=True)
            os.symlink(os.path.join(TOP, path), os.path.join(room, path))
    os.makedirs(os.path.join(room, os.path.dirname(BUILT)))
    os.symlink(os.path.abspath(program), os.path.join(room, BUILT))


def ran(lists, room):
    """What each command of each of the lists prints, and its status, where one shell runs all."""
    mark = "--- the end of a command:"
    script = f"after() {{ status=$?; printf '%s %d\\n' '{mark}' $status; return $status; }}\n"
    script += "".join(f"{command}after\n" for listed in lists for command in listed)
    variables = {"PATH": PATH, "LC_ALL": "C.UTF-8", "HOME": room}
    try:
        said = subprocess.run(["sh", "-c", script], cwd=room, env=variables, stdin=subprocess.DEVNULL, stdout=subprocess.PIPE, stderr=subprocess.STDOUT, timeout=SECONDS).stdout
    except subprocess.TimeoutExpired as cut:
        said = cut.stdout or b""
    pieces = re.split(rf"{mark} (\d+)\n", said.decode(errors="replace"))
    answers = iter(list(zip(pieces[0::2], map(int, pieces[1::2]))))
    return [[next(answers, ("the page has no answer to this command, or not in time\n", None)) for _ in listed] for listed in lists]


def fits(wanted, answer):
    """Whether the answer is the one that is wanted, where a line `...` stands for any lines."""
    pieces = re.split(r"^\.\.\.\n", wanted, flags=re.M)
    return re.fullmatch(r"(?:.*\n)*".join(re.escape(piece) for piece in pieces), answer) is not None


def has_its_status(command, answer, status):
    """Whether a reply that the program prints by itself goes with its status."""
    words = command.split()
    if not words or words[0] not in ("$d", BUILT) or re.search(r"[|;&<>]", command) or words[1:2] == ["session"] or not answer:
        return True
    first = answer.split()[0]
    return first in STATUSES and STATUSES[first] in (None, status)


def slipped(page):
    """The lines of a page outside its blocks that also stand in one of them, which an answer has that slipped out of its block."""
    inside = {line for _, text, _ in blocks(page) for line in text.split("\n") if len(line) >= 20}
    outside = re.sub(r"^```.*?^```$", "", page, flags=re.M | re.S).split("\n")
    return [line for line in outside if line in inside]


def figure_fault(text):
    """The first line of a figure that isn't one of FIGURE, or a box without words, if any."""
    head, *lines = text.rstrip("\n").split("\n")
    if head not in FIGURE:
        return head
    statements = [it.strip() for line in lines for it in line.split(";")]
    for it in statements:
        if not FIGURE[head].fullmatch(it):
            return it
    if head.startswith("flowchart"):
        boxes = [(name, words) for it in statements if not it.startswith("classDef") for name, words in re.findall(rf"(?:^|[>&-] ){BOX}", it)]
        return next((name for name, _ in boxes if name in TAKEN or not any(words for other, words in boxes if other == name)), None)
    return None


def wrong_of(page, program, files):
    """How many commands a page has, and what is wrong with its answers and its other blocks."""
    whole = read(os.path.join(TOP, page))
    asked, others = questions(whole)
    asked = [(commands(block), "".join(answers)) for block, answers in asked if is_run(block)]
    wrong = []
    with tempfile.TemporaryDirectory(prefix="pages-") as room:
        prepared(program, room)
        answered = ran([listed for listed, _ in asked], room) if asked else []
    for (listed, wanted), answers in zip(asked, answered):
        answer = "".join(text for text, _ in answers)
        if not fits(wanted, answer):
            wrong.append(f"it should answer\n{''.join(listed)}by\n{wanted}and is answered\n{answer}")
        for command, (text, status) in zip(listed, answers):
            if not has_its_status(command, text, status):
                wrong.append(f"the status of {command.strip()} is {status}\n")
    wrong += [f"outside the blocks stands\n{line}\n" for line in slipped(whole)]
    for text in (text for kind, text, _ in blocks(whole) if kind == "mermaid" and figure_fault(text)):
        wrong.append(f"this isn't in the language of figures: {figure_fault(text)}\n")
    for kind, text in others:
        if kind == "mermaid" and text.startswith("timeline"):
            wrong.append(f"no command prints the timeline\n{text}")
        elif kind == "" and not any(text in it for it in files):
            wrong.append(f"no command prints and no file has\n{text}")
    return sum(map(len, (listed for listed, _ in asked))), wrong


def main(words):
    if not words or not os.access(words[0], os.X_OK):
        print("usage: quoted.py PROGRAM [PAGE..]", file=sys.stderr)
        return 2
    pages = words[1:] or sorted(os.path.relpath(it, TOP) for pattern in PAGES for it in glob.glob(os.path.join(TOP, pattern)))
    files = [read(it) for pattern in FILES for it in glob.glob(os.path.join(TOP, pattern))]
    count, faults = 0, 0
    for page in pages:
        of_page, wrong = wrong_of(page, words[0], files)
        count, faults = count + of_page, faults + len(wrong)
        for it in wrong:
            print(f"{page}: {it}")
    print(f"{len(pages)} pages have {count} commands, and {faults} things on them aren't so")
    return 1 if faults or not count else 0


if __name__ == "__main__":
    sys.exit(main(sys.argv[1:]))
