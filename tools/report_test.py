"""Tests tools/report.py: the words of its pages, and that each page is whole in itself. It needs no browser.

    python3 tools/report_test.py PROGRAM [--record] [NAME ..]

Each page is made twice. First with replies that are kept in tools/report-expected/NAME.replies, in place of the program's: its words, with the title and the description in place of each picture,
must be those of NAME.txt. So they don't change if the search finds other runs. Then with PROGRAM, the compiled program: the sentence at the top must be the same, since
the least number of faults is, `replay` must accept each run and `check` the refutation, and nothing may be warned of. What differs from call to call (time, seconds, the program) is put as `..`.
Each page must also be well-formed: each element closed, each id once and each reference to one there, nothing from elsewhere, a name and a description for each picture, a scope
for each heading of a table. With names only those pages are made. With --record the replies and the words are written anew: look at what changed, and whether it is true.

Status 0: all is as expected, 1: something isn't, 2: it could not begin.
"""
import difflib
import hashlib
import os
import re
import shlex
import subprocess
import sys
import tempfile
from html.parser import HTMLParser

TOOLS = os.path.dirname(os.path.abspath(__file__))
TOP, EXPECTED = os.path.dirname(TOOLS), os.path.join(TOOLS, "report-expected")
VOID = {"meta", "br", "hr", "img", "link", "input"}
BLOCKS = {"p", "h1", "h2", "h3", "li", "tr", "caption", "summary", "pre", "title", "desc", "details", "section", "table"}
HEADINGS = ["h1", "h2", "h3"]
# Files that are written for a page.
OWN = {
    "bad.csv": "alarm,a1,NO-FLOW\nalarm;a2;HIGH-PRESSURE\n",
    "cycle.csv": "alarm,a1,NO-FLOW\nalarm,a2,HIGH-PRESSURE\nbefore,a1,a2\nbefore,a2,a1\n",
    "strange.csv": "alarm,a1,NO-FLOW\nalarm,a2,FLOOD\n",
    "maybe.csv": "maybe,a1,NO-FLOW\nmaybe,a2,HIGH-PRESSURE\nmaybe,a3,NO-FLOW|FLOOD\n",
    "empty.csv": "",
    "bad.costs": "costs 1\ncost stalled 5\n",
    "<i>&\"'_.csv": "alarm,a1,NO-FLOW\n",
    "many.des": "des 1\n" + "".join(f"component c{k}\nstate a init\ntrans a t a\nevent f{k} alarm L{k} fault : c{k}.t\n" for k in range(260)),
    "many.csv": "".join(f"alarm,a{k},L{k}\n" for k in range(260)),
}
# The name of each page, the words of its call, and its status. Files with a slash are those of examples/, files with @ are written from OWN.
PAGES = [
    ("first", "first/model.des first/log.csv 3 1000", 0),
    ("ring", "ring/model.des ring/log.csv 9 10000", 0),
    ("ring-doubtful", "ring/model.des ring/doubtful.csv 5 1000", 0),
    ("ring-unexplained", "ring/model.des ring/unexplained.csv 5 1000", 10),
    ("ring-undecided", "ring/model.des ring/log.csv 9 1", 11),
    ("feeder", "feeder/model.des feeder/log.csv 5 1000", 0),
    ("feeder-costs", "feeder/model.des feeder/log.csv 7 10000 feeder/winter.costs", 0),
    ("feeder-doubtful", "feeder/model.des feeder/doubtful.csv 5 1000", 0),
    ("heating", "heating/model.des heating/log.csv 9 1000", 0),
    ("propulsion", "propulsion/model.des propulsion/log.csv 5 1000", 0),
    ("station", "station/model.des station/log.csv 8 1000", 0),
    ("grid", "grid/model.des grid/ordered.csv 6 1000", 0),
    ("tutorial-misspelled", "tutorial/misspelled.des tutorial/log.csv 6 1000", 5),
    ("tutorial-unknown", "tutorial/model.des tutorial/unknown.csv 6 1000", 6),
    ("tutorial-shut", "tutorial/model.des tutorial/shut.csv 6 1000", 0),
    ("semicolon", "first/model.des @bad.csv 3 1000", 6),
    ("cycle", "first/model.des @cycle.csv 3 1000", 6),
    ("strange", "first/model.des @strange.csv 3 1000", 10),
    ("maybe", "first/model.des @maybe.csv 3 1000", 0),
    ("empty", "first/model.des @empty.csv 3 1000", 0),
    ("bad-costs", "first/model.des first/log.csv 3 1000 @bad.costs", 15),
    ("missing", "first/model.des @none.csv 3 1000", 3),
    ("usage", "first/model.des first/log.csv 3000 1000", 2),
    ("name", "first/model.des @<i>&\"'_.csv 3 1000", 0),
    ("many", "@many.des @many.csv 1 1000", 12),
]
# Pages for replies that no right program gives, and for calls that are stopped: the replies are written by hand.
BY_HAND = [
    ("disagreeing", "first/model.des first/log.csv 3 1000", 0),
    ("stopped", "--seconds 3 first/model.des first/log.csv 3 1000", 124),
    ("stopped-later", "--seconds 3 first/model.des first/log.csv 3 1000", 0),
]
# In place of the program: the next of the replies that are kept, for a call of the command that it was kept of.
STUB = """#!/bin/sh
here=$(dirname "$0")
number=$(($(cat "$here/count") + 1))
echo $number > "$here/count"
[ "$1" = "$(cat "$here/command-$number")" ] || exit 99
cat "$here/reply-$number"
. "$here/end-$number"
"""


class Words(HTMLParser):
    """The words of a page, a line for each block, and what is wrong with it."""

    def __init__(self, page):
        super().__init__(convert_charrefs=True)
        self.open, self.lines, self.wrong, self.ids, self.asked, self.level = [], [""], [], [], [], 0
        self.feed(page)
        self.close()

    def note(self, what):
        self.wrong.append(f"{what}, in line {self.getpos()[0]}")

    def hidden(self):
        """Rules, the words inside a picture, and the narrow form of a picture aren't read out."""
        tags = [tag for tag, _ in self.open]
        in_picture = "svg" in tags and (tags[-1] not in ("title", "desc") or tags[-2:-1] != ["svg"])
        return "style" in tags or any("narrow" in (kinds or "").split() for _, kinds in self.open) or in_picture

    def handle_starttag(self, tag, attrs):
        """Notes what an element is open for, and what is wrong with it."""
        given = dict(attrs)
        self.ids += [given["id"]] if "id" in given else []
        self.asked += given.get("aria-labelledby", "").split() + ([given["href"][1:]] if given.get("href", "").startswith("#") else [])
        self.asked += re.findall(r"url\(#([^)]*)\)", " ".join(filter(None, given.values())))
        self.look_at(tag, attrs, given)
        if tag in HEADINGS:
            level = HEADINGS.index(tag) + 1
            if level > self.level + 1 or level == 1 and self.level:
                self.note(f"the heading {tag} follows one of level {self.level}")
            self.level = level
        if tag in BLOCKS:
            self.lines.append("")
        if tag == "br":
            self.lines[-1] += " "
        if tag not in VOID:
            self.open.append((tag, given.get("class")))

    def look_at(self, tag, attrs, given):
        for name, value in attrs:
            if name in ("src", "srcset", "action") or name.startswith("on") or name in ("href", "xlink:href") and not value.startswith("#"):
                self.note(f"{tag} has {name}={value!r}")
        if tag in ("script", "link", "iframe", "img", "object"):
            self.note(f"there is an element {tag}")
        if tag == "svg" and (given.get("role") != "img" or len(given.get("aria-labelledby", "").split()) != 2):
            self.note("a picture has no name and description")
        if tag == "th" and given.get("scope") not in ("col", "row"):
            self.note("a heading of a table has no scope")

    def handle_startendtag(self, tag, attrs):
        self.handle_starttag(tag, attrs)
        if tag not in VOID:
            self.open.pop()

    def handle_endtag(self, tag):
        if not self.open or self.open[-1][0] != tag:
            self.note(f"{tag} is closed where {self.open[-1][0] if self.open else 'nothing'} is open")
            return
        self.open.pop()
        if tag in ("td", "th") and not self.hidden():
            self.lines[-1] += " | "
        if tag in BLOCKS:
            self.lines.append("")

    def handle_data(self, data):
        if self.open and self.open[-1][0] == "style" and re.search(r"@import|url\((?!#)|https?:", data):
            self.note("the rules name something elsewhere")
        if not self.hidden():
            self.lines[-1] += data

    def text(self):
        lines = [re.sub(r"[ \t]+", " ", line).strip() for line in "\n".join(self.lines).split("\n")]
        return "\n".join(line.removesuffix(" |") for line in lines if line) + "\n"

    def faults(self):
        twice = sorted({it for it in self.ids if self.ids.count(it) > 1})
        lost = sorted(set(self.asked) - set(self.ids))
        return self.wrong + [f"the id {it} is there twice" for it in twice] + [f"there is no id {it}" for it in lost] + [f"{tag} isn't closed" for tag, _ in self.open]


def read(path):
    with open(path, encoding="utf-8") as it:
        return it.read()


def write(path, text):
    with open(path, "w", encoding="utf-8") as it:
        it.write(text)


def made(program, call, folder):
    """A page and what is wrong with it: its words, with `..` for what differs from call to call, and its status."""
    words = [os.path.join(folder, it[1:]) if it.startswith("@") else os.path.join("examples", it) if "/" in it else it for it in call.split(" ")]
    words = words[:2] + [program] + words[2:] if words[0] == "--seconds" else [program] + words
    done = subprocess.run([sys.executable, os.path.join(TOOLS, "report.py")] + words, cwd=TOP, capture_output=True, check=False)
    page = Words(done.stdout.decode())
    with open(program, "rb") as it:
        known, size = hashlib.sha256(it.read()).hexdigest(), f"{os.path.getsize(program):,}"
    text = page.text().replace(known, "..").replace(program, "PROGRAM").replace(f".. | {size}\n", ".. | ..\n").replace(folder, "FOLDER")
    text = re.sub(r"stopped after \d+ seconds$", "stopped after .. seconds", re.sub(r"(status \d+), [\d.]+ seconds", r"\1, .. seconds", text), flags=re.M)
    text = re.sub(r"\d{4}-\d\d-\d\d [\d:]{5} UTC", "..", text)
    return text, page.faults() + done.stderr.decode(errors="replace").splitlines()[-1:], done.returncode


def replies(name):
    """The replies that are kept for a page: the command of each call, what it prints, and how it ends."""
    found = re.findall(r"(?ms)^\$ (\S+)\n(.*?)^(status \d+|stopped)\n", read(os.path.join(EXPECTED, name + ".replies")))
    return [(command, printed, "exec sleep 60" if end == "stopped" else end.replace("status", "exit")) for command, printed, end in found]


def stub_of(kept, folder):
    """A program that gives the replies that are kept, one after another."""
    room = tempfile.mkdtemp(dir=folder)
    write(os.path.join(room, "program"), STUB)
    os.chmod(os.path.join(room, "program"), 0o755)
    write(os.path.join(room, "count"), "0")
    for number, (command, printed, end) in enumerate(kept, 1):
        for kind, text in (("command", command), ("reply", printed), ("end", end + "\n")):
            write(os.path.join(room, f"{kind}-{number}"), text)
    return os.path.join(room, "program")


def record(program, name, call, folder):
    """Keeps the replies of the program for a page: all of each, but of a formula and of a proof the first lines."""
    log = os.path.join(folder, "calls")
    write(log, "")
    spy = os.path.join(folder, "spy")
    write(spy, f"""#!/bin/sh
{shlex.quote(program)} "$@" > {folder}/reply; status=$?
{{ echo "\\$ $1"; case $1 in cnf | proof) head -n 4 {folder}/reply ;; *) cat {folder}/reply ;; esac; echo "status $status"; }} >> {log}
cat {folder}/reply; exit $status
""")
    os.chmod(spy, 0o755)
    made(spy, call, folder)
    write(os.path.join(EXPECTED, name + ".replies"), read(log))


def differences(name, text):
    try:
        return list(difflib.unified_diff(read(os.path.join(EXPECTED, name + ".txt")).splitlines(), text.splitlines(), "expected", "made", n=1, lineterm=""))[:40]
    except OSError as fault:
        return [f"{fault.filename}: {fault.strerror}"]


def by_program(program, name, call, status, folder):
    """What is wrong with the page that the program gives."""
    text, wrong, ended = made(program, call, folder)
    wrong += [f"the status is {ended}, not {status}"] * (ended != status)
    # Whether a run is found before a budget is spent depends on the search.
    headline = read(os.path.join(EXPECTED, name + ".txt")).split("\n")[0]
    wrong += [f"the sentence at the top is {text.split(chr(10))[0]!r}"] * (text.split("\n")[0] != headline and status != 11)
    wrong += [line for line in text.split("\n") if line.startswith("Warning.")]
    if status == 0:
        wrong += [f"{it} isn't on the page" for it in ["replay replied ACCEPTED"] + ["check replied VERIFIED"] * ("There is nothing to refute" not in text) if it not in text]
    return [f"{it}, with the program" for it in wrong]


def wrong_of(program, page, folder, is_kept):
    """What is wrong with a page."""
    name, call, status = page
    if is_kept and page in PAGES:
        record(program, name, call, folder)
    text, wrong, ended = made(stub_of(replies(name), folder), call, folder)
    if is_kept:
        write(os.path.join(EXPECTED, name + ".txt"), text)
    wrong += [f"the status is {ended}, not {status}"] * (ended != status) + differences(name, text)
    return wrong + (by_program(program, name, call, status, folder) if page in PAGES else [])


def main(words):
    is_kept, names = words[1:2] == ["--record"], [it for it in words[1:] if it != "--record"]
    pages = [it for it in PAGES + BY_HAND if not names or it[0] in names]
    if not words or not os.access(words[0], os.X_OK) or not pages or not set(names) <= {it[0] for it in PAGES + BY_HAND}:
        print("usage: report_test.py PROGRAM [--record] [NAME ..]", file=sys.stderr)
        return 2
    failed = 0
    with tempfile.TemporaryDirectory() as folder:
        for name, content in OWN.items():
            write(os.path.join(folder, name), content)
        for page in pages:
            wrong = wrong_of(os.path.abspath(words[0]), page, folder, is_kept)
            failed += bool(wrong)
            print("\n".join([f"{page[0]}:"] * bool(wrong) + ["  " + it for it in wrong]), end="\n" * bool(wrong))
    print(f"{len(pages) - failed} of {len(pages)} pages are as expected")
    return 1 if failed else 0


if __name__ == "__main__":
    sys.exit(main(sys.argv[1:]))
