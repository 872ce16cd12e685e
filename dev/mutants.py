"""Draws small wrong changes of the code at random, and looks whether the prover refuses each: a bug that passes is something that no contract says.

    python3 dev/mutants.py [--seed SEED] [--count COUNT] [CRATE..]

COUNT changes (100 if none is given) are shared out among the crates that are named, or all, by how many changes each has, but at least two for each. Which ones, SEED says
(1 if none is given), so a run can be had again. What a change may be is said in draw.py beside this file. The crates must have been proved in this checkout by `rt all check`, which
leaves their libraries: what is changed is a copy.

In the copy each change stands in a function of its own beside the right one, with a copy of what was written of its proof. So many are judged by one check; and beside them stands an
unchanged copy, which must pass, or else nothing is said of the changes of its function. The right functions themselves get holes for proofs, so that they aren't proved again.
Changes that don't compile are left out, and the next ones are drawn.

    refused     something isn't proved: a clause, what a call requires, that it ends, or that it is safe
    passed      the changed function meets its contract
    not judged  the check says something else, or the unchanged copy doesn't pass

Written answers that speak of goals which the changed function doesn't have are left out, and it is checked again: then it is refused if the search by itself finds no proof.
One that passed either means the same as the right one, or only advises (nothing that is promised depends on it), or shows that a contract says too little.

Five changes of `card_counter` take 75 seconds of a processor. A higher crate takes longer, since each check loads what it stands on.
Status: 0 if none passed, 1 if some did, 2 if it could not begin.
"""
import argparse
import collections
import glob
import os
import re
import shutil
import subprocess
import sys
import tempfile

sys.dont_write_bytecode = True
import draw  # noqa: E402
from edits import Unready, crates_below  # noqa: E402

TOP = os.path.dirname(os.path.dirname(os.path.abspath(__file__)))
LEAST = 2
# How many checks a crate gets at most: the answers that speak of goals that a change took away are left out from one to the next.
ROUNDS = 3
PARTS = ("src", "specs", "proofs")
# A crate of tests: what its functions do is run, and not promised.
OF_TESTS = "calls_"
# An error, its file and its line.
ERROR = re.compile(r"^(?:\./)?((?:src|proofs)/\S+?):(\d+):\d+: error(.*)", re.M)
# What the check says of a function.
VERDICT = re.compile(r"^fn (\S+?): (.*)", re.M)
PASSED = re.compile(r"proved|no holes|depends on a hole in `")
REFUSED = re.compile(r"not proved|.*did not prove")
# An error of a written answer that only says that its goal, or a name in it, is gone.
GONE = re.compile(r"has no field|is not in scope|has no `|was not admitted|announced")
HOLE = """use Rattle.{crate}.proofs.{path}.Statement.{{statement}}

pub {name}_spec : {{M : Type 1}} → statement M
{name}_spec = ?
"""


class Copy:
    """A copy of a function, changed or not, that is planted beside it."""

    def __init__(self, function, change, number):
        self.function, self.change = function, change
        self.name = f"{function.name}_{'wrong' if change else 'right'}_{number}"
        self.lines = range(0)
        # what was said of it last, and whether answers were left out for it
        self.verdict, self.without = "", False

    def text(self):
        """The function with the change and its name."""
        it = self.function
        body = it.text[it.start:it.end]
        if self.change:
            body = it.text[it.start:self.change.start] + self.change.new + it.text[self.change.end:it.end]
        return it.text[it.top:it.start] + re.sub(rf"\bfn {it.name}\b", f"fn {self.name}", body, count=1)

    def said(self):
        """The change in one line."""
        old = " ".join(self.function.text[self.change.start:self.change.end].split())
        new = " ".join(self.change.new.split())
        line = self.function.text.count("\n", 0, self.change.start) + 1
        return f"{self.function.crate}/{self.function.file}:{line} {self.function.name}: {self.change.kind}: {shortened(old)} -> {shortened(new)}"


def shortened(text):
    return f"`{text}`" if len(text) <= 60 else f"`{text[:40]} .. {text[-15:]}`"


def path_of(function, name):
    """The path of a function below its crate, by its file, its type and a name."""
    module = function.file.removeprefix("src/").removesuffix(".rt")
    return [it for it in ([] if module in ("lib", "main") else module.split("/")) + [function.owner, name] if it]


# ---- the room: a copy of the crates, with the libraries that were proved


def link(old, new):
    """Two names for one file, or a copy where the folders are on different disks."""
    try:
        os.link(old, new)
    except OSError:
        shutil.copy2(old, new)


def copied(room):
    """Copies the crates, and links their libraries."""
    shutil.copytree(f"{TOP}/crates", f"{room}/crates", ignore=shutil.ignore_patterns("out", "must-fail", "more-edits*"))
    for name in ["crates.txt", "HANDLES"]:
        shutil.copy(f"{TOP}/{name}", room)
    for library in glob.glob(f"{TOP}/crates/*/out/rlib"):
        shutil.copytree(library, f"{room}/{os.path.relpath(library, TOP)}", copy_function=link)


def needed(below, crate):
    """The crates of the repository on which a crate stands."""
    direct = [it for it in below[crate] if it in below]
    return set(direct).union(*(needed(below, it) for it in direct))


def restored(room, crate):
    """The crate as it stands."""
    shutil.rmtree(f"{room}/crates/{crate}/out", ignore_errors=True)
    for part in PARTS:
        shutil.rmtree(f"{room}/crates/{crate}/{part}", ignore_errors=True)
        if os.path.isdir(f"{TOP}/crates/{crate}/{part}"):
            shutil.copytree(f"{TOP}/crates/{crate}/{part}", f"{room}/crates/{crate}/{part}")


# ---- planting


def write(path, text):
    os.makedirs(os.path.dirname(path), exist_ok=True)
    with open(path, "w", encoding="utf-8") as it:
        it.write(text)


def plant(room, crate, copies):
    """Writes the crate's files with these copies, each behind its function, and notes on which lines each stands."""
    shutil.copytree(f"{TOP}/crates/{crate}/src", f"{room}/crates/{crate}/src", dirs_exist_ok=True)
    by_file = collections.defaultdict(list)
    for it in copies:
        by_file[it.function.file].append(it)
    for file, these in by_file.items():
        text, at, out = these[0].function.text, 0, ""
        for it in sorted(these, key=lambda it: it.function.end):
            out += text[at:it.function.end] + "\n\n"
            first = out.count("\n") + 1
            out += it.text()
            at, it.lines = it.function.end, range(first, out.count("\n") + 2)
        write(f"{room}/crates/{crate}/{file}", out + text[at:])


def copy_proofs(room, crate, copies):
    """Gives each copy what was written of its function's proof."""
    for it in copies:
        old, new = (path_of(it.function, name) for name in (it.function.name, it.name))
        folder = f"{room}/crates/{crate}/proofs/{'/'.join(new)}"
        for path in glob.glob(f"{TOP}/crates/{crate}/proofs/{'/'.join(old)}/*.antt"):
            with open(path, encoding="utf-8") as file:
                write(f"{folder}/{os.path.basename(path)}", re.sub(rf"(\.proofs\.){re.escape('.'.join(old))}\b", rf"\1{'.'.join(new)}", file.read()))


def put_holes(room, crate):
    """Puts a hole in place of the proof of each function as it stands."""
    for path in glob.glob(f"{TOP}/crates/{crate}/src/**/*.rt", recursive=True):
        with open(path, encoding="utf-8") as it:
            text = it.read()
        for function in draw.functions(crate, os.path.relpath(path, f"{TOP}/crates/{crate}"), text):
            place = path_of(function, function.name)
            folder = f"{room}/crates/{crate}/proofs/{'/'.join(place)}"
            if not in_circle(function):
                shutil.rmtree(folder, ignore_errors=True)
                write(f"{folder}/Proof.antt", HOLE.format(crate=crate, path=".".join(place), name=function.name))


def in_circle(function):
    """Whether it is one of functions that call one another in a circle, which are proved together."""
    return os.path.isdir(f"{TOP}/crates/{function.crate}/proofs/{'/'.join(path_of(function, '+' + function.name))}")


# ---- checking


def checked(room, crate, *flags):
    """What a check of the crate prints."""
    command = ["rt", "check", "--jobs", "1", *flags]
    ran = subprocess.run(command, cwd=f"{room}/crates/{crate}", stdin=subprocess.DEVNULL, stdout=subprocess.PIPE, stderr=subprocess.STDOUT, text=True, errors="replace")
    return ran.stdout


def that_compile(room, crate, order, want):
    """The first changes of an order that compile, as many as are wanted, as copies."""
    found, place = [], 0
    while len(found) < want and place < len(order):
        batch = [Copy(change.function, change, place + n) for n, change in enumerate(order[place:place + max(6, 2 * want)])]
        place += len(batch)
        while batch:
            plant(room, crate, batch)
            said = checked(room, crate, "--only", "")
            wrong = {(file, int(line)) for file, line, _ in ERROR.findall(said)}
            broken = [it for it in batch if any((it.function.file, line) in wrong for line in it.lines)]
            if not broken:
                break
            batch = [it for it in batch if it not in broken]
        if batch and not re.search(r"^only=", said, re.M):
            raise Unready(f"{crate} doesn't compile, and no change is to blame:\n{said[-2000:]}")
        found += batch
    return found[:want]


def judge(room, crate, wrong):
    """Gives each of the changed copies its verdict."""
    first = {(it.function.file, it.function.start): it.function for it in wrong}
    right = [Copy(function, None, number) for number, function in enumerate(first.values())]
    copies = wrong + right
    plant(room, crate, copies)
    put_holes(room, crate)
    copy_proofs(room, crate, copies)
    open_ones = copies
    for _ in range(ROUNDS):
        only = [word for it in open_ones for word in ("--only", "::".join(path_of(it.function, it.name)))]
        said = checked(room, crate, *only, "--allow-holes")
        verdicts = dict(VERDICT.findall(said))
        for it in open_ones:
            it.verdict = verdict_of(it, crate, said, verdicts)
        open_ones = [it for it in open_ones if it.verdict == GONE and drop_answers(room, crate, it, said)]
        if not open_ones:
            break
    passes = {(it.function.file, it.function.start): it.verdict == "passed" for it in right}
    for it in wrong:
        if it.verdict == GONE or not passes[it.function.file, it.function.start]:
            it.verdict = "not judged"


def verdict_of(copy, crate, said, verdicts):
    """What the check says of a copy: that it passed or was refused, something else, or GONE if answers alone are wrong, since their goals are gone."""
    verdict = verdicts.get("::".join([crate] + path_of(copy.function, copy.name)), "nothing")
    if PASSED.match(verdict):
        return "passed"
    folder = f"proofs/{'/'.join(path_of(copy.function, copy.name))}/"
    of_answers = [why for file, _, why in ERROR.findall(said) if file.startswith(folder)]
    if of_answers and all(GONE.search(why) for why in of_answers):
        return GONE
    return "refused" if REFUSED.match(verdict) else "not judged"


def drop_answers(room, crate, copy, said):
    """Leaves out the answers of a copy in which an error stands."""
    copy.without = True
    folder = f"proofs/{'/'.join(path_of(copy.function, copy.name))}/"
    wrong = collections.defaultdict(set)
    for file, line, _ in ERROR.findall(said):
        if file.startswith(folder):
            wrong[file].add(int(line))
    for file, at in wrong.items():
        with open(f"{room}/crates/{crate}/{file}", encoding="utf-8") as it:
            blocks = re.split(r"\n(?=\n)", it.read())
        kept, line = [], 1
        for block in blocks:
            behind = line + block.count("\n") + 1
            if not any(line <= it < behind for it in at):
                kept.append(block)
            line = behind
        if any(not line.strip().startswith("use ") for block in kept for line in block.split("\n") if line.strip()):
            write(f"{room}/crates/{crate}/{file}", "\n".join(kept))
        else:
            os.remove(f"{room}/crates/{crate}/{file}")
    return True


# ---- all of it


def shares(orders, count):
    """How many changes each crate gets: by how many it has, but LEAST at least."""
    whole, shared = sum(map(len, orders.values())), {}
    for crate, order in orders.items():
        shared[crate] = min(len(order), max(LEAST, round(count * len(order) / max(1, whole))))
    return shared


def asked_for(words):
    parser = argparse.ArgumentParser(prog="mutants.py", description="Draws wrong changes at random, and looks whether they are refused.")
    parser.add_argument("--seed", default="1")
    parser.add_argument("--count", type=int, default=100)
    parser.add_argument("crates", nargs="*", metavar="CRATE")
    return parser.parse_args(words)


def main(words, room):
    asked = asked_for(words)
    copied(room)
    below = crates_below(room)
    unknown = [it for it in asked.crates if it not in below]
    if unknown:
        raise Unready(f"crates.txt lists no {unknown[0]}")
    crates = [it for it in below if it in asked.crates or not asked.crates and not it.startswith(OF_TESTS)]
    missing = sorted({it for crate in crates for it in needed(below, crate) if not os.path.isfile(f"{TOP}/crates/{it}/out/rlib/stamp")})
    if missing:
        raise Unready(f"{missing[0]} has no library: run `rt all check`")
    orders = {crate: [it for it in order if not in_circle(it.function)] for crate, order in draw.every_change(TOP, crates, asked.seed).items()}
    found = {}
    for crate, want in shares(orders, asked.count).items():
        found[crate] = that_compile(room, crate, orders[crate], want)
        restored(room, crate)
        judge(room, crate, found[crate])
        restored(room, crate)
        for it in found[crate]:
            print(f"{it.verdict}: {it.said()}", flush=True)
    return tell(found)


def tell(found):
    """Prints the table, and returns the status."""
    print("\n| Crate | Drawn | Refused | Passed | Not judged |")
    print("|---|---|---|---|---|")
    kinds = ["refused", "passed", "not judged"]
    for name, copies in [*((f"`{crate}`", these) for crate, these in found.items()), ("all", [it for these in found.values() for it in these])]:
        numbers = [sum(it.verdict == kind for it in copies) for kind in kinds]
        print("| " + " | ".join(map(str, [name, len(copies), *numbers])) + " |")
    without = sum(it.verdict == "refused" and it.without for these in found.values() for it in these)
    print(f"\n{without} of those that were refused lost answers, and the search found no proof by itself")
    return 1 if any(it.verdict == "passed" for these in found.values() for it in these) else 0


if __name__ == "__main__":
    try:
        with tempfile.TemporaryDirectory(prefix="mutants-") as folder:
            sys.exit(main(sys.argv[1:], folder))
    except Unready as why:
        print(why, file=sys.stderr)
        sys.exit(2)
