"""Looks whether each call that other crates see says what it answers: whether it has an `ensures`.

    python3 check/contracts.py [--private]

A call is a public function or method, or a method that a public trait declares (its impls have the trait's clauses), in `src/` of a crate that isn't one of tests. It has
something to say if it has a result, or takes an argument by `&mut`. Without an `ensures` any body would pass, a wrong one too. ADVICE names the calls that have none all
the same, each with the reason. Whether a clause says enough only a reader can tell, or a bug that is planted (dev/edits.py and dev/mutants.py).

With --private it prints the private functions without one too, which no other crate calls.
"""
import glob
import os
import re
import sys

TOP = os.path.dirname(os.path.dirname(os.path.abspath(__file__)))
# Public functions that only advise, by crate, file and name, and why their callers take any answer. (Private ones say it above them, or at the head of their file.)
TRIED = "it chooses what a search tries first, and a search is right whatever it tries"
DROPPED = "it marks literals of a clause that is being learnt, and whoever drops one resolves with its reason, or doesn't drop it"
WALKED = "it chooses a way along a network and a log; the run at its end is replayed, and given only if it explains the log"
CHOSEN = "it chooses which components a finer network has besides, or writes its text; that is read, and given only if it is a refinement"
ADVICE = {
    ("alignment", "ground.rt", "alarm_of"): WALKED,
    ("alignment", "ground.rt", "beginnings"): WALKED,
    ("alignment", "ground.rt", "is_over"): WALKED,
    ("alignment", "ground.rt", "new"): WALKED,
    ("alignment", "ground.rt", "next_doubtful"): WALKED,
    ("alignment", "ground.rt", "parts"): WALKED,
    ("alignment", "ground.rt", "suits"): WALKED,
    ("alignment", "leaving.rt", "after"): WALKED,
    ("alignment", "leaving.rt", "allow"): WALKED,
    ("alignment", "leaving.rt", "new"): WALKED,
    ("alignment", "situation.rt", "copy"): WALKED,
    ("alignment", "tracking.rt", "moves_to"): WALKED,
    ("alignment", "walk.rt", "go"): WALKED,
    ("alignment", "walk.rt", "new"): WALKED,
    ("least_faults", "deadlines.rt", "missed_deadlines"): TRIED,
    ("least_faults", "loose.rt", "are_loose"): TRIED,
    ("least_faults", "loose.rt", "push_unpassed"): TRIED,
    ("refinement", "additions.rt", "changes_in"): CHOSEN,
    ("refinement", "additions.rt", "moves_of"): CHOSEN,
    ("refinement", "additions.rt", "plan"): CHOSEN,
    ("refinement", "additions.rt", "transitions"): CHOSEN,
    ("refinement", "change.rt", "lines"): CHOSEN,
    ("refinement", "change.rt", "name"): CHOSEN,
    ("refinement", "change.rt", "of"): CHOSEN,
    ("refinement", "change.rt", "transitions"): CHOSEN,
    ("refinement", "drafting.rt", "draft"): CHOSEN,
    ("refinement", "room.rt", "new"): CHOSEN,
    ("refinement", "room.rt", "take"): CHOSEN,
    ("refinement", "rule.rt", "wants"): CHOSEN,
    ("sat_learn", "removable.rt", "new"): DROPPED,
    ("sat_learn", "removable.rt", "widen"): DROPPED,
    ("sat_learn", "removable.rt", "resolves"): DROPPED,
    ("sat_learn", "removable.rt", "find"): DROPPED,
}
# Crates whose functions are tests, or what tests call.
OF_TESTS = "calls_"
# A comment, a text or a character: none is looked at.
SILENT = re.compile(r"""//[^\n]*|"(?:\\.|[^"\\])*"|'(?:\\.|[^'\\\n])'""")
# A block of methods or a function, at the margin or four columns in.
BLOCK = re.compile(r"(?P<trait>(?P<open>pub )?trait (?P<name>\w+))|impl\b(?P<impl>.*)")
FUNCTION = re.compile(r"(?P<indent>    )?(?P<public>pub )?(?P<other>pub\(\w+\) )?(?:const )?fn (?P<name>\w+)")


def heads(text):
    """For each function of a file its line, its name, whether it is public, and its head: signature and clauses."""
    lines = SILENT.sub(lambda found: "\n" * found[0].count("\n"), text).split("\n")
    block, number = None, 0
    while number < len(lines):
        line = lines[number]
        block = BLOCK.match(line) or (None if line.startswith("}") else block)
        found = FUNCTION.match(line)
        if found:
            end = number
            # (a body begins by a brace that ends a line, and a method without one ends by a semicolon)
            while end + 1 < len(lines) and not lines[end].rstrip().endswith(("{", "{}", ";")):
                end += 1
            yield number + 1, found["name"], is_public(found, block), "\n".join(lines[number:end + 1])
            number = end
        number += 1


def is_public(found, block):
    """Whether a function is seen by other crates, by its words and the block in which it stands. None where the trait of an impl has its clauses."""
    if found["indent"] and block and block["impl"] and " for " in block["impl"]:
        return None
    return bool(found["public"] or (found["indent"] and block and block["open"]))


def has_to_say(head):
    """Whether a function has a result, or takes an argument by `&mut`."""
    signature = re.split(r"\n\s*(?:requires|ensures|ghost)\b", head)[0]
    return "->" in signature or re.search(r"&(?:'\w+ )?mut\b", signature) is not None


def silent(root):
    """The functions of all crates that have something to say, and no `ensures`: the crate, file, line and name, and whether they are public."""
    for path in sorted(glob.glob(f"{root}/crates/*/src/**/*.rt", recursive=True)):
        crate, file = os.path.relpath(path, f"{root}/crates").split("/src/")
        if crate.startswith(OF_TESTS):
            continue
        with open(path, encoding="utf-8") as it:
            text = it.read()
        for line, name, public, head in heads(text):
            if public is not None and has_to_say(head) and not re.search(r"\n\s*ensures\b", head):
                yield crate, file, line, name, public


def main(words):
    found = list(silent(TOP))
    public = [it for it in found if it[4] and it[:2] + (it[3],) not in ADVICE]
    for crate, file, line, name, _ in (found if "--private" in words else public):
        print(f"crates/{crate}/src/{file}:{line}: no ensures: {name}")
    needless = set(ADVICE) - {it[:2] + (it[3],) for it in found}
    for crate, file, name in sorted(needless):
        print(f"crates/{crate}/src/{file}: ADVICE names {name}, which has an ensures, or isn't there")
    return 1 if public or needless else 0


if __name__ == "__main__":
    sys.exit(main(sys.argv[1:]))
