"""Tries must-fail edits: those of must-fail/, which the gate tries too, and those beside the gate, which it doesn't.

    sh dev/edits.sh [--since COMMIT] [CRATE..]

The edits beside the gate stand in more-edits.txt of their crate, each behind a line `# NAME`.

It tries those of the crates that are named, or of all; with --since only those of crates of which a file changed since the commit,
or a file of a crate below. It works on a copy, by the command that tries edits alone (rt must-fail), which begins with what checks on
this machine kept.

What was refused is kept in dev/out/refused, which git ignores: for each edit the sum of its text, of its crate, of the crates below and of
the prover's version. So an edit isn't tried again while none of these changed; without that file all are tried. It is for the time before an
issue is said to be resolved, and before the public clauses of a crate change, and after.

The last lines count. Status 0: all edits are refused, 1: some aren't, 2: it could not begin.
"""
import argparse
import glob
import hashlib
import os
import re
import shutil
import signal
import subprocess
import sys
import tempfile

TOP = os.path.dirname(os.path.dirname(os.path.abspath(__file__)))
sys.dont_write_bytecode = True
sys.path.insert(0, os.path.join(TOP, "check"))
from applies import PACKED, beside_the_gate, unpacked  # noqa: E402

KEPT = os.path.join(TOP, "dev", "out", "refused")
PROVED = ("src", "specs", "proofs")
TRIED = ("must-fail", "more-edits")
# What the command says of an edit.
VERDICT = re.compile(r"rt: must-fail ([^/\s]+)/([^/\s]+\.edit): (refused, as it must be|NOT REFUSED|BAD EDIT|NOT TRIED)(.*)")
# A refusal that says little of the contract.
WEAK = re.compile(r" \(only ")


class Unready(Exception):
    """Why it can't begin."""


def copied(room):
    """Copies what the command reads into a folder. Each edit has a file of its own there."""
    shutil.copytree(os.path.join(TOP, "crates"), os.path.join(room, "crates"), ignore=shutil.ignore_patterns("out"))
    for name in ["crates.txt", "HANDLES"]:
        shutil.copy(os.path.join(TOP, name), room)
    for path in glob.glob(f"{room}/crates/*/{PACKED}"):
        folder = os.path.join(os.path.dirname(path), "more-edits")
        os.makedirs(folder, exist_ok=True)
        for name, text in unpacked(path):
            if os.path.exists(f"{folder}/{name}.edit"):
                raise Unready(f"{os.path.relpath(path, room)} has two edits {name}")
            with open(f"{folder}/{name}.edit", "w", encoding="utf-8") as it:
                it.write(text)


def crates_below(room):
    """For each crate that crates.txt lists, the crates of the repository that it names there."""
    below = {}
    with open(os.path.join(room, "crates.txt"), encoding="utf-8") as it:
        for line in it:
            if ":" in line.split("#")[0]:
                name, used = line.split("#")[0].split(":")
                below[name.split()[0]] = used.split()
    return below


def files_of(room, crate, parts):
    """The files of these parts of a crate, in a fixed order."""
    found = []
    for part in parts:
        found += sorted(glob.glob(f"{room}/crates/{crate}/{part}/**", recursive=True))
    return [path for path in found if os.path.isfile(path)]


def sums(room, below):
    """The sum of each crate: of its files, of its line in crates.txt, and of the crates below it."""
    version = subprocess.run(["rt", "version"], stdout=subprocess.PIPE, check=True).stdout
    known = {}

    def sum_of(crate):
        if crate not in known:
            line = [(it, sum_of(it) if it in below else "") for it in below[crate]]
            whole = hashlib.sha256(version + repr((crate, line)).encode())
            for path in files_of(room, crate, PROVED):
                with open(path, "rb") as it:
                    whole.update(repr((os.path.relpath(path, room), it.read())).encode())
            known[crate] = whole.hexdigest()
        return known[crate]

    return {crate: sum_of(crate) for crate in below}


def git(*words):
    ran = subprocess.run(["git", "-C", TOP, *words], stdout=subprocess.PIPE, stderr=subprocess.PIPE, text=True)
    if ran.returncode:
        raise Unready(ran.stderr.strip())
    return ran.stdout


def changed_since(commit, below):
    """The crates of which a file changed since the commit, or one of a crate below."""
    paths = git("diff", "--name-only", commit, "--", "crates").split("\n")
    paths += git("ls-files", "--others", "--exclude-standard", "--", "crates").split("\n")
    touched = {(parts[1], parts[2] not in PROVED) for parts in [path.split("/") for path in paths] if len(parts) > 2 and parts[2] in PROVED + TRIED + (PACKED,)}
    # (those of crates.txt that are written otherwise now)
    old = {line.split("#")[0].strip() for line in git("show", f"{commit}:crates.txt").split("\n")}
    with open(os.path.join(TOP, "crates.txt"), encoding="utf-8") as it:
        now = {line.split("#")[0].strip() for line in it}
    touched |= {(line.split(":")[0].split()[0], False) for line in now - old if ":" in line}
    changed = {crate for crate, is_edit in touched if not is_edit}
    while above := {crate for crate in below if crate not in changed and changed & set(below[crate])}:
        changed |= above
    return [crate for crate in below if crate in changed or (crate, True) in touched]


def kept():
    """What was refused in earlier runs: the sums of the edits, and what was said."""
    if not os.path.isfile(KEPT):
        return {}
    with open(KEPT, encoding="utf-8") as it:
        return dict(line.rstrip("\n").split(" ", 1) for line in it)


def keep(entries):
    """Writes what was refused, in place of what was kept."""
    os.makedirs(os.path.dirname(KEPT), exist_ok=True)
    with open(f"{KEPT}.new", "w", encoding="utf-8") as it:
        it.writelines(f"{key} {said}\n" for key, said in sorted(entries.items(), key=lambda entry: entry[1]))
    os.replace(f"{KEPT}.new", KEPT)


def edits_of(room, crates, of_crate):
    """For each edit of these crates its crate and name, with the path and the sum of what a try of it rests on."""
    found = {}
    for crate in crates:
        for path in files_of(room, crate, TRIED):
            if not path.endswith(".edit"):
                continue
            name = os.path.basename(path)
            if (crate, name) in found:
                raise Unready(f"{os.path.relpath(path, room)} has the name of an edit of must-fail/")
            with open(path, "rb") as it:
                found[crate, name] = path, hashlib.sha256(of_crate[crate].encode() + it.read()).hexdigest()
    return found


def tried(room, edits):
    """What the command says of these edits, by crate and name. In the copy no others stand where it looks."""
    for (crate, name), (path, _) in edits.items():
        os.makedirs(f"{room}/crates/{crate}/tried", exist_ok=True)
        os.rename(path, f"{room}/crates/{crate}/tried/{name}")
    for crate in {crate for crate, _ in edits}:
        shutil.rmtree(f"{room}/crates/{crate}/must-fail", ignore_errors=True)
        os.rename(f"{room}/crates/{crate}/tried", f"{room}/crates/{crate}/must-fail")
    found = {}
    command = ["rt", "must-fail", *sorted({crate for crate, _ in edits})]
    with subprocess.Popen(command, cwd=room, stdout=subprocess.PIPE, text=True, errors="replace") as child:
        try:
            for line in child.stdout:
                print(line, end="", flush=True)
                verdict = VERDICT.match(line)
                if verdict:
                    found[verdict[1], verdict[2]] = verdict[3], verdict[4]
        except BaseException:
            child.terminate()
            raise
    return found


def asked_for(words):
    parser = argparse.ArgumentParser(prog="edits.sh", description="Tries must-fail edits.")
    parser.add_argument("--since", metavar="COMMIT")
    parser.add_argument("crates", nargs="*", metavar="CRATE")
    return parser.parse_args(words)


def main(words, room):
    asked = asked_for(words)
    copied(room)
    below = crates_below(room)
    unknown = [it for it in asked.crates if it not in below]
    if unknown:
        raise Unready(f"crates.txt lists no {unknown[0]}")
    crates = [it for it in below if it in asked.crates or not asked.crates]
    if asked.since:
        changed = changed_since(asked.since, below)
        crates = [it for it in crates if it in changed]
    edits, before = edits_of(room, crates, sums(room, below)), kept()
    old = {key: before[sum] for key, (_, sum) in edits.items() if sum in before}
    new = {key: it for key, it in edits.items() if key not in old}
    verdicts = tried(room, new) if new else {}
    for key, (_, sum) in new.items():
        verdict, rest = verdicts.get(key, ("", ""))
        if verdict.startswith("refused"):
            before[sum] = f"{'/'.join(key)}{' weakly' if WEAK.match(rest) else ''}"
    keep(before)
    return count(new, old, verdicts)


def count(new, old, verdicts):
    """Prints the last lines, and returns the status."""
    by_kind = {kind: [key for key, it in verdicts.items() if it[0] == kind] for kind in ["NOT REFUSED", "BAD EDIT"]}
    refused = [key for key, it in verdicts.items() if it[0].startswith("refused")]
    weak = [key for key in refused if WEAK.match(verdicts[key][1])]
    weak += [key for key, said in old.items() if said.endswith(" weakly")]
    without = [key for key in new if verdicts.get(key, ("NOT TRIED",))[0] == "NOT TRIED"]
    for said, keys in [("not refused", by_kind["NOT REFUSED"]), ("bad", by_kind["BAD EDIT"]), ("without a verdict", without)]:
        for crate, name in keys:
            print(f"{said}: {crate}/{name}")
    print(f"tried now: {len(new)} (crates: {len({crate for crate, _ in new})})")
    print(f"kept from before: {len(old)}")
    print(f"refused: {len(refused) + len(old)}, of which {len(weak)} by a limit or for a name alone, which says little of the contract")
    print(f"not refused: {len(by_kind['NOT REFUSED'])}")
    print(f"bad edits: {len(by_kind['BAD EDIT'])}")
    print(f"without a verdict: {len(without)}")
    return 0 if len(refused) == len(new) else 1


if __name__ == "__main__":
    # (so that the copy goes when it is told to end)
    signal.signal(signal.SIGTERM, lambda *_: sys.exit(2))
    try:
        with tempfile.TemporaryDirectory(prefix="edits-") as folder:
            sys.exit(main(sys.argv[1:], folder))
    except Unready as why:
        print(why, file=sys.stderr)
        sys.exit(2)
