"""Runs the gate from nothing, and prints what it costs: seconds of the processor by crate and kind, as a table.

    python3 dev/cost.py [--kept] [CRATE..]

It clones the last commit into a temporary folder, where nothing is kept, and runs .ci/run there, which calls `rt ci --anew` in place of
`rt ci`, so that nothing is taken from earlier runs on this machine; a kit whose `rt ci` always begins from nothing knows no such word, and gets none. With crates it
runs `rt ci --anew CRATE..` instead, where the kit can, which proves these and those below. The gate's own lines go to standard error and the table to standard output. With --kept it takes what earlier runs on this machine
kept, as the gate does: then the table has what a change costs.

The command tells no seconds, so the processes are looked at ten times a second. A process counts for the crate and the kind that its words
and its folder name: the proof of a crate, the proofs of its tests, its must-fail edits with the checks that they begin from and end with, and runs, which
are those of programs and tests and of the cases of files. What the looks don't see, since it ended between two of them or is the command itself, is the
last row: the sum is what the system counted for the gate and all that it started.

Status: that of the gate.
"""
import os
import re
import subprocess
import sys
import tempfile
import time

TOP = os.path.dirname(os.path.dirname(os.path.abspath(__file__)))
BETWEEN = 0.1
TICKS = os.sysconf("SC_CLK_TCK")
KINDS = ["proof", "tests", "edits", "runs"]
# A folder in which the command tries an edit, or begins or ends the tries of a crate's edits.
OF_EDIT = re.compile(r"/rt-edit-[^/]*$")
# A built program or tests, by the path.
PROGRAM = re.compile(r"/(?:out|bin)/(\w+?)(?:_tests)?(?:\.by-rattle)?$")
IN_CRATE = re.compile(r"/crates/(\w+)(?:/|$)")


def text(path):
    try:
        with open(path, "rb") as it:
            return it.read().decode(errors="replace")
    except OSError:
        return ""


def processes():
    """For each process its parent, when it began, and the seconds that it has used itself."""
    found = {}
    for name in os.listdir("/proc"):
        if name.isdigit():
            # (what stands before the last parenthesis is the number and the name)
            fields = text(f"/proc/{name}/stat").rpartition(")")[2].split()
            if fields:
                found[int(name)] = int(fields[1]), int(fields[19]), (int(fields[11]) + int(fields[12])) / TICKS
    return found


def descendants(all_of_them, root):
    """The processes that root started, and those that they started."""
    inside, outside = {root}, set()
    for start in all_of_them:
        path, at = [], start
        while at in all_of_them and at not in inside and at not in outside:
            path.append(at)
            at = all_of_them[at][0]
        (inside if at in inside else outside).update(path)
    return inside & set(all_of_them)


def account_of(process, crates):
    """The crate and the kind that a process works for, or None."""
    words = text(f"/proc/{process}/cmdline").split("\0")
    if words == [""]:
        return None
    try:
        folder = os.readlink(f"/proc/{process}/cwd")
    except OSError:
        folder = ""
    run = next((it[1] for it in map(PROGRAM.search, words) if it and it[1] in crates), None)
    if run:
        return run, "runs"
    if "--crate-name" in words[:-1]:
        crate = words[words.index("--crate-name") + 1]
        return crate, "edits" if OF_EDIT.search(folder) else "tests" if "--test" in words else "proof"
    inside = IN_CRATE.search(folder)
    return (inside[1], "tests" if any("_tests" in it for it in words) else "proof") if inside else None


def run(command, folder, crates):
    """Runs the gate. Returns its status, the seconds by the clock and of the processor, and those of each crate and kind."""
    begun, spent = time.monotonic(), {}
    child = subprocess.Popen(command, cwd=folder, stdout=sys.stderr)
    while True:
        ended, status, usage = os.wait4(child.pid, os.WNOHANG)
        if ended:
            break
        seen = processes()
        for process in descendants(seen, child.pid):
            # (the last look at it counts; one that ends has no words left, and counts as before; its number may be another's later)
            _, start, seconds = seen[process]
            account = account_of(process, crates) or spent.get((process, start), (None,))[0]
            if account:
                spent[process, start] = account, seconds
        time.sleep(BETWEEN)
    accounts = {}
    for account, seconds in spent.values():
        accounts[account] = accounts.get(account, 0) + seconds
    return os.waitstatus_to_exitcode(status), time.monotonic() - begun, usage.ru_utime + usage.ru_stime, accounts


def row(name, numbers):
    return "| " + " | ".join([name] + [f"{it:,.0f}" for it in numbers]) + " |"


def tell(crates, clock, whole, accounts):
    """Prints the table."""
    print("| Crate | Proof | Proofs of tests | Edits | Runs | All |")
    print("|---|---|---|---|---|---|")
    of_crate = {crate: [accounts.get((crate, kind), 0) for kind in KINDS] for crate in crates}
    for crate, numbers in of_crate.items():
        if any(numbers):
            print(row(f"`{crate}`", numbers + [sum(numbers)]))
    of_kind = [sum(numbers[at] for numbers in of_crate.values()) for at in range(len(KINDS))]
    print(f"| not seen, or none of these | | | | | {whole - sum(of_kind):,.0f} |")
    print(row("all", of_kind + [whole]))
    print(f"\n{whole:,.0f} seconds of the processor, and {clock / 60:.1f} minutes by the clock on {os.cpu_count()} processors")


def knows_anew():
    """Whether the kit's gate keeps proofs from run to run, so that it must be told to begin anew."""
    said = subprocess.run(["rt", "help"], stdout=subprocess.PIPE, stderr=subprocess.STDOUT, check=False)
    return b"--anew" in said.stdout


def main(words):
    names = [word for word in words if word != "--kept"]
    anew = [] if "--kept" in words or not knows_anew() else ["--anew"]
    with tempfile.TemporaryDirectory(prefix="cost-") as room:
        clone = os.path.join(room, "clone")
        subprocess.run(["git", "clone", "--quiet", "--local", TOP, clone], check=True)
        gate = os.path.join(clone, ".ci", "run")
        gate_text = text(gate)
        if gate_text.count("rt ci ||") != 1:
            print("the gate doesn't call `rt ci` as this expects", file=sys.stderr)
            return 2
        with open(gate, "w", encoding="utf-8") as it:
            it.write(gate_text.replace("rt ci ||", " ".join(["rt", "ci", *anew, "||"])))
        crates = [line.split(":")[0].split()[0] for line in text(f"{clone}/crates.txt").split("\n") if ":" in line and not line.startswith("#")]
        command = ["rt", "ci", *anew, *names] if names else [gate]
        status, clock, whole, accounts = run(command, clone, crates)
        tell(crates, clock, whole, accounts)
        return status


if __name__ == "__main__":
    sys.exit(main(sys.argv[1:]))
