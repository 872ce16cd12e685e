"""Times the solver on the pigeonhole principle, and prints a table: conflicts and seconds, beside those of MiniSat.

    python3 bench/pigeonholes.py [HOLES] [FOLDER]

HOLES + 1 pigeons don't fit into HOLES holes, for 3 up to HOLES holes (10 where none are given). No command solves a formula
alone, so this makes a scratch repository in FOLDER, or in a temporary folder: a copy of the crates, and one more crate with
a small program, whose files stand in `pigeonholes.program` beside this script, each behind a line with its path. `rt run` proves
and builds it there; in a FOLDER that is kept a later run is quick. MiniSat is called where it is installed, with what it does
first switched off. It's no part of the gate.
"""
import os
import re
import shutil
import subprocess
import sys
import tempfile
import time

from scratch import built

USED = ["des_base", "prop_core", "proof_ledger", "sat_order", "sat_prop", "sat_learn", "sat_solve"]


def pigeonhole(holes):
    """The clauses, in the program's order."""
    clauses = [[p * holes + h + 1 for h in range(holes)] for p in range(holes + 1)]
    for h in range(holes):
        for p in range(holes + 1):
            clauses += [[-(p * holes + h + 1), -(q * holes + h + 1)] for q in range(p + 1, holes + 1)]
    return clauses


def timed(*words):
    start = time.perf_counter()
    out = subprocess.run(words, capture_output=True, text=True).stdout
    return out, time.perf_counter() - start


def minisat(folder, holes):
    """Conflicts and seconds, or dashes."""
    if not shutil.which("minisat"):
        return "-", "-"
    clauses = pigeonhole(holes)
    path = os.path.join(folder, "pigeonholes.cnf")
    with open(path, "w", encoding="ascii") as f:
        f.write(f"p cnf {holes * (holes + 1)} {len(clauses)}\n")
        f.writelines(" ".join(map(str, c)) + " 0\n" for c in clauses)
    out, seconds = timed("minisat", "-no-pre", "-verb=1", path)
    found = re.search(r"conflicts\s*:\s*(\d+)", out)
    return found.group(1) if found else "-", f"{seconds:.2f}"


def main(holes, folder):
    program = built(folder, "pigeonholes", USED, "3")
    print("| Holes | Conflicts | Seconds | MiniSat's conflicts | its seconds |")
    print("|---|---|---|---|---|")
    for count in range(3, holes + 1):
        out, seconds = timed(program, str(count))
        other, other_seconds = minisat(folder, count)
        print(f"| {count} | {out.strip()} | {seconds:.2f} | {other} | {other_seconds} |", flush=True)


if __name__ == "__main__":
    most = int(sys.argv[1]) if len(sys.argv) > 1 else 10
    if len(sys.argv) > 2:
        main(most, sys.argv[2])
    else:
        with tempfile.TemporaryDirectory() as scratch:
            main(most, scratch)
