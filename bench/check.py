"""Times `check` on a large formula and proof, and prints a table: size, time, rate, ratio to a plain read, memory.

    python3 bench/check.py PROGRAM [HOLES]
    python3 bench/check.py --write FOLDER [HOLES]

PROGRAM is the program as `rt run` builds it, crates/diagnose_cli/out/diagnose_cli. The inputs are made in a temporary folder;
`--write` makes them in a folder and stops. It needs Python and nothing else: the refutation is scripted, and no solver is
called. It's no part of the gate.

The formula is the pigeonhole principle: HOLES + 1 pigeons (8 + 1 where none are given) don't fit into HOLES holes. The
refutation splits on where the first pigeon is, then the second, and so on. There is a lemma for each way to put the first
pigeons into different holes, but for the last two pigeons: with 8 holes these are 69,281. Lemmas are deleted once they are
used. Each run checks the proof for 4 holes here first, hint by hint, so that a mistake of this script shows as one.
"""
import os
import sys

from measure import tabulate, written


def pigeonhole(holes):
    """The clauses, and their numbers: `some[p]` puts pigeon p somewhere, `apart[p, q, h]` keeps p and q from sharing h."""
    clauses, some, apart = [], {}, {}
    for p in range(holes + 1):
        clauses.append([variable(holes, p, h) for h in range(holes)])
        some[p] = len(clauses)
    for h in range(holes):
        for p in range(holes + 1):
            for q in range(p + 1, holes + 1):
                clauses.append([-variable(holes, p, h), -variable(holes, q, h)])
                apart[p, q, h] = len(clauses)
    return clauses, some, apart


def variable(holes, p, h):
    """Pigeon p is in hole h."""
    return p * holes + h + 1


def refutation(holes, count, some, apart):
    """Steps: (number, clause, hints), or (number, None, numbers to delete)."""
    steps = []
    last = count

    def excluded(placed, p):
        return [apart[q, p, h] for q, h in enumerate(placed)]

    def refute(placed):
        nonlocal last
        p = len(placed)
        free = [h for h in range(holes) if h not in placed]
        children = []
        if len(free) == 1:
            # the next two pigeons are in the one hole that is left
            hints = excluded(placed, p) + [some[p]] + excluded(placed, p + 1) + [some[p + 1], apart[p, p + 1, free[0]]]
        else:
            children = [refute(placed + [h]) for h in free]
            hints = excluded(placed, p) + children + [some[p]]
        last += 1
        steps.append((last, [-variable(holes, q, h) for q, h in enumerate(placed)], hints))
        number = last
        if children:
            steps.append((number, None, children))
        return number

    refute([])
    return steps


def derives(held, clause, hints):
    """Whether unit propagation along the hints ends in a false clause."""
    true = {-l for l in clause}
    for hint in hints:
        open_literals = [l for l in held[hint] if -l not in true]
        if not open_literals:
            return True
        if len(open_literals) > 1:
            return False
        true.add(open_literals[0])
    return False


def self_check(holes):
    clauses, some, apart = pigeonhole(holes)
    held = {i + 1: c for i, c in enumerate(clauses)}
    for number, clause, numbers in refutation(holes, len(clauses), some, apart):
        if clause is None:
            for n in numbers:
                del held[n]
        else:
            assert derives(held, clause, numbers), (number, clause, numbers)
            held[number] = clause
    assert [] in held.values()


def cnf_text(holes):
    clauses, _, _ = pigeonhole(holes)
    lines = [f"p cnf {(holes + 1) * holes} {len(clauses)}"]
    lines += [" ".join(map(str, c + [0])) for c in clauses]
    return "\n".join(lines) + "\n"


def lrat_text(holes):
    clauses, some, apart = pigeonhole(holes)
    lines = []
    for number, clause, numbers in refutation(holes, len(clauses), some, apart):
        if clause is None:
            lines.append(" ".join(map(str, [number, "d", *numbers, 0])))
        else:
            lines.append(" ".join(map(str, [number, *clause, 0, *numbers, 0])))
    return "\n".join(lines) + "\n"


def many_clauses():
    """4,000,000 clauses of three literals, for the reader alone."""
    count, state, lines = 4_000_000, 7, []
    for _ in range(count):
        literals = []
        for _ in range(3):
            state = (state * 6364136223846793005 + 1442695040888963407) % 2**64
            literals.append(((state >> 33) % 1_000_000 + 1) * (1 if state >> 63 else -1))
        lines.append(" ".join(map(str, literals)) + " 0")
    return f"p cnf 1000000 {count}\n" + "\n".join(lines) + "\n"


def many_deletions():
    """1,000,000 lines that delete, for the other reader alone."""
    return "".join(f"1 d {n} {n + 1} {n * 7919} {n * 104729} 0\n" for n in range(1, 1_000_001))


def long_steps_formula():
    """Clause k, for k from 1 to 9, has the literals 1 to 9 and k + 9; and one more has the negations of 10 to 18, and 1."""
    clauses = [list(range(1, 10)) + [k + 9] for k in range(1, 10)]
    clauses.append([-(k + 9) for k in range(1, 10)] + [1])
    return "p cnf 19 10\n" + "".join(" ".join(map(str, clause)) + " 0\n" for clause in clauses)


def long_steps():
    """1,000,000 steps, each of which adds the literals 1 to 9 by ten hints of ten literals each: nine of them make a literal
    true, and the tenth is false then. None has the empty clause, so all are followed."""
    rest = " ".join(map(str, range(1, 10))) + " 0 " + " ".join(map(str, range(1, 11))) + " 0\n"
    return "".join(f"{number} {rest}" for number in range(11, 1_000_011))


def main():
    words = sys.argv[1:]
    folder = None
    if words[0] == "--write":
        words = words[1:]
        folder = words[0]
    program = os.path.abspath(words[0])
    holes = int(words[1]) if len(words) > 1 else 8
    self_check(4)
    cases = [
        (f"{holes + 1} pigeons, {holes} holes", lambda: cnf_text(holes), lambda: lrat_text(holes)),
        ("4,000,000 clauses, no proof", many_clauses, lambda: ""),
        ("1,000,000 steps of ten hints", long_steps_formula, long_steps),
        ("1,000,000 deletions", lambda: "p cnf 1 0\n", many_deletions),
    ]
    if folder:
        for i, (_, cnf, lrat) in enumerate(cases):
            written(os.path.join(folder, f"{i}.cnf"), cnf)
            written(os.path.join(folder, f"{i}.lrat"), lrat)
        return
    tabulate(program, "check", cases)


if __name__ == "__main__":
    main()
