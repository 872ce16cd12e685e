"""Asks other solvers what `cnf` prints, compares their answers with that of `diagnose`, and checks what `proof` prints.

    python3 bench/proofs.py PROGRAM [COUNT]

PROGRAM is the program as `rt run` builds it, crates/diagnose_cli/out/diagnose_cli. The questions are those of `examples/`, in 4 steps, and COUNT
small drawn ones (100 if COUNT isn't given), some with doubtful alarms. For each the formula for one fault fewer than `diagnose` tells must
have no model, and that for as many must have one; where nothing explains the log the formula for any number has none. MiniSat and CaDiCaL
are asked, whichever is installed. The refutation that `proof` prints must name the greatest bound that has no model, and `check` must verify it
over the formula of that bound, and `lrat-check` (of drat-trim) too where it is installed. Status 1: something differs.

On 28 November 2026 over the examples and 100 drawn questions, 122 that `diagnose` answered: 539 answers and refutations, with MiniSat and CaDiCaL, none
wrong; no checker but ours was at hand. Larger ones of `diagnose.py`, one run each on four shared processors under load, in seconds of the processor:

| Plant | Formula | `cnf` | Proof | `proof` | `check` |
|---|---|---|---|---|---|
| 100 units, 26 steps | 323,254 clauses, 5.5 MB | 0.07 | 342 steps, 0.6 MB | 0.5 | 0.1 |
| 6 valves, 5 alarms, 4 steps | 1,955 clauses, 24 kB | 0.00 | 7,116 steps, 3.3 MB | 1.1 | 0.1 |
| 6 alarms of one device, 6 steps | 1,239 clauses, 15 kB | 0.00 | 21,817 steps, 5.3 MB | 3.2 | 0.1 |
"""
import glob
import os
import random
import shutil
import subprocess
import sys
import tempfile

HERE = os.path.dirname(os.path.abspath(__file__))
EXAMPLES = os.path.join(HERE, "..", "examples")
STEPS, BUDGET, LABELS = 4, 1_000_000, "ABC"
SATISFIABLE, UNSATISFIABLE = 10, 20
EXPLAINED, ABSENT, MANY, NOTHING = 0, 10, 12, 14


def drawn(seed):
    """A small plant and a log: a few components of a few states, events of one or two parts, alarms of which some are doubtful."""
    draw = random.Random(seed)
    count = draw.randint(1, 4)
    model, actions = ["des 1"], []
    for c in range(count):
        states = draw.randint(2, 3)
        model += [f"component c{c}"] + [f"state s{q}" + (" init" if q == 0 else "") for q in range(states)]
        for a in range(draw.randint(1, 3)):
            start = draw.randrange(states)
            model.append(f"trans s{start} a{a} s{draw.randrange(states)}")
            actions.append((c, f"c{c}.a{a}"))
    for e in range(draw.randint(2, 7)):
        parts = dict(draw.sample(actions, min(len(actions), draw.randint(1, 2))))
        label = f" alarm {draw.choice(LABELS)}" if draw.random() < 0.6 else ""
        fault = " fault" if draw.random() < 0.5 else ""
        model.append(f"event e{e}{label}{fault} : " + " ".join(parts.values()))
    alarms = draw.randint(0, 4)
    log = []
    for i in range(alarms):
        word = "maybe" if draw.random() < 0.3 else "alarm"
        log.append(f"{word},x{i}," + "|".join(draw.sample(LABELS, draw.randint(1, 2))))
    log += [f"before,x{i},x{j}" for i in range(alarms) for j in range(i + 1, alarms) if draw.random() < 0.3]
    return model, log


def questions(folder, count):
    """Each with its name, the files of its model and its log, and its steps."""
    for model in sorted(glob.glob(os.path.join(EXAMPLES, "*", "model.des"))):
        for log in sorted(glob.glob(os.path.join(os.path.dirname(model), "*.csv"))):
            if os.path.basename(log) == "script.csv":
                continue
            yield os.path.relpath(log, EXAMPLES), [model, log], STEPS
    for seed in range(count):
        files = [os.path.join(folder, file) for file in ["model.des", "log.csv"]]
        for file, lines in zip(files, drawn(seed)):
            with open(file, "w", encoding="ascii") as it:
                it.write("".join(line + "\n" for line in lines))
        yield f"drawn {seed}", files, STEPS


def answered(*words):
    """The status of a call and its text."""
    ran = subprocess.run(words, stdout=subprocess.PIPE, stderr=subprocess.DEVNULL)
    return ran.returncode, ran.stdout


def expected(status, text):
    """The bounds for which a formula is asked, and what a solver must answer, by what `diagnose` told."""
    if status == ABSENT:
        return [("any", UNSATISFIABLE)]
    if status == MANY:
        return [("255", UNSATISFIABLE), ("any", SATISFIABLE)]
    faults = int(text.split()[1])
    below = [(str(faults - 1), UNSATISFIABLE)] if faults > 0 else []
    return below + [(str(faults), SATISFIABLE), ("any", SATISFIABLE)]


def compared(program, solvers, folder, name, files, steps):
    """How many answers were compared, and how many differ."""
    status, text = answered(program, "diagnose", *files, str(steps), str(BUDGET))
    if status not in [EXPLAINED, ABSENT, MANY]:
        print(f"{name}: left out, since diagnose ends with status {status}")
        return 0, 0
    asked = differ = 0
    for bound, wanted in expected(status, text):
        told, formula = answered(program, "cnf", *files, str(steps), bound)
        path = os.path.join(folder, "question.cnf")
        with open(path, "wb") as it:
            it.write(formula)
        for solver in solvers:
            given = answered(solver, path)[0] if told == 0 else told
            asked += 1
            if given != wanted:
                differ += 1
                print(f"{name}, bound {bound}: {solver} answers {given}, and {wanted} was expected")
    if not checked(program, folder, name, files, steps, status, text):
        differ += 1
        print(f"{name}: the refutation isn't verified")
    return asked + 1, differ


def checked(program, folder, name, files, steps, status, text):
    """Whether the printed refutation is of the bound that it must be, and is verified over that formula."""
    faults = int(text.split()[1]) if status == EXPLAINED else 1
    told, proof = answered(program, "proof", *files, str(steps), str(BUDGET))
    if faults == 0:
        return told == NOTHING and proof == b"NOTHING\n"
    bound = {ABSENT: "any", MANY: "255"}.get(status, str(faults - 1))
    if told != 0 or not proof.startswith(f"c cnf {bound}\n".encode()):
        return False
    paths = [os.path.join(folder, it) for it in ["refuted.cnf", "proof.lrat"]]
    for path, piece in zip(paths, [answered(program, "cnf", *files, str(steps), bound)[1], proof]):
        with open(path, "wb") as it:
            it.write(piece)
    if answered(program, "check", *paths) != (0, b"VERIFIED\n"):
        return False
    return not shutil.which("lrat-check") or b"VERIFIED" in answered("lrat-check", *paths)[1]


def main(program, count):
    solvers = [solver for solver in ["minisat", "cadical"] if shutil.which(solver)]
    asked = differ = total = 0
    with tempfile.TemporaryDirectory() as folder:
        for name, files, steps in questions(folder, count):
            some, wrong = compared(program, solvers, folder, name, files, steps)
            asked, differ, total = asked + some, differ + wrong, total + 1
    print(f"{total} questions, {asked} answers and refutations, with {' and '.join(solvers) or 'no solver'}, of which {differ} are wrong")
    return 1 if differ else 0


if __name__ == "__main__":
    sys.exit(main(os.path.abspath(sys.argv[1]), int(sys.argv[2]) if len(sys.argv) > 2 else 100))
