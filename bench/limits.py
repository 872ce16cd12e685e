"""Measures what isn't search at the limits of what is read, each row beside its yardstick, and prints a table.

    python3 bench/limits.py PROGRAM [ROW ..]

PROGRAM is the program as `rt run` builds it, crates/diagnose_cli/out/diagnose_cli. A row is check, trace, ask, labels, model, verdicts, cheapest or twin; all of them
where none is given. `check` needs a C compiler, for its yardstick lratcheck.c. It's no part of the gate.

Seconds are those of the processor, the least of three runs that take turns with those of the yardstick. A ratio is that of the seconds, and in brackets that of the memory. The goals stand beside the ratios; what misses its goal is
printed as it is, and nothing fails.

Before: on 30 November 2026, by a build of the program without any of what is told here and without its proof, on four shared processors under heavy load, so that seconds vary by up to two; `-` where 30 seconds (40 for `verdicts`) weren't enough. After: on 1 December by the proved program, on another such machine with other work beside; medians of three or four runs of `check`, `cheapest` and `verdicts`, of which the ratios with 100 and 300 fault events went from 3.9 to 7.0 and 3.4 to 4.5 for `cheapest`, and from 1.9 to 2.8 and 3.8 to 7.9 for `verdicts`; the row of `twin` on 2 December, when literals took four bytes.
In between came the checker's clauses by number and one look at a literal, steps of a proof that are checked as their lines are read, with derived clauses in one list, variables that wait in runs of equal rank in place of a heap, a twin question's list that its book takes over, the alarms' order by what stands before each, transitions by state and action with the place of a state's own number tried first, the table of touching events and
their counts event by event, the labels of an alarm as a set, the advice of deadlines over lists of earlier alarms and over the events that the log's code keeps of each, and sums of the counter that `verdicts` tries first.

| What | Before | After | Goal |
|---|---|---|---|
| `check`, 7 holes, 1 MB, times the C checker (memory) | 2.7 (1.0) | 1.5 (1.0) | 2.0 (1.2) |
| `check`, 8 holes, 7 MB | 3.2 (2.4) | 1.8 (1.0) | 2.0 (1.2) |
| `check`, a formula of 4,000,000 clauses, 97 MB | 3.4 (1.1) | 1.9 (0.8) | 2.0 (1.2) |
| `trace`, 4,000,000 events, 20 states, 10 actions, times one of three transitions | 2.5 | 1.0 | 1.5 |
| `trace`, 200 states, 250 actions | - | 1.0 | 1.5 |
| `trace`, 256 states, 195 actions | - | 1.1 | 1.5 |
| `trace`, one state, 4,000 actions | - | 1.0 | 1.5 |
| the same question again, 2,000 alarms, 20,000 pairs | 0.35 s | 0.003 s | 0.05 s |
| `diagnose`, 2,000 alarms of 64 labels, 4,000 events, 0 steps | 3.1 s | 0.42 s | 0.5 s |
| `diagnose`, the largest model, 0 steps | 0.38 s | 0.14 s | 0.15 s |
| `verdicts`, 30, 100, 300 fault events, beside `diagnose` | 3.7, 29 times, - | 1.9, 2.5, 4.9 | 5 |
| `cheapest`, 30, 100, 300 fault events, beside `diagnose` (memory) | 14 (2.8), 6.3 (9.1), 3.5 (11.6) | 9.7 (2.6), 4.9 (8.5), 3.7 (10.6) | 4 (1.5) |
| `twin`, 40 devices, 200 steps, AFTER 100, bytes for each literal, which took 8 itself and takes 4 now | 16.9 | 4.6 | 10.4 |

Half of what `check` does on proofs is to read numbers, and two fifths to follow hints. Of its memory on proofs the table can't say much: both programs are below what is seen from outside (by GNU time 8.9 MiB for 8 holes, and 8.2 for the C checker).

`cheapest` gets there with 300 fault events alone, since it writes its whole scale first, as its contract says: 1,001 variables and up to 2,002 clauses for each fault event and step, so 1.8 million variables and up to 3.6 million clauses for 300 fault events in 6 steps, each of which a question with an answer decides by itself. A third of what is left of the largest model (of its instructions) are
the lists of touching events of `step_encode`, which asks each component for each event.
"""
import os
import random
import subprocess
import sys
import tempfile

import check
from measure import spent, written

HERE = os.path.dirname(os.path.abspath(__file__))
RUNS = 3
SECONDS = 100
STEPS = 4_000_000
BUDGET = "1000000"


def text(path, lines):
    """Writes lines, which are made one after another in the process that writes them."""
    written(path, lambda: "".join(f"{line}\n" for line in lines))
    return path


def least(*calls):
    """The least seconds of each of the calls and its most MiB; they take turns."""
    best = [(float("inf"), 0.0) for _ in calls]
    for _ in range(RUNS):
        for place, words in enumerate(calls):
            seconds, memory, status, _ = spent("timeout", str(SECONDS), *words)
            best[place] = (min(seconds, best[place][0]), max(memory, best[place][1])) if status != 124 else (float("inf"), memory)
    return best


def row(name, goal, words, yardstick, what):
    (seconds, memory), (beside, room) = least(words, yardstick)
    print(f"| {name} | {seconds:.3f} s, {memory:.0f} MiB | {what}: {beside:.3f} s, {room:.0f} MiB | {seconds / max(beside, 0.001):.1f} ({memory / room:.1f}) | {goal} |", flush=True)


def alone(name, goal, words):
    ((seconds, memory),) = least(words)
    print(f"| {name} | {seconds:.3f} s, {memory:.0f} MiB | | | {goal} |", flush=True)


def check_rows(program, folder):
    """Refutations of the pigeonhole principle and a formula without a proof, beside the C checker."""
    plain = f"{folder}/lratcheck"
    subprocess.run(["cc", "-O2", "-o", plain, f"{HERE}/lratcheck.c"], check=True)
    cases = [(f"{holes + 1} pigeons", lambda h=holes: check.cnf_text(h), lambda h=holes: check.lrat_text(h)) for holes in (7, 8)]
    cases += [("a formula of 4,000,000 clauses", check.many_clauses, lambda: "")]
    for name, formula, proof in cases:
        files = [f"{folder}/f.cnf", f"{folder}/f.lrat"]
        size = written(files[0], formula) + written(files[1], proof)
        row(f"`check`, {name}, {size / 10**6:.0f} MB", "2.0 (1.2)", [program, "check", *files], [plain, *files], "C")


def plant(states, actions, targets=lambda s, a, n: (s + a) % n):
    """One component in which each state has each action, and an event for each."""
    yield "des 1"
    yield "component c"
    for s in range(states):
        yield f"state s{s}{' init' if s == 0 else ''}"
    for a in range(actions):
        for s in range(states):
            yield f"trans s{s} a{a} s{targets(s, a, states)}"
    for a in range(actions):
        yield f"event e{a} : c.a{a}"


def drawn(events):
    """A run of so many events, each drawn."""
    draw = random.Random(1)
    yield f"run {STEPS}"
    for _ in range(STEPS):
        yield f"e{draw.randrange(events)}"


def trace_rows(program, folder):
    """Runs of 4,000,000 events on components of many transitions, beside the same run on a component that has one of three."""
    for states, actions in [(20, 10), (200, 250), (256, 195), (1, 4_000)]:
        run = text(f"{folder}/run", drawn(actions))
        small = ["des 1", "component c", "state s init", "state t", "trans s a s", "trans s b t", "trans t b s"] + [f"event e{a} : c.a" for a in range(actions)]
        files = text(f"{folder}/m", plant(states, actions)), text(f"{folder}/s", small)
        row(f"`trace`, {states} states, {actions} actions", "1.5", [program, "trace", files[0], run], [program, "trace", files[1], run], "three transitions")


def largest(name):
    """1,000 components of 25 states and 50 transitions, and 4,000 events of four parts, each with a label of its own."""
    draw = random.Random(1)
    yield "des 1"
    for c in range(1000):
        yield f"component c{c}"
        yield from (f"state s{s}{' init' if s == 0 else ''}" for s in range(25))
        yield from (f"trans s{t % 25} a{t} s{(t * 7 + c) % 25}" for t in range(50))
    for e in range(4000):
        parts = " ".join(f"c{c}.a{draw.randrange(50)}" for c in draw.sample(range(1000), 4))
        yield f"event e{e} alarm {name(e)} {'fault ' if e % 4 == 0 else ''}: {parts}"


def chain(pairs):
    yield from (f"alarm,a{a},L{a}" for a in range(2000))
    yield from (f"before,a{a},a{a + far}" for far in range(1, pairs + 1) for a in range(2000 - far))


def ask_rows(program, folder):
    """The same question once more in a session of 2,000 alarms and 20,000 pairs: what twenty more take, by twenty."""
    model = text(f"{folder}/m", largest(lambda e: f"L{e}"))
    once, often = (text(f"{folder}/s{asks}", [*chain(10), *["ask"] * asks]) for asks in (1, 21))
    (one, _), (all_of_them, _) = least([program, "session", model, once, "0", BUDGET], [program, "session", model, often, "0", BUDGET])
    print(f"| the same question again, 2,000 alarms, 20,000 pairs | {(all_of_them - one) / 20:.3f} s | | | 0.05 s |", flush=True)


def label_rows(program, folder):
    """2,000 alarms of 64 labels each over 4,000 events of as many labels."""
    draw = random.Random(2)
    model = text(f"{folder}/m", largest(lambda e: f"L{e}"))
    log = text(f"{folder}/l", (f"alarm,a{a}," + "|".join(f"L{e}" for e in draw.sample(range(4000), 64)) for a in range(2000)))
    alone("`diagnose`, 2,000 alarms of 64 labels, 4,000 events, 0 steps", "0.5 s", [program, "diagnose", model, log, "0", BUDGET])


def model_rows(program, folder):
    model, log = text(f"{folder}/m", largest(lambda e: f"L{e}")), text(f"{folder}/l", [])
    alone("`diagnose`, the largest model, no alarm, 0 steps", "0.15 s", [program, "diagnose", model, log, "0", BUDGET])


def units(folder, count):
    """Units on a bus, each with a fault, and two alarms that a fifth of them explain."""
    lines = ["des 1", "component bus", "state up init", "trans up note up"]
    for u in range(count):
        lines += [f"component u{u}", "state ok init", "state bad", "state off", "trans ok jam bad", "trans bad trip off", "trans off fix ok"]
    for u in range(count):
        lines += [f"event jam{u} fault : u{u}.jam", f"event trip{u} alarm T{u % 5} : u{u}.trip bus.note", f"event fix{u} : u{u}.fix"]
    return text(f"{folder}/m", lines), text(f"{folder}/l", ["alarm,a,T1", "alarm,b,T2", "before,a,b"])


def verdict_rows(program, folder):
    for count in (30, 100, 300):
        files = units(folder, count)
        row(f"`verdicts`, {count} fault events", "5", [program, "verdicts", *files, "6", BUDGET], [program, "diagnose", *files, "6", BUDGET], "`diagnose`")


def cheapest_rows(program, folder):
    for count in (30, 100, 300):
        files = units(folder, count)
        costs = text(f"{folder}/c", ["costs 1"] + [f"cost jam{u} {u * 7 % 20 + 1}" for u in range(count)])
        row(f"`cheapest`, {count} fault events", "4 (1.5)", [program, "cheapest", *files, costs, "6", BUDGET], [program, "diagnose", *files, "6", BUDGET], "`diagnose`")


def twin_rows(program, folder):
    """Bytes for each literal of the clauses that name all that can be seen: 9 events of 40 devices, in 200 steps, AFTER 100."""
    model = ["des 1"]
    for u in range(40):
        model += [f"component u{u}", "state s init", "state t", "trans s jam t"] + [f"trans s a{e} s" for e in range(9)]
    for u in range(40):
        model += [f"event jam{u} fault : u{u}.jam"] + [f"event e{u}-{e} alarm L{u}-{e} : u{u}.a{e}" for e in range(9)]
    path, literals = text(f"{folder}/m", model), 200 * 100 * 360
    (seconds, memory), (_, empty) = least([program, "twin", path, "jam0", "200", "100", BUDGET], [program, "twin", path, "jam0", "200", "1", BUDGET])
    print(f"| `twin`, 200 steps, AFTER 100 | {seconds:.3f} s, {memory:.0f} MiB | AFTER 1: {empty:.0f} MiB | {(memory - empty) * 2**20 / literals:.1f} bytes a literal, which takes 4 itself | 10.4 |", flush=True)


ROWS = {"check": check_rows, "trace": trace_rows, "ask": ask_rows, "labels": label_rows, "model": model_rows, "verdicts": verdict_rows, "cheapest": cheapest_rows, "twin": twin_rows}


def main(program, names):
    print("| What | Here | Yardstick | Ratio (memory) | Goal |\n|---|---|---|---|---|")
    with tempfile.TemporaryDirectory() as folder:
        for name in names or ROWS:
            ROWS[name](program, folder)


if __name__ == "__main__":
    main(os.path.abspath(sys.argv[1]), sys.argv[2:]) if len(sys.argv) > 1 else sys.exit(__doc__)
